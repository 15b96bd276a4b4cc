//! Who decides when the calls of a switchboard are made: an exploration, or a rerun.

use super::board::Pass;
use super::play::Play;
use super::rerun::{Caller, Entering, Follower, WaitKind, Waits};
use super::step::{Step, StepKind, NONE};
use crate::error::Error;
use crate::journal::entry::{Call, Who};
use crate::message::carries::{Bytes, MessageKind};
use crate::park::parker::Parker;
use crate::raw::{self, Handle, Reader};
use crate::request::answers::Answers;
use crate::switchboard::call::Line;
use crate::switchboard::state::State;
use crate::switchboard::Switchboard;
use std::sync::Arc;

/// Who decides when the calls of a switchboard are made.
pub(crate) enum Conductor<R: MessageKind> {
    Exploration(Arc<Play>),
    Rerun(Arc<Follower<R>>),
}

impl<R: MessageKind> Switchboard<R> {
    /// Has this one decide when the calls are made.
    pub(crate) fn conducted_by(mut self, conductor: Conductor<R>) -> Switchboard<R> {
        self.conductor = Some(conductor);
        self
    }

    /// Makes a call of a seat that never blocks once it may be made.
    #[cold]
    pub(crate) fn call_conducted(
        &self,
        conductor: &Conductor<R>,
        by: &Parker,
        seat: u64,
        step: Step,
        call: impl FnOnce(&mut Handle) -> u32,
    ) -> Result<u32, Error> {
        let entering = match conductor {
            Conductor::Exploration(play) => {
                play.pass(self, seat, step, false);
                None
            }
            Conductor::Rerun(follower) => {
                follower.enter(Caller::of_seat(seat, step), WaitKind::Made)?
            }
        };
        let call = |state: &mut State<R>| state.enter(Line::SHORT, call);
        match entering {
            None => Ok(self.change(Some(by), call)),
            Some(entering) => self.make_again(entering, call),
        }
    }

    /// Makes a call whose entry is next in a rerun.
    fn make_again(
        &self,
        entering: Entering<'_, R>,
        call: impl FnOnce(&mut State<R>) -> u32,
    ) -> Result<u32, Error> {
        let (code, made) = self.change(None, |state| {
            let code = call(state);
            (code, entering.made(state))
        });
        let follower = entering.follower();
        let code = entering.end(code, made)?;
        if follower.plan.has_lanes() {
            self.move_lanes(follower);
        }
        Ok(code)
    }

    /// The same of a call that may block. `None`: it may be made as any other.
    #[cold]
    pub(crate) fn ask_conducted(
        &self,
        conductor: &Conductor<R>,
        seat: u64,
        step: Step,
        is_timed: bool,
        call: impl FnOnce(&mut State<R>) -> u32,
    ) -> Result<Option<u32>, Error> {
        let kind = if is_timed {
            WaitKind::MayPass
        } else {
            WaitKind::Blocks
        };
        match conductor {
            Conductor::Exploration(play) => match play.pass(self, seat, step, is_timed) {
                Pass::Go | Pass::Pending => Ok(None),
                Pass::TimedOut => Err(Error::TimedOut),
                Pass::Stalled => Err(Error::Stalled),
            },
            Conductor::Rerun(follower) => {
                let entering = follower.enter(Caller::of_seat(seat, step), kind)?;
                entering.map(|entering| self.make_again(entering, call)).transpose()
            }
        }
    }

    /// Before what an object has is read.
    #[inline]
    pub(crate) fn pass_to_look(&self, object: u64) {
        self.pass(StepKind::Look.on(object));
    }

    /// Before the journal is read or cut.
    #[inline]
    pub(crate) fn pass_to_look_at_all(&self) {
        self.pass(StepKind::LookAtAll.on(NONE));
    }

    /// Before a step that no seat makes. In an exploration this waits until it is this thread's
    /// turn. Otherwise it is a branch.
    #[inline]
    pub(crate) fn pass(&self, step: Step) {
        if let Some(play) = self.exploration() {
            play.pass(self, NONE, step, false);
        }
    }

    /// Makes such a step by this call. This number of its answer has no entry.
    #[inline]
    pub(crate) fn pass_by<T>(
        &self,
        step: Step,
        call: impl FnOnce() -> Result<T, Error>,
        number: impl FnOnce(&T) -> u64,
    ) -> Result<T, Error> {
        self.pass(step);
        let answer = call();
        if let Some(play) = self.exploration() {
            play.saw(self, answer.as_ref().map_or(NONE, number));
        }
        answer
    }

    /// Before a step that no other thread sees. In an exploration it is counted.
    #[inline]
    pub(crate) fn count_step(&self, step: impl FnOnce() -> Step) {
        if let Some(play) = self.exploration() {
            play.count(self, step());
        }
    }

    pub(crate) fn is_explored(&self) -> bool {
        self.exploration().is_some()
    }

    /// Before what a rerun doesn't know.
    ///
    /// # Panics
    ///
    /// In a rerun.
    #[inline]
    pub(crate) fn refuse_if_rerun(&self, what: &str) {
        if let Some(Conductor::Rerun(_)) = &self.conductor {
            refuse("a rerun", what);
        }
    }

    /// The exploration that has this switchboard.
    #[inline]
    pub(crate) fn exploration(&self) -> Option<&Play> {
        match &self.conductor {
            Some(Conductor::Exploration(play)) => Some(play),
            _ => None,
        }
    }

    /// The rerun that has this switchboard.
    pub(crate) fn follower(&self) -> Option<&Arc<Follower<R>>> {
        match &self.conductor {
            Some(Conductor::Rerun(follower)) => Some(follower),
            _ => None,
        }
    }

    /// Whether this seat makes the object of this number in a rerun, by its next entry or after the
    /// last one. Otherwise this waits until another seat has made it.
    pub(crate) fn makes_again(&self, follower: &Follower<R>, seat: u64, number: u64) -> bool {
        if follower.makes_next(seat, number) {
            return true;
        }
        let is_there = |number| raw::read(&mut self.lock().handle, Reader::Kind, number).is_ok();
        let ask = || (is_there(number) || follower.is_over()).then_some(());
        follower.wait_for(None, &Waits::of_seat(seat), ask);
        !is_there(number) && number.checked_sub(1).is_none_or(is_there)
    }

    /// A seat was made.
    pub(crate) fn seat_comes(&self, seat: u64) {
        if let Some(follower) = self.follower() {
            follower.seat_comes(seat);
        }
    }

    /// This one makes no more calls.
    pub(crate) fn leaves(&self, who: Who) {
        if let Some(follower) = self.follower() {
            follower.leaves(who);
        }
    }
}

#[cold]
fn refuse(who: &str, what: &str) -> ! {
    panic!("{who} doesn't know {what} yet: use the calls of seats that block")
}

impl Switchboard<Bytes> {
    /// Where a seat that asks for the first time may have its questions answered. `None`: it makes
    /// a mailbox.
    pub(crate) fn answers_for(&self, seat: u64) -> Option<Answers> {
        match &self.conductor {
            None => self.locked().ok()?.free_answers.pop(),
            // Which are free depends on the order of seats.
            Some(Conductor::Exploration(_)) => None,
            Some(Conductor::Rerun(follower)) => self.answers_again(follower, seat),
        }
    }

    /// The same as in the first run: the seat's next entry is a question, which names the mailbox,
    /// or makes one. The seat that had it before leaves in time.
    fn answers_again(&self, follower: &Follower<Bytes>, seat: u64) -> Option<Answers> {
        let Call::Send(_, question) = follower.next_call_of(seat)? else {
            return None;
        };
        let mailbox = u64::from_le_bytes(*question.first_chunk()?);
        let waits = Waits::of_seat(seat);
        follower.wait_for(None, &waits, || {
            let free = &mut self.lock().free_answers;
            let at = free.iter().position(|answers| answers.mailbox == mailbox)?;
            Some(free.swap_remove(at))
        })
    }
}
