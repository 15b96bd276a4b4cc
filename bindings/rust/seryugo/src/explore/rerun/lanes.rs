//! Lanes in a rerun.
//!
//! What a lane sends waits in a list. Once its entry is next, one message goes through the lane's
//! ring into the journal, by the thread that sees it first. So a lane's thread never waits to send,
//! and its drains move nothing themselves.

use super::follower::Follower;
use super::line::{line_of, name_of};
use super::waits::{Caller, WaitKind, Waits};
use super::{threads, AtEnd};
use crate::error::Error;
use crate::explore::step::{StepKind, NONE};
use crate::journal::entry::Who;
use crate::message::carries::MessageKind;
use crate::raw::{self, code, done, EntrySource, Handle};
use crate::switchboard::Switchboard;
use std::collections::VecDeque;
use std::mem;
use std::sync::{Arc, Mutex, MutexGuard, PoisonError};

/// A lane of a switchboard that is rerun.
pub(crate) struct RerunLane<R: MessageKind> {
    number: u64,
    ring: Mutex<Ring<R>>,
}

struct Ring<R: MessageKind> {
    handle: Handle,
    /// What was sent, and waits for its entry.
    waiting: VecDeque<R::OwnedMessage>,
    /// How many have moved since the last drain.
    moved: u64,
    /// How many were sent, once the lane was dropped.
    ended: Option<u64>,
}

impl<R: MessageKind> RerunLane<R> {
    fn lock(&self) -> MutexGuard<'_, Ring<R>> {
        self.ring.lock().unwrap_or_else(PoisonError::into_inner)
    }

    fn who(&self) -> Who {
        Who::Lane(self.number)
    }

    fn is_empty(&self) -> bool {
        self.lock().waiting.is_empty()
    }
}

impl<R: MessageKind> Ring<R> {
    /// Sends what waits on the lane, as far as that has room.
    fn flush(&mut self) {
        while let Some(message) = self.waiting.front() {
            if R::lane_send(&mut self.handle, R::sent(message)) != code::DONE {
                return;
            }
            self.waiting.pop_front();
        }
    }
}

/// The calls of lanes.
impl<R: MessageKind> Switchboard<R> {
    /// A lane was opened. `Err`: the switchboard isn't rerun, and the handle is the lane's own.
    pub(crate) fn lane_again(
        &self,
        number: u64,
        handle: Handle,
    ) -> Result<Arc<RerunLane<R>>, Handle> {
        let Some(follower) = self.follower() else {
            return Err(handle);
        };
        let lane = Arc::new(RerunLane {
            number,
            ring: Mutex::new(Ring {
                handle,
                waiting: VecDeque::new(),
                moved: 0,
                ended: None,
            }),
        });
        follower.comes();
        follower.lanes().insert(number, Arc::clone(&lane));
        Ok(lane)
    }

    /// Sends a message on a lane.
    #[cold]
    pub(crate) fn lane_sends(
        &self,
        lane: &RerunLane<R>,
        message: R::OwnedMessage,
    ) -> Result<(), Error> {
        let Some(follower) = self.follower() else {
            return Ok(());
        };
        follower.is_called_by(lane.who());
        follower.is_on_course()?;
        let mut ring = lane.lock();
        if follower.is_free() {
            ring.flush();
            if !ring.waiting.is_empty() {
                return Err(Error::Full);
            }
            return done(R::lane_send(&mut ring.handle, R::sent(&message)));
        }
        ring.waiting.push_back(message);
        drop(ring);
        self.move_lanes(follower);
        follower.is_on_course()
    }

    /// Waits until what was sent on the lane has moved, as it has in the first run: how many have
    /// moved since the last drain.
    pub(crate) fn lane_drains(&self, lane: &RerunLane<R>) -> Result<u64, Error> {
        let Some(follower) = self.follower() else {
            return Ok(0);
        };
        follower.wait_for_lane(lane, || {
            let makes_none = follower.maker(lane.who()).is_none_or(|maker| maker.next().is_none());
            lane.is_empty() || (makes_none && !follower.is_over())
        })?;
        self.drain_again(follower, lane)
    }

    /// How many messages of the lane of this number have moved since its last drain.
    pub(crate) fn drained_again(&self, follower: &Follower<R>, number: u64) -> Result<u64, Error> {
        let lane = follower.lanes().get(&number).cloned();
        let lane = lane.ok_or(Error::Unknown(code::NO_SUCH))?;
        self.drain_again(follower, &lane)
    }

    fn drain_again(&self, follower: &Follower<R>, lane: &RerunLane<R>) -> Result<u64, Error> {
        let mut ring = lane.lock();
        let mut moved = mem::take(&mut ring.moved);
        while follower.is_free() {
            ring.flush();
            let count = self.change(None, |state| state.drain(lane.number))?;
            moved += count;
            if count == 0 {
                break;
            }
        }
        Ok(moved)
    }

    /// Closes a lane once what was sent on it has moved.
    pub(crate) fn lane_closes(&self, lane: &RerunLane<R>) -> Result<(), Error> {
        let Some(follower) = self.follower() else {
            return Ok(());
        };
        follower.wait_for_lane(lane, || lane.is_empty())?;
        self.drain_again(follower, lane)?;
        let mut ring = lane.lock();
        if !ring.waiting.is_empty() {
            // In the first run they have moved later, so that its call has failed.
            return Err(Error::JournalFull);
        }
        raw::seryugo_lane_finish(&mut ring.handle);
        self.change(None, |state| state.close_lane(lane.number, &mut ring.handle))?;
        follower.lanes().remove(&lane.number);
        follower.leaves(lane.who());
        Ok(())
    }

    /// A lane is dropped on which this many messages were sent. Those that have entries left are
    /// still moved.
    pub(crate) fn lane_ends(&self, lane: &RerunLane<R>, sent: u64) -> u64 {
        let Some(follower) = self.follower() else {
            return 0;
        };
        let mut ring = lane.lock();
        ring.ended = Some(sent);
        if follower.is_free() {
            ring.flush();
        }
        self.abandon_again(follower, lane, &ring)
    }

    /// Ends a lane that was dropped, once none of its messages has an entry left: how many are lost.
    fn abandon_again(&self, follower: &Follower<R>, lane: &RerunLane<R>, ring: &Ring<R>) -> u64 {
        let Some(sent) = ring.ended else { return 0 };
        let makes_more = follower.maker(lane.who()).is_some_and(|maker| maker.next().is_some());
        if makes_more && !ring.waiting.is_empty() {
            return 0;
        }
        follower.lanes().remove(&lane.number);
        let lost = self.end_lane(lane.number, sent);
        follower.leaves(lane.who());
        lost
    }

    /// Moves messages of lanes while the entries that are next are theirs.
    pub(crate) fn move_lanes(&self, follower: &Follower<R>) {
        while let Some((position, lane)) = follower.next_lane() {
            if !self.move_one(follower, position, &lane) {
                return;
            }
        }
    }

    /// Moves the message of the entry at this position. `false`: it wasn't sent yet.
    fn move_one(&self, follower: &Follower<R>, position: usize, lane: &RerunLane<R>) -> bool {
        let mut ring = lane.lock();
        if follower.cursor() != position {
            // Another thread has moved it.
            return true;
        }
        let Some(message) = ring.waiting.pop_front() else {
            return false;
        };
        // The ring is empty, so that it has room, and this message alone moves.
        let sent = R::lane_send(&mut ring.handle, R::sent(&message));
        let (drained, made) = self.change(None, |state| {
            let drained = done(sent).and_then(|()| state.drain(lane.number));
            (drained, R::entry(&mut state.handle, EntrySource::Room, position as u64).ok())
        });
        ring.moved += 1;
        match (made, drained) {
            (Some(made), _) if made == follower.plan.entries[position].entry => {
                let is_made = follower.advance(position).is_ok();
                self.abandon_again(follower, lane, &ring);
                if let Some(maker) = follower.maker(lane.who()) {
                    maker.wake();
                }
                is_made
            }
            (Some(made), _) => {
                follower.diverge(position, line_of(&made));
                false
            }
            (None, drained) => {
                let why = drained.err().unwrap_or(Error::Unseen).why();
                let name = name_of(lane.who());
                follower.diverge(position, format!("{name}: refused, since {why}"));
                false
            }
        }
    }
}

impl<R: MessageKind> Follower<R> {
    /// The lane whose entry is next, and the entry's position. `None`: it isn't a lane's, or the
    /// lane isn't open.
    fn next_lane(&self) -> Option<(usize, Arc<RerunLane<R>>)> {
        let position = self.cursor();
        match self.plan.entries.get(position)?.entry.who {
            Who::Lane(number) => Some((position, self.lanes().get(&number).cloned()?)),
            _ => None,
        }
    }

    /// This thread calls by this lane: its number.
    fn is_called_by(&self, who: Who) -> u64 {
        let thread = threads::calls_in(&self.notes);
        if let Some(maker) = self.maker(who) {
            maker.used_by(thread);
        }
        thread
    }

    /// Whether all entries were made, and calls go on freely.
    fn is_free(&self) -> bool {
        self.cursor() == self.end() && self.habits.at_end == AtEnd::GoOn
    }

    /// Waits until this is so, or the end, or in vain.
    fn wait_for_lane(&self, lane: &RerunLane<R>, is_so: impl Fn() -> bool) -> Result<(), Error> {
        let who = lane.who();
        let waits = Waits {
            caller: Caller {
                who,
                step: StepKind::Send.on(NONE),
            },
            kind: WaitKind::Moves,
            thread: self.is_called_by(who),
        };
        self.wait_for(self.maker(who), &waits, || (is_so() || self.is_over()).then_some(()));
        self.is_on_course()?;
        if is_so() || self.cursor() != self.end() {
            return Ok(());
        }
        self.goes_on(waits.caller)
    }
}
