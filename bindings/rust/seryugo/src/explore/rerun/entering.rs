//! A call that makes its entry of the journal again.

use super::follower::{Follower, Turn};
use super::line::line_of;
use super::threads;
use super::waits::{Caller, WaitKind, Waits};
use crate::error::Error;
use crate::journal::entry::Entry;
use crate::message::carries::MessageKind;
use crate::raw::{code, EntrySource};
use crate::switchboard::state::State;

/// A call whose entry is next.
pub(crate) struct Entering<'f, R: MessageKind> {
    follower: &'f Follower<R>,
    position: usize,
    caller: Caller,
}

impl<R: MessageKind> Follower<R> {
    /// Waits until the caller's next entry is next. `None`: all entries were made, and the call goes
    /// on freely.
    #[inline]
    pub fn enter(&self, caller: Caller, kind: WaitKind) -> Result<Option<Entering<'_, R>>, Error> {
        let thread = threads::calls_in(&self.notes);
        let maker = self.maker(caller.who);
        if let Some(maker) = maker {
            maker.used_by(thread);
        }
        let position = self.position_of(maker);
        let own = self.plan.entries.get(position);
        if kind == WaitKind::MayPass && own.is_some_and(|own| own.step != caller.step) {
            return Err(Error::TimedOut);
        }
        let waits = Waits {
            caller,
            kind,
            thread,
        };
        match self.wait(maker, position, &waits) {
            Turn::Own => Ok(Some(Entering {
                follower: self,
                position,
                caller,
            })),
            Turn::End => self.goes_on(caller).map(|()| None),
            Turn::Failed(error) => Err(error),
            Turn::GivenUp if kind == WaitKind::Blocks => Err(Error::Stalled),
            Turn::GivenUp => Err(Error::TimedOut),
        }
    }
}

impl<'f, R: MessageKind> Entering<'f, R> {
    pub fn follower(&self) -> &'f Follower<R> {
        self.follower
    }

    /// The entry that the call has made, while it has the lock.
    #[inline]
    pub fn made(&self, state: &mut State<R>) -> Option<Entry<R>> {
        R::entry(&mut state.handle, EntrySource::Room, self.position as u64).ok()
    }

    /// The call was made, and returned this code and this entry. `Ok`: it is the journal's, or the
    /// library has refused the call, as it has in the first run.
    #[inline]
    pub fn end(self, code: u32, made: Option<Entry<R>>) -> Result<u32, Error> {
        let follower = self.follower;
        match made {
            Some(made) if made == follower.plan.entries[self.position].entry => {
                follower.advance(self.position)?;
                Ok(code)
            }
            Some(made) => Err(follower.fails(self.position, line_of(&made))),
            None => Ok(self.refused(code)),
        }
    }

    /// The entries that the call has made, which are this many.
    pub fn made_from(&self, state: &mut State<R>, count: u64) -> Vec<Entry<R>> {
        let first = self.position as u64;
        let room = &mut state.handle;
        let entry = |position| R::entry(room, EntrySource::Room, position).ok();
        (first..first + count).map_while(entry).collect()
    }

    /// The call has made these entries.
    pub fn end_each(&self, made: Vec<Entry<R>>) -> Result<(), Error> {
        (self.position..).zip(made).try_for_each(|(position, made)| {
            let own = self.follower.plan.entries.get(position);
            match own.is_some_and(|own| own.entry == made) {
                true => self.follower.advance(position),
                false => Err(self.follower.fails(position, line_of(&made))),
            }
        })
    }

    #[cold]
    fn refused(self, code: u32) -> u32 {
        let code = if code == code::PARKED {
            code::STALLED
        } else {
            code
        };
        if let Some(maker) = self.follower.maker(self.caller.who) {
            let why = Error::of_code(code).why();
            maker.refused(format!("{}: refused, since {why}", self.caller));
        }
        code
    }
}
