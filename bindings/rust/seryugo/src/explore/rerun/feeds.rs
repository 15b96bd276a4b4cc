//! Feeds in a rerun: what a feed pumps it pumps as its entries are next.

use super::entering::Entering;
use super::follower::Follower;
use super::waits::{Caller, WaitKind};
use crate::error::Error;
use crate::explore::step::{Step, StepKind, NONE};
use crate::journal::entry::Who;
use crate::message::carries::MessageKind;
use crate::raw::code;
use crate::switchboard::state::State;
use crate::switchboard::Switchboard;

impl<R: MessageKind> Switchboard<R> {
    /// Opens a feed of this channel by this call, which makes its port by an entry.
    pub(crate) fn open_feed<T>(
        &self,
        channel: u64,
        open: impl FnOnce(&mut State<R>) -> Result<T, Error>,
    ) -> Result<T, Error> {
        let Some(follower) = self.follower() else {
            return self.change(None, open);
        };
        let caller = Caller {
            who: Who::Feed(follower.next_feed()),
            step: StepKind::Port.on(channel),
        };
        let opened = match follower.enter(caller, WaitKind::Made)? {
            None => self.change(None, open)?,
            Some(entering) => {
                let (opened, made) = self.change(None, |state| {
                    let opened = open(state);
                    (opened, entering.made(state))
                });
                entering.end(code::DONE, made)?;
                self.move_lanes(follower);
                opened?
            }
        };
        follower.comes();
        Ok(opened)
    }

    /// Receives what the feed of this number is owed: how many messages. In a rerun that is what it
    /// received in the first run, by its next entries. If it then received nothing, it may wait in
    /// vain for a while.
    pub(crate) fn pump(&self, feed: u64) -> Result<u64, Error> {
        let Some(follower) = self.follower() else {
            return self.change(None, |state| state.pump(feed));
        };
        let caller = Caller {
            who: Who::Feed(feed),
            step: follower.step_of(Who::Feed(feed)).unwrap_or(StepKind::Recv.on(NONE)),
        };
        match follower.enter(caller, WaitKind::MayPass) {
            Ok(Some(entering)) => self.pump_again(follower, &entering, feed),
            Ok(None) => self.change(None, |state| state.pump(feed)),
            Err(Error::TimedOut) => Ok(0),
            Err(error) => Err(error),
        }
    }

    fn pump_again(
        &self,
        follower: &Follower<R>,
        entering: &Entering<'_, R>,
        feed: u64,
    ) -> Result<u64, Error> {
        let (pumped, made) = self.change(None, |state| {
            let pumped = state.pump(feed);
            let count = *pumped.as_ref().unwrap_or(&0);
            (pumped, entering.made_from(state, count))
        });
        entering.end_each(made)?;
        self.move_lanes(follower);
        pumped
    }
}

impl<R: MessageKind> Follower<R> {
    /// The step of this one's next entry.
    fn step_of(&self, who: Who) -> Option<Step> {
        Some(self.plan.entries[self.maker(who)?.next()?].step)
    }
}
