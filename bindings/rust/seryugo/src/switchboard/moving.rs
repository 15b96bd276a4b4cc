//! Lanes and feeds under a switchboard's lock: what they move into its journal.

use crate::error::Error;
use crate::message::carries::MessageKind;
use crate::raw::{self, done, written, Handle};
use crate::switchboard::call::Line;
use crate::switchboard::state::State;
use std::panic::{self, AssertUnwindSafe};

/// A drain or a pump moves at most this many messages: no ring has room for more.
pub(crate) const MOST_MOVED: u64 = 1024;

/// A lane that is open.
pub(crate) struct OpenLane {
    /// The object to which it sends.
    pub target: u64,
    /// How many of its messages have moved.
    moved: u64,
}

impl<R: MessageKind> State<R> {
    /// Opens a lane to this object, and returns its number.
    pub fn open_lane(&mut self, target: u64, capacity: usize) -> Result<(Handle, u64), Error> {
        let mut number = 0;
        let lane = Handle::opened(|lane| {
            raw::seryugo_lane_open(&mut self.handle, target, capacity, lane, &mut number)
        })?;
        self.lanes.insert(number, OpenLane { target, moved: 0 });
        Ok((lane, number))
    }

    /// How many messages were lost with their lanes.
    pub fn lost(&self) -> u64 {
        self.lost
    }

    /// Moves what is seen of an open lane into the journal, up to the first message that is
    /// refused.
    pub fn drain(&mut self, lane: u64) -> Result<u64, Error> {
        self.move_seen(|state| state.drain_unkept(lane))
    }

    /// Drains a lane, also while the sink refuses the entries of the last full journal. The next call
    /// still hands them over first.
    fn drain_unkept(&mut self, lane: u64) -> Result<u64, Error> {
        let count = written(|count| raw::seryugo_lane_drain(&mut self.handle, lane, count))?;
        if let Some(lane) = self.lanes.get_mut(&lane) {
            lane.moved = lane.moved.saturating_add(count);
        }
        Ok(count)
    }

    /// Receives what a feed is owed, up to the first message that is refused.
    pub fn pump(&mut self, feed: u64) -> Result<u64, Error> {
        self.move_seen(|state| {
            written(|count| raw::seryugo_feed_pump(&mut state.handle, feed, count))
        })
    }

    /// Makes a call that moves what it sees. If it stops at a full journal, and room is made there,
    /// it goes on.
    fn move_seen(&mut self, call: impl Fn(&mut Self) -> Result<u64, Error>) -> Result<u64, Error> {
        let mut last = self.move_once(&call)?;
        let mut moved = last;
        while last != 0 && moved < MOST_MOVED && self.cuts_now() {
            // If a message after the first is refused, the call returns how many moved.
            last = self.move_once(&call).unwrap_or_default();
            moved += last;
        }
        Ok(moved)
    }

    fn move_once(&mut self, call: impl Fn(&mut Self) -> Result<u64, Error>) -> Result<u64, Error> {
        self.makes_room(Line::SHORT).map_err(Error::of_code)?;
        if self.pending.is_some() {
            // It has an entry for each message.
            self.spare = 0;
        }
        call(self)
    }

    /// Whether the journal is full, and the next call cuts it.
    fn cuts_now(&mut self) -> bool {
        self.pending.is_some() && self.spare_now() == 0
    }

    /// Drains a lane until nothing more moves.
    pub fn drain_all(&mut self, lane: u64) -> Result<(), Error> {
        while self.drain(lane)? != 0 {}
        Ok(())
    }

    /// Closes a lane that has ended, once all of its messages have moved. It may be closed already,
    /// if a file had no room for its messages.
    pub fn close_lane(&mut self, number: u64, lane: &mut Handle) -> Result<(), Error> {
        if !self.lanes.contains_key(&number) {
            return Ok(());
        }
        self.drain_all(number)?;
        done(raw::seryugo_lane_close(&mut self.handle, lane))?;
        self.lanes.remove(&number);
        Ok(())
    }

    /// Moves what it can of an open lane on which this many messages were sent, and closes the lane:
    /// how many are lost.
    pub fn end_lane(&mut self, lane: u64, sent: u64) -> u64 {
        if !self.lanes.contains_key(&lane) {
            return 0;
        }
        // A lane may end as its thread panics, so that no panic of a sink may leave this: the sink
        // has failed.
        let drained = panic::catch_unwind(AssertUnwindSafe(|| self.drain_all(lane)));
        // Messages that are refused are lost. A file has no room for them.
        if !matches!(drained, Ok(Ok(()))) && self.file.is_none() {
            while self.drain_unkept(lane).is_ok_and(|count| count != 0) {}
        }
        raw::seryugo_lane_abandon(&mut self.handle, lane);
        let moved = self.lanes.remove(&lane).map_or(0, |lane| lane.moved);
        let lost = sent.saturating_sub(moved);
        self.lost = self.lost.saturating_add(lost);
        lost
    }
}
