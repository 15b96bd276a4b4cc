//! Has all that was said synced to the disk, and then handed to the publisher. All who wait share a sync.

use crate::directory::Room;
use crate::messages::Said;
use crate::queue::Queue;
use seryugo::explore::{Condition, Guard, Lock};
use seryugo::Error;
use std::sync::Arc;
use std::time::Duration;

/// How long a client that waits for the disk waits for others.
pub const GATHER: Duration = Duration::from_millis(5);

/// What was said, each with its room. Those of a room are in the order of their numbers.
pub type Messages = Vec<(Arc<Room>, Arc<Said>)>;

pub struct Keeper {
    gather: Duration,
    state: Lock<State>,
    /// A client waits, the server ends, or a call has failed.
    work: Condition,
    /// A sync has ended.
    progress: Condition,
}

#[derive(Default)]
struct State {
    /// What was sent since the last sync began.
    said: Messages,
    is_wanted: bool,
    is_ending: bool,
    /// Why nothing more can be kept.
    failure: Option<Error>,
    /// How many syncs were begun, and how many have ended.
    begun: u64,
    ended: u64,
}

impl Keeper {
    /// A keeper that waits so long before a sync.
    pub fn new(gather: Duration) -> Keeper {
        Keeper {
            gather,
            state: Lock::default(),
            work: Condition::new(),
            progress: Condition::new(),
        }
    }

    /// Adds a message that was sent to its room's queue.
    pub fn add(&self, room: Arc<Room>, said: Arc<Said>) {
        let mut state = self.lock();
        state.said.push((room, said));
        self.want(&mut state);
    }

    /// Waits until the disk has all calls that returned before.
    pub fn keep_all(&self) {
        let mut state = self.lock();
        let wanted = state.begun + 1;
        self.want(&mut state);
        drop(self.progress.wait_while(state, |state| state.ended < wanted));
    }

    /// Has the keeper end, once all is kept.
    pub fn end(&self) {
        self.lock().is_ending = true;
        self.work.notify_one();
    }

    /// Has the keeper fail as a call did: the file takes no more.
    pub fn fail(&self, error: Error) {
        self.lock().failure = Some(error);
        self.work.notify_one();
    }

    /// Syncs by this function as often as it is wanted, until the end. Then hands over to the publisher what the disk has.
    pub fn run(&self, mut sync: impl FnMut() -> Result<(), Error>, publisher: &Queue) -> Result<(), Error> {
        loop {
            let (said, begun, is_last) = self.next_said()?;
            sync()?;
            said.iter().for_each(|(room, said)| room.history.add(said.clone()));
            self.lock().ended = begun;
            self.progress.notify_all();
            publisher.push(said);
            if is_last {
                publisher.end();
                return Ok(());
            }
        }
    }

    /// Waits until a sync is wanted, and begins it. Returns what was sent before, and whether it is the last one.
    fn next_said(&self) -> Result<(Messages, u64, bool), Error> {
        let is_idle = |state: &mut State| !state.is_ending && state.failure.is_none();
        let state = self.work.wait_while(self.lock(), |state| !state.is_wanted && is_idle(state));
        let (mut state, _) = self.work.wait_timeout_while(state, self.gather, is_idle);
        if let Some(error) = state.failure.take() {
            return Err(error);
        }
        state.is_wanted = false;
        state.begun += 1;
        Ok((std::mem::take(&mut state.said), state.begun, state.is_ending))
    }

    fn want(&self, state: &mut State) {
        if !state.is_wanted {
            state.is_wanted = true;
            self.work.notify_one();
        }
    }

    fn lock(&self) -> Guard<'_, State> {
        self.state.lock()
    }
}
