//! Cases that the tests of other channels try, on mailboxes, channels, variables and lanes.
//! `docs/PEERS.md` has each case of those tests, and says what became of it.

#[path = "../common/mod.rs"]
mod common;

mod broadcast;
mod broadcast_limits;
mod golang;
mod iter;
mod list;
mod list_threads;
mod mpsc;
mod mpsc_iter;
mod mpsc_oneshot;
mod mpsc_sync;
mod mpsc_sync_gone;
mod task;
mod thread_locals;

use seryugo::{MessageKind, Seat, Switchboard};
use std::time::Duration;

/// More calls than a test here makes.
const MANY: u64 = 1_000_000;

/// Seats of a switchboard.
fn seats<R: MessageKind, const COUNT: usize>(board: &Switchboard<R>) -> [Seat<'_, R>; COUNT] {
    std::array::from_fn(|_| board.seat().unwrap())
}

fn ms(count: u64) -> Duration {
    Duration::from_millis(count)
}
