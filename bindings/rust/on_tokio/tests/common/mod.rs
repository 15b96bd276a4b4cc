//! What each test here needs.

// Each test is its own crate, and none needs all of it.
#![allow(dead_code)]

use seryugo::{Numbers, Switchboard};
use std::future::Future;
use std::sync::Arc;
use std::time::Duration;
use tokio::runtime::Builder;
use tokio::time::timeout;

/// More calls than a test here makes.
const MANY: u64 = 1_000_000;

/// What takes longer hangs, also on a slow machine.
pub const PATIENCE: Duration = Duration::from_secs(1_800);

/// Runs a scenario on tokio's runtime of one thread, and then on that of four. Fails if one hangs.
pub fn on_each_runtime<F: Future<Output = ()>>(scenario: impl Fn() -> F) {
    let mut builders = [Builder::new_current_thread(), Builder::new_multi_thread()];
    builders[1].worker_threads(4);
    for builder in &mut builders {
        let runtime = builder.enable_time().build().unwrap();
        let ended = runtime.block_on(async { timeout(PATIENCE, scenario()).await });
        ended.expect("a task sleeps though its seat is due");
    }
}

/// A switchboard that tasks share. It goes with the last of them. Their futures wait for nothing else.
pub fn board() -> Arc<Switchboard> {
    Arc::new(Switchboard::new(MANY).unwrap().open_waits_stall())
}

/// The same for numbers alone.
pub fn board_of_numbers() -> Arc<Switchboard<Numbers>> {
    Arc::new(Switchboard::of_numbers(MANY).unwrap().open_waits_stall())
}

pub fn ms(count: u64) -> Duration {
    Duration::from_millis(count)
}
