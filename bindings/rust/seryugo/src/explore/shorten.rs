//! A shorter schedule that ends as the first bad one did.

use super::end::End;
use super::found::Bad;
use super::runs::Explorer;
use super::strategy::Strategy;
use crate::message::carries::MessageKind;
use crate::switchboard::Switchboard;
use std::sync::Arc;
use std::time::{Duration, Instant};

/// It looks for a shorter schedule with this many preemptions at the most,
const PREEMPTIONS: u32 = 2;
/// in this many runs for each bound, and no longer than this in all.
const RUNS: u64 = 2_000;
const TIME: Duration = Duration::from_secs(1);

/// A short run of those with the fewest preemptions that end as this one.
pub(super) fn shortened<R: MessageKind>(
    strategy: &Strategy,
    bad: Bad,
    program: &impl Fn(&Arc<Switchboard<R>>),
) -> Bad {
    if !matches!(bad.end, End::Stalled { .. } | End::Panicked { .. }) || strategy.is_again() {
        return bad;
    }
    let start = Instant::now();
    let is_late = || start.elapsed() > TIME;
    let within = |most, steps| {
        let strategy = strategy.bounded(most).steps(steps);
        first_like(&Explorer::new(strategy), &bad, program, &is_late)
    };
    let found = (0..=PREEMPTIONS).find_map(|most| Some((most, within(most, bad.steps)?)));
    let Some((most, mut best)) = found else {
        return bad;
    };
    while let Some(shorter) = best.steps.checked_sub(1).and_then(|steps| within(most, steps)) {
        best = shorter;
    }
    best
}

/// The first of these runs that ends as this one.
fn first_like<R: MessageKind>(
    explorer: &Explorer,
    bad: &Bad,
    program: &impl Fn(&Arc<Switchboard<R>>),
    is_late: &impl Fn() -> bool,
) -> Option<Bad> {
    for run in 0..RUNS {
        let end = explorer.run(run, program).end;
        if end.is_like(&bad.end) {
            return Some(explorer.bad(bad.run, end));
        }
        if is_late() || matches!(end, End::NotDeterministic(_)) || !explorer.next_run() {
            return None;
        }
    }
    None
}
