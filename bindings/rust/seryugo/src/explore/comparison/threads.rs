//! Programs that are run by threads, and what comes of all their runs.

use super::Board;
use crate::explore::end::End;
use crate::explore::runs::Explorer;
use crate::explore::strategy::Strategy;
use std::collections::{BTreeMap, BTreeSet};
use std::fmt::Debug;
use std::sync::Mutex;

/// Keeps the journal at the end of a run.
pub fn keep(board: &Board, kept: &Mutex<String>) {
    let mut text = Vec::new();
    board.take_journal_open().unwrap().write_to(&mut text).unwrap();
    *kept.lock().unwrap() = String::from_utf8(text).unwrap();
}

/// What each seat has called and was answered, and how the run ended, in all runs; and how many runs
/// there were. The program keeps its journal.
pub fn outcomes<P: Debug>(
    strategy: &Strategy,
    plan: P,
    program: impl Fn(&Board, &Mutex<String>),
) -> (BTreeSet<String>, u64) {
    let kept = Mutex::new(String::new());
    let program = |board: &Board| program(board, &kept);
    let mut explorer = Explorer::new(strategy.clone());
    let mut outcomes = BTreeSet::new();
    for number in 0.. {
        let end = explorer.run(number, &program).end;
        if matches!(end, End::Unfit(_)) {
            // Polls are steps.
            let mut strategy = strategy.clone();
            strategy.limits.polls_are_steps = true;
            explorer = Explorer::new(strategy);
            outcomes.clear();
            continue;
        }
        let journal = match end {
            End::Done => kept.lock().unwrap().clone(),
            End::Stalled { .. } => explorer.bad(0, end.clone()).journal,
            end => panic!("{plan:?}: {end}"),
        };
        outcomes.insert(format!("{} {:?}", end.is_bad(), by_seats(&journal)));
        if !explorer.next_run() {
            assert_eq!(explorer.play.lock().beside, None, "{plan:?}");
            return (outcomes, number + 1);
        }
    }
    unreachable!("there are fewer runs than numbers")
}

/// The lines of each seat.
fn by_seats(journal: &str) -> BTreeMap<&str, String> {
    let mut seats: BTreeMap<&str, String> = BTreeMap::new();
    for line in journal.lines().filter(|line| line.starts_with("seat")) {
        seats.entry(line.split(' ').nth(1).unwrap()).or_default().push_str(line);
    }
    seats
}
