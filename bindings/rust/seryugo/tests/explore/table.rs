//! The philosophers of the examples.

#[path = "../../examples/philosophers.rs"]
#[allow(dead_code)]
mod philosophers;

use seryugo::explore::{again, End};
use std::fs;
use std::path::Path;

/// If they sit down in turn, their journal is that of the script. The tests of charts draw it.
#[test]
fn the_journal_of_the_deadlock_is_one_that_is_drawn() {
    let found = philosophers::find();
    let bad = found.bad().expect("a deadlock");
    assert!(matches!(bad.end(), End::Stalled { waits, .. } if waits.len() == 4), "{found}");
    let in_turn = again("123", philosophers::dine);
    let same = in_turn.bad().expect("a deadlock");
    assert_eq!(same.end(), bad.end());
    let scripts = Path::new(env!("CARGO_MANIFEST_DIR")).join("../../../examples/scripts");
    let journal = fs::read_to_string(scripts.join("three_philosophers.journal")).unwrap();
    assert_eq!(same.journal(), journal);
}
