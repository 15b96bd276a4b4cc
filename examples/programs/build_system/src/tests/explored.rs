//! Builds in many orders of their threads.

use super::{names, read_well};
use crate::build::build_on;
use crate::console::Console;
use crate::graph::Graph;
use crate::messages::Outcome;
use crate::runner::Settings;
use seryugo::explore::{explore, Found, Strategy};
use seryugo::Switchboard;
use std::sync::Arc;

/// The threads of two workers, and of an object each, build in this way. Their commands are colons,
/// which start no process.
fn explored(way: Strategy, most: u64, makefile: &str, is_right: fn(&[Outcome]) -> bool) -> Found {
    let graph = Graph::of(&read_well(makefile), &names(&["all"])).expect("a graph");
    let settings = Settings {
        makefile: "makefile".to_string(),
        jobs: 2,
        is_dry_run: false,
        variables: Vec::new(),
    };
    let console = Console::default();
    explore(way, most, move |board: &Arc<Switchboard>| {
        let outcomes = build_on(board, &graph, &settings, &console).expect("no call fails");
        assert!(is_right(&outcomes), "{outcomes:?}");
    })
}

/// Two objects that need a third one.
const DIAMOND: &str = ".PHONY: all a b c\nall: a b\n\t@:\na: c\n\t@:\nb: c\n\t@:\nc:\n\t@:\n";

/// The object that both need can't be made.
const BROKEN: &str = ".PHONY: all a b\nall: a b\n\t@:\na: missing\n\t@:\nb: missing\n\t@:\n";

fn is_done(outcomes: &[Outcome]) -> bool {
    matches!(outcomes, [Outcome::Done { has_run: true, .. }])
}

fn is_not_tried(outcomes: &[Outcome]) -> bool {
    matches!(outcomes, [Outcome::NotTried])
}

#[test]
fn each_order_up_to_a_bound_builds_all() {
    let found = explored(Strategy::every().preemptions(1), 2_000, DIAMOND, is_done);
    assert!(found.is_clean(), "{found}");
}

#[test]
fn random_orders_build_all() {
    let found = explored(Strategy::random(1), 1_000, DIAMOND, is_done);
    assert!(found.is_clean(), "{found}");
}

/// Each run says once on standard error that there is no rule.
#[test]
fn what_fails_is_known_to_all_that_need_it() {
    let found = explored(Strategy::random(2), 20, BROKEN, is_not_tried);
    assert!(found.is_clean(), "{found}");
}
