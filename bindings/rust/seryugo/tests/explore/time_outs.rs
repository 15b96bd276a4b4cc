//! Calls whose time passes though something else can happen.

use crate::programs::{seat, Board};
use seryugo::explore::{again, explore, scope, End, Strategy};
use seryugo::Error;
use std::time::Duration;

const HOUR: Duration = Duration::from_secs(3_600);

/// Once its time has passed it looks no more.
fn gives_up(board: &Board) {
    let (mut sends, mut receives) = (seat(board), seat(board));
    let letters = receives.mailbox().unwrap();
    scope(|threads| {
        threads.spawn(move || sends.send(letters, 5).unwrap());
        threads.spawn(move || match receives.recv_timeout(letters, HOUR) {
            Ok(letter) => assert_eq!(letter, 5),
            Err(error) => assert_eq!(error, Error::TimedOut),
        });
    });
    assert_eq!(board.owed(letters), Ok(0), "a letter is left");
}

#[test]
fn a_letter_that_comes_too_late() {
    assert!(explore(Strategy::every(), 100, gives_up).is_clean());
    let found = explore(Strategy::every().time_outs(1), 100, gives_up);
    let bad = found.bad().unwrap_or_else(|| panic!("{found}"));
    assert!(bad.schedule().starts_with("!1:"), "{bad}");
    let once_more = again(bad.schedule(), gives_up);
    let End::Panicked { message, .. } = once_more.bad().unwrap().end() else {
        panic!("{once_more}")
    };
    assert!(message.contains("a letter is left"), "{message}");
    for way in [
        Strategy::random(1),
        Strategy::priorities(1, 2),
        Strategy::every().preemptions(1),
    ] {
        let found = explore(way.time_outs(1), 100, gives_up);
        assert!(found.bad().is_some(), "{found}");
    }
}

/// It asks again as often as its time passes, which was no time.
#[test]
fn a_limit_of_no_time() {
    let program = |board: &Board| {
        let (mut sends, mut receives) = (seat(board), seat(board));
        let letters = receives.mailbox().unwrap();
        scope(|threads| {
            threads.spawn(move || sends.send(letters, 5).unwrap());
            threads.spawn(move || {
                while let Err(error) = receives.recv_timeout(letters, Duration::ZERO) {
                    assert_eq!(error, Error::TimedOut);
                }
            });
        });
        assert_eq!(board.owed(letters), Ok(0));
    };
    let runs = |most| {
        let found = explore(Strategy::every_plainly().time_outs(most), 1_000, program);
        assert!(found.is_clean() && found.is_whole(), "{found}");
        found.runs()
    };
    assert_eq!([0, 1, 2].map(runs), [1, 3, 6]);
}
