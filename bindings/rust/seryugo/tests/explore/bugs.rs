//! Programs with a bug: each is found, and its schedule finds it again.

use crate::buggy::{
    closed_port, double_take, flag, late_port, lost_update, lost_wake, no_end, two_locks,
};
use crate::programs::{philosophers, seat, Board};
use seryugo::explore::{self, again, explore, End, Found, Strategy};
use seryugo::Error;
use std::time::Duration;

/// A program with a bug: every way finds it, and its schedule leads there again.
pub fn found(program: impl Fn(&Board)) -> Found {
    let found = explore(Strategy::every(), 10_000, &program);
    println!("{found}");
    let bad = found.bad().expect("a bug");
    for way in [
        Strategy::every_plainly(),
        Strategy::every().preemptions(2),
        Strategy::random(1),
        Strategy::priorities(1, 3),
    ] {
        let other = explore(way, 10_000, &program);
        assert!(!other.is_clean(), "{other}");
        let end = other.bad().unwrap();
        let once_more = again(end.schedule(), &program);
        assert_eq!(once_more.bad().expect("the same").end(), end.end());
    }
    let once_more = again(bad.schedule(), &program);
    let same = once_more.bad().expect("the same");
    assert_eq!((same.end(), same.journal()), (bad.end(), bad.journal()));
    found
}

/// It ends by a panic that says this.
pub fn panics(program: impl Fn(&Board), says: &str) {
    let found = found(program);
    let End::Panicked { message, .. } = found.bad().unwrap().end() else {
        panic!("{found}")
    };
    assert!(message.contains(says) && message.contains("tests/explore/"), "{message}");
}

/// It ends with threads that wait at these calls.
fn stalls(program: impl Fn(&Board), calls: &[&str]) {
    let found = found(program);
    let End::Stalled { waits, .. } = found.bad().unwrap().end() else {
        panic!("{found}")
    };
    let at: Vec<&str> = waits.iter().filter_map(|waits| waits.call.as_deref()).collect();
    assert_eq!(at, calls);
}

#[test]
fn philosophers_who_all_take_the_left_fork() {
    stalls(|board| philosophers(board, 3, 1, false), &["take 1", "take 2", "take 0"]);
}

#[test]
fn two_locks_in_both_orders() {
    stalls(two_locks, &["take 1", "take 0"]);
}

#[test]
fn a_lost_update() {
    panics(lost_update, "an update is lost");
}

#[test]
fn two_that_take_what_both_have_seen() {
    stalls(double_take, &["take 0"]);
}

#[test]
fn a_port_that_comes_too_late() {
    // It gets a later message, or none.
    let found = found(late_port);
    let end = found.bad().unwrap().end();
    assert!(matches!(end, End::Panicked { .. } | End::Stalled { .. }), "{found}");
}

#[test]
fn a_message_to_a_port_that_is_closed() {
    panics(closed_port, "the message came too late");
}

#[test]
fn a_receiver_that_nobody_tells_of_the_end() {
    let found = found(no_end);
    let End::Stalled {
        fails_as_stalled, ..
    } = found.bad().unwrap().end()
    else {
        panic!("{found}")
    };
    assert!(fails_as_stalled, "{found}");
}

#[test]
fn a_seat_that_stays_free() {
    let program = |board: &Board| {
        let mut main = seat(board);
        let letters = main.mailbox::<u64>().unwrap();
        explore::scope(|threads| {
            let mut receives = seat(board);
            threads.spawn(move || receives.recv(letters).unwrap());
        });
    };
    let found = found(program);
    let End::Stalled {
        fails_as_stalled,
        free,
        ..
    } = found.bad().unwrap().end()
    else {
        panic!("{found}")
    };
    assert_eq!((*fails_as_stalled, &free[..]), (false, &[0][..]), "{found}");
    assert!(found.to_string().contains("block for ever, without `Stalled`: seat 0 is free"));
}

#[test]
fn a_flag_beside_the_board_that_is_marked() {
    stalls(|board| flag(board, || explore::aside(0)), &["recv 0"]);
}

#[test]
fn a_flag_beside_the_board_that_is_not_marked() {
    // What it does with the flag is in one piece, so that only the order of the pieces is open.
    let found = explore(Strategy::every(), 10_000, |board| flag(board, || ()));
    println!("{found}");
    assert!(found.is_clean() && found.beside().is_some(), "{found}");
}

#[test]
fn a_flag_beside_the_board_that_is_found_since_the_runs_differ() {
    let found = found(lost_wake);
    assert!(found.to_string().contains("beside the board"), "{found}");
}

#[test]
fn a_loop_that_polls() {
    let program = |board: &Board| {
        let letters = seat(board).mailbox().unwrap();
        explore::scope(|threads| {
            let (mut sends, mut receives) = (seat(board), seat(board));
            threads.spawn(move || while receives.recv_poll(letters).unwrap().is_none() {});
            threads.spawn(move || sends.send(letters, 1).unwrap());
        });
    };
    let found = explore(Strategy::every().steps(500), 100, program);
    let End::Endless { steps: 500, last } = found.bad().unwrap().end() else {
        panic!("{found}")
    };
    assert_eq!(last[0].to_string(), "thread 1 (seat 2) at poll 0");
    let once_more =
        explore(Strategy::again(found.bad().unwrap().schedule()).steps(500), 1, program);
    assert_eq!(once_more.bad().unwrap().end(), found.bad().unwrap().end());
    assert!(explore(Strategy::random(1), 1_000, program).is_clean());
}

#[test]
fn a_time_limit_that_passes_once_all_is_stuck() {
    let program = |board: &Board| {
        let letters = seat(board).mailbox::<u64>().unwrap();
        let mut seat = seat(board);
        let received = seat.recv_timeout(letters, Duration::from_secs(3_600));
        assert_eq!(received.err(), None, "the time has passed");
    };
    panics(program, "the time has passed");
}

#[test]
fn a_receiver_that_takes_a_stall_for_the_end() {
    // The one that counts ends before the other has sent, if it looks at its end alone.
    let program = |board: &Board| {
        let mut main = seat(board);
        let (letters, counts) = (main.mailbox().unwrap(), main.mailbox().unwrap());
        explore::scope(|threads| {
            let (mut sends, mut counter) = (seat(board), seat(board));
            threads.spawn(move || {
                sends.send(letters, 1).unwrap();
                assert_eq!(sends.recv(counts), Ok(1));
            });
            threads.spawn(move || {
                let count = counter.iter(letters).count() as u64;
                counter.send(counts, count).unwrap();
            });
            drop(main);
        });
    };
    stalls(program, &["recv 1", "recv 0"]);
    let found = explore(Strategy::every().stalls_are_told(), 1_000, program);
    let End::Panicked { message, .. } = found.bad().unwrap().end() else {
        panic!("{found}")
    };
    assert!(message.contains(&format!("{:?}", Error::Stalled)), "{found}");
    let schedule = found.bad().unwrap().schedule();
    assert_eq!(again(schedule, program).bad().unwrap().end(), found.bad().unwrap().end());
}
