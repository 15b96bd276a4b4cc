//! Bugs that an exploration finds: their journals lead there again, with threads of the system.

use crate::buggy::{
    closed_port, double_take, flag, late_port, lost_update, lost_wake, no_end, two_locks,
};
use crate::programs::{philosophers, seat, Board};
use seryugo::explore::{self, explore, Bad, End, Reran, Rerun, Stop, Strategy};
use seryugo::{Error, Numbers};
use std::sync::Mutex;

const TIMES: usize = 100;

fn bug(program: impl Fn(&Board)) -> Bad {
    let found = explore(Strategy::every(), 10_000, &program);
    found.bad().expect("a bug").clone()
}

/// Each rerun ends as the first run did.
fn ends_alike(program: impl Fn(&Board)) -> Reran {
    let bad = bug(&program);
    let first = bad.rerun(&program).unwrap();
    assert!(first.is_same(), "{bad}\n{first}");
    for _ in 1..TIMES {
        let reran = bad.rerun(&program).unwrap();
        assert_eq!(reran, first);
    }
    first
}

fn stops(reran: &Reran) -> Vec<String> {
    reran.stops().iter().map(Stop::to_string).collect()
}

#[test]
fn a_deadlock_by_the_order_of_locks() {
    assert_eq!(stops(&ends_alike(two_locks)), ["seat 1 at take 1", "seat 2 at take 0"]);
}

#[test]
fn philosophers_who_all_take_the_left_fork() {
    let reran = ends_alike(|board| philosophers(board, 3, 1, false));
    assert_eq!(stops(&reran), ["seat 1 at take 1", "seat 2 at take 2", "seat 3 at take 0"]);
}

#[test]
fn a_lost_update() {
    let reran = ends_alike(lost_update);
    assert!(reran.panics()[0].contains("an update is lost"), "{reran}");
    assert!(reran.stops().is_empty(), "{reran}");
}

#[test]
fn two_that_take_what_both_have_seen() {
    assert_eq!(ends_alike(double_take).stops().len(), 1);
}

#[test]
fn a_first_message_that_is_missed() {
    let bad = bug(late_port);
    let reran = ends_alike(late_port);
    let is_stalled = matches!(bad.end(), End::Stalled { .. });
    assert_eq!(reran.stops().len(), usize::from(is_stalled), "{bad}\n{reran}");
}

#[test]
fn a_message_to_a_closed_port() {
    let reran = ends_alike(closed_port);
    assert!(reran.panics()[0].contains("the message came too late"), "{reran}");
}

#[test]
fn a_stall_at_the_end() {
    assert_eq!(stops(&ends_alike(no_end)), ["seat 2 at recv 0"]);
}

/// What the two do with the flag has no place in the journal.
#[test]
fn a_flag_beside_the_board() {
    let program = |board: &Board| flag(board, || explore::aside(0));
    let bad = bug(program);
    // The one that gives looks at the flag when it likes. So each rerun ends as the first run did,
    // or says why it doesn't.
    for _ in 0..TIMES {
        let reran = bad.rerun(program).unwrap();
        let is_explained = reran.beside().is_some_and(|why| why.contains("beside the board"));
        assert!(reran.is_same() || is_explained || reran.diverged().is_some(), "{reran}");
    }
}

/// The flag is so set in each rerun that the run ends otherwise.
#[test]
fn a_flag_that_is_another_one_in_the_rerun() {
    let bad = bug(lost_wake);
    let End::Stalled { .. } = bad.end() else {
        panic!("{bad}")
    };
    let rerun = Rerun::<Numbers>::read(bad.journal().as_bytes()).unwrap().ends_as(bad.end());
    let reran = rerun.run(|board| {
        let mut main = seat(board);
        let (_wakes, one, other) =
            (main.mailbox::<u64>().unwrap(), main.mailbox().unwrap(), main.mailbox().unwrap());
        let (mut taker, mut giver) = (seat(board), seat(board));
        explore::scope(|threads| {
            threads.spawn(move || taker.send(one, 1).unwrap());
            threads.spawn(move || giver.send(other, 1).unwrap());
        });
    });
    assert!(reran.is_followed() && !reran.is_same(), "{reran}");
    let said = reran.to_string();
    assert!(said.contains("something beside the board decides") && said.contains("at recv 0"));
}

/// After the last entry each call fails with `RerunEnded`.
#[test]
fn a_rerun_stops_after_the_last_entry() {
    let ends = Mutex::new(Vec::new());
    let journal = "journal 1\nseat 0 mailbox: made 0\nend 1\n";
    let rerun = Rerun::<Numbers>::read(journal.as_bytes()).unwrap();
    let reran = rerun.run(|board| {
        let (mut main, mut other) = (seat(board), seat(board));
        let letters = main.mailbox::<u64>().unwrap();
        std::thread::scope(|threads| {
            threads.spawn(|| ends.lock().unwrap().push(other.recv(letters).err()));
            let sent = main.send(letters, 5).map_err(Error::from);
            ends.lock().unwrap().push(sent.err());
            // A later call of the same thread is no news.
            assert_eq!(main.recv_poll(letters), Err(Error::RerunEnded));
        });
    });
    assert_eq!(*ends.lock().unwrap(), [Some(Error::RerunEnded), Some(Error::RerunEnded)]);
    assert_eq!(stops(&reran), ["seat 0 at send 0", "seat 1 at recv 0"]);
    assert!(reran.is_followed(), "{reran}");
}

#[test]
fn a_rerun_goes_on_freely() {
    let journal = "journal 1\nseat 0 mailbox: made 0\nseat 1 send 0 5: done\nend 2\n";
    let rerun = Rerun::<Numbers>::read(journal.as_bytes()).unwrap().goes_on();
    let reran = rerun.run(|board| {
        let (mut main, mut other) = (seat(board), seat(board));
        let letters = main.mailbox::<u64>().unwrap();
        std::thread::scope(|threads| {
            threads.spawn(move || (5..8).for_each(|letter| other.send(letters, letter).unwrap()));
            (5..8).for_each(|letter| assert_eq!(main.recv(letters), Ok(letter)));
            assert_eq!(main.recv(letters), Err(Error::Stalled));
        });
        assert_eq!(board.entries(), 7);
    });
    assert!(reran.is_followed() && reran.stops().is_empty(), "{reran}");
    assert!(reran.panics().is_empty(), "{reran}");
}
