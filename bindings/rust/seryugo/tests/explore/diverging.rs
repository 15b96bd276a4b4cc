//! Runs that aren't the journal's any more: each says where, what was expected, and what is there.

use crate::programs::{seat, Board};
use seryugo::explore::{rerun, Diverged, Reran, Rerun, RerunError};
use seryugo::{Error, Mailbox, Numbers, OwnedSeat};
use std::sync::Mutex;
use std::thread;
use std::time::Duration;

/// Two send to a mailbox and receive from another one, in turn.
const JOURNAL: &str = "journal 1
seat 0 mailbox: made 0
seat 0 mailbox: made 1
seat 1 send 0 10: done
seat 2 recv 0: 10
seat 2 send 1 20: done
seat 1 recv 1: 20
seat 1 send 0 11: done
seat 2 recv 0: 11
seat 3 poll 1: none
end 9
";

type Turn = fn(&mut OwnedSeat<Numbers>, [Mailbox<u64>; 2]) -> Result<(), Error>;

fn asks(
    seat: &mut OwnedSeat<Numbers>,
    [questions, answers]: [Mailbox<u64>; 2],
) -> Result<(), Error> {
    seat.send(questions, 10)?;
    seat.recv(answers)?;
    Ok(seat.send(questions, 11)?)
}

fn answers(
    seat: &mut OwnedSeat<Numbers>,
    [questions, answers]: [Mailbox<u64>; 2],
) -> Result<(), Error> {
    let question = seat.recv(questions)?;
    seat.send(answers, 2 * question)?;
    seat.recv(questions).map(drop)
}

fn looks(seat: &mut OwnedSeat<Numbers>, [_, answers]: [Mailbox<u64>; 2]) -> Result<(), Error> {
    seat.recv_poll(answers).map(drop)
}

/// Runs the program with the first thread's turn in place of `asks`. Returns what each thread ended
/// with too.
fn run(first: Turn) -> (Reran, [Result<(), Error>; 3]) {
    let ends = Mutex::new([Ok(()), Ok(()), Ok(())]);
    let reran = rerun(JOURNAL.as_bytes(), |board: &Board| {
        let mut main = seat(board);
        let objects = [main.mailbox().unwrap(), main.mailbox().unwrap()];
        let turns: [Turn; 3] = [first, answers, looks];
        let seats = turns.map(|_| seat(board));
        drop(main);
        thread::scope(|threads| {
            for (number, (turn, mut seat)) in turns.into_iter().zip(seats).enumerate() {
                let ends = &ends;
                threads.spawn(move || {
                    let end = turn(&mut seat, objects);
                    ends.lock().unwrap()[number] = end;
                });
            }
        });
    });
    (reran.unwrap(), ends.into_inner().unwrap())
}

/// The run diverges so, and each other seat's call fails so.
fn diverges(first: Turn, position: u64, expected: &str, found: &str) {
    for _ in 0..20 {
        let (reran, ends) = run(first);
        let diverged = Diverged {
            position,
            expected: expected.to_string(),
            found: found.to_string(),
        };
        assert_eq!(reran.diverged(), Some(&diverged), "{reran}");
        assert_eq!(reran.followed() as u64, position);
        let failed = Err(Error::Diverged(Box::new(diverged)));
        assert_eq!(ends[1..], [failed.clone(), failed]);
        let said = reran.to_string();
        assert!(said.contains(expected) && said.contains(&format!("position {position}")));
    }
}

#[test]
fn the_program_of_the_journal() {
    let (reran, ends) = run(asks);
    assert!(reran.is_followed(), "{reran}");
    assert_eq!(ends, [Ok(()), Ok(()), Ok(())]);
}

#[test]
fn another_message() {
    let sends = |seat: &mut OwnedSeat<Numbers>, [questions, _]: [Mailbox<u64>; 2]| {
        let sent = seat.send(questions, 12).map_err(Error::from);
        assert!(matches!(sent, Err(Error::Diverged(_))));
        sent
    };
    diverges(sends, 2, "seat 1 send 0 10: done", "seat 1 send 0 12: done");
}

#[test]
fn another_object() {
    diverges(
        |seat, [questions, answers]| {
            seat.send(questions, 10)?;
            seat.recv(answers)?;
            Ok(seat.send(answers, 11)?)
        },
        6,
        "seat 1 send 0 11: done",
        "seat 1 send 1 11: done",
    );
}

#[test]
fn another_call() {
    diverges(
        |seat, [questions, answers]| {
            seat.send(questions, 10)?;
            seat.recv_poll(answers).map(drop)
        },
        5,
        "seat 1 recv 1: 20",
        "seat 1 poll 1: 20",
    );
}

/// The first run has no wait there, so that the call fails as it could have failed there.
#[test]
fn a_call_that_waits_in_place_of_another_one() {
    diverges(
        |seat, [questions, answers]| {
            seat.send(questions, 10)?;
            seat.recv(answers)?;
            assert_eq!(seat.recv(answers), Err(Error::Stalled));
            Ok(())
        },
        6,
        "seat 1 send 0 11: done",
        "seat 1 recv 1: refused, since no seat and no lane is left that could answer this call; \
         seat 1 leaves",
    );
}

#[test]
fn an_early_end() {
    diverges(
        |seat, [questions, _]| Ok(seat.send(questions, 10)?),
        5,
        "seat 1 recv 1: 20",
        "seat 1 leaves",
    );
}

#[test]
fn a_panic() {
    for _ in 0..20 {
        let (reran, ends) = run(|seat, [questions, _]| {
            seat.send(questions, 10)?;
            panic!("no more questions")
        });
        let diverged = reran.diverged().unwrap_or_else(|| panic!("{reran}"));
        assert_eq!((diverged.position, &*diverged.expected), (5, "seat 1 recv 1: 20"));
        let found = &diverged.found;
        assert!(found.starts_with("seat 1 leaves: its thread panicked at "), "{found}");
        assert!(found.ends_with(": no more questions"), "{found}");
        assert!(reran.panics()[0].ends_with(": no more questions"), "{reran}");
        assert!(ends[1..].iter().all(|end| matches!(end, Err(Error::Diverged(_)))));
    }
}

#[test]
fn a_seat_that_is_never_made() {
    let reran = rerun(JOURNAL.as_bytes(), |board: &Board| {
        let mut main = seat(board);
        main.mailbox::<u64>().unwrap();
        main.mailbox::<u64>().unwrap();
    });
    let reran = reran.unwrap();
    let diverged = reran.diverged().unwrap();
    assert_eq!((diverged.position, &*diverged.found), (2, "the program's end"));
}

/// The thread's other seat is next, but the thread never makes its call.
#[test]
fn a_thread_with_two_seats_in_another_order() {
    let journal = "journal 1\nseat 0 mailbox: made 0\nseat 0 send 0 1: done\n\
        seat 1 send 0 2: done\nend 3\n";
    let rerun = Rerun::<Numbers>::read(journal.as_bytes()).unwrap();
    let reran = rerun.patience(Duration::from_millis(50)).run(|board| {
        let (mut one, mut other) = (seat(board), seat(board));
        let letters = one.mailbox().unwrap();
        let sent = other.send(letters, 2).map_err(Error::from);
        assert!(matches!(sent, Err(Error::Diverged(_))), "{sent:?}");
        assert!(one.send(letters, 1).is_err());
    });
    let diverged = reran.diverged().unwrap();
    assert_eq!((diverged.position, &*diverged.expected), (1, "seat 0 send 0 1: done"));
    assert!(diverged.found.starts_with("seat 1 send 0, from the thread of"), "{reran}");
}

#[test]
fn journals_that_cannot_be_followed() {
    let refused = |journal: &str| Rerun::<Numbers>::read(journal.as_bytes()).unwrap_err();
    let cut = refused("journal 1\nfrom 7\nseat 0 mailbox: made 0\nend 8\n");
    assert!(matches!(cut, RerunError::AfterCut(7)));
    assert!(matches!(refused("journal 2\nend 0\n"), RerunError::OtherMessages));
    assert!(matches!(refused("journal 4\nend 0\n"), RerunError::OtherMessages));
    assert!(matches!(refused("journal 1\nseat 0 recv 0: 5\nend 1\n"), RerunError::Check(_)));
    assert!(matches!(refused("what\n"), RerunError::Check(_)));
    let said = cut.to_string();
    assert_eq!(said, "the journal begins at position 7, and not at 0");
    let board = seryugo::Switchboard::of_numbers(10).unwrap();
    board.seat().unwrap().mailbox().unwrap();
    board.cut().unwrap();
    board.seat().unwrap().mailbox().unwrap();
    let rest = board.take_journal().unwrap();
    assert!(matches!(Rerun::of(&rest), Err(RerunError::AfterCut(1))));
}

/// Of a text that ends in the middle the whole lines are followed, and a journal may have pieces.
#[test]
fn torn_journals_and_pieces() {
    let program = |board: &Board| {
        let mut seat = seat(board);
        let letters = seat.mailbox().unwrap();
        seat.send(letters, 5).unwrap();
        assert_eq!(seat.recv(letters), Err(Error::RerunEnded));
    };
    let start = "journal 1\nseat 0 mailbox: made 0\n";
    for rest in [
        "seat 0 send 0 5: done\nseat 0 re",
        "end 1\njournal 1\nfrom 1\nseat 0 send 0 5: done\nend 2\n",
    ] {
        let reran = rerun([start, rest].concat().as_bytes(), program).unwrap();
        assert!(reran.is_followed(), "{reran}");
        assert_eq!(reran.stops()[0].to_string(), "seat 0 at recv 0");
    }
}
