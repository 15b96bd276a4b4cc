//! Each other end of a run, and what an exploration doesn't know.

use crate::patience::PATIENCE;
use crate::programs::{seat, Board};
use seryugo::explore::{self, again, explore, End, Found, Strategy};
use seryugo::Error;
use std::cell::{Cell, RefCell};
use std::panic::{catch_unwind, AssertUnwindSafe};
use std::sync::atomic::{AtomicU64, Ordering::SeqCst};
use std::sync::{mpsc, Mutex};
use std::time::Duration;

fn end(found: &Found) -> &End {
    found.bad().unwrap_or_else(|| panic!("{found}")).end()
}

#[test]
fn a_full_journal() {
    let program = |board: &Board| {
        let mut seat = seat(board);
        let letters = seat.mailbox().unwrap();
        (0..10).for_each(|letter| seat.send(letters, letter).unwrap());
    };
    let found = explore(Strategy::every().entries(5), 10, program);
    assert_eq!(*end(&found), End::Full);
    assert!(found.bad().unwrap().journal().ends_with("seat 0 send 0 3: done\nend 5\n"), "{found}");
    assert!(explore(Strategy::every().entries(11), 10, program).is_clean());
}

#[test]
fn a_program_that_is_not_deterministic() {
    let runs = Cell::new(0);
    let program = |board: &Board| {
        let mut main = seat(board);
        let (one, other) = (main.mailbox().unwrap(), main.mailbox().unwrap());
        runs.set(runs.get() + 1);
        let letters = if runs.get() % 2 == 0 { one } else { other };
        explore::scope(|threads| {
            for _ in 0..2 {
                let mut seat = seat(board);
                threads.spawn(move || seat.send(letters, 1).unwrap());
            }
        });
    };
    let found = explore(Strategy::every_plainly(), 10, program);
    let End::NotDeterministic(why) = end(&found) else {
        panic!("{found}")
    };
    assert!(why.contains("send 1 (thread 1)") && why.contains("send 0 (thread 1)"), "{why}");
}

#[test]
fn a_thread_that_the_exploration_does_not_know() {
    let program = |board: &Board| {
        let mut main = seat(board);
        let letters = main.mailbox().unwrap();
        let mut seat = seat(board);
        let sent = std::thread::spawn(move || seat.send(letters, 1)).join();
        assert!(sent.is_err(), "the thread unwinds");
        main.recv(letters).unwrap();
    };
    let found = explore(Strategy::every(), 10, program);
    let End::UnknownThread(why) = end(&found) else {
        panic!("{found}")
    };
    assert!(why.starts_with("seat 1 calls send 0"), "{why}");
}

#[test]
fn a_schedule_of_another_program() {
    let program = |board: &Board| {
        let mut main = seat(board);
        let letters = main.mailbox().unwrap();
        explore::scope(|threads| {
            for number in 0..2 {
                let mut seat = seat(board);
                threads.spawn(move || seat.send(letters, number).unwrap());
            }
        });
    };
    assert!(again("2", program).is_clean());
    let found = again("9", program);
    let End::Unfit(why) = end(&found) else {
        panic!("{found}")
    };
    assert!(why.contains("thread 9"), "{why}");
}

/// Counts that it is dropped.
struct Counts<'c>(&'c AtomicU64);
impl Drop for Counts<'_> {
    fn drop(&mut self) {
        self.0.fetch_add(1, SeqCst);
    }
}

#[test]
fn the_first_thread_panics_while_others_wait() {
    let dropped = AtomicU64::new(0);
    let program = |board: &Board| {
        let mut main = seat(board);
        let letters = main.mailbox::<u64>().unwrap();
        explore::scope(|threads| {
            for _ in 0..3 {
                let mut seat = seat(board);
                let counts = Counts(&dropped);
                threads.spawn(move || {
                    let _counts = counts;
                    seat.recv(letters).unwrap();
                });
            }
            main.send(letters, 1).unwrap();
            panic!("the first thread panics");
        });
    };
    let found = explore(Strategy::every(), 1, program);
    let End::Panicked { thread: 0, message } = end(&found) else {
        panic!("{found}")
    };
    assert!(message.ends_with(": the first thread panics"), "{message}");
    // Each of them has left what it had, in each run.
    assert_eq!(dropped.load(SeqCst) % 3, 0);
    assert!(dropped.load(SeqCst) >= 3);
}

#[test]
fn a_destructor_that_calls_while_the_run_ends() {
    struct GivesBack<'b>(&'b Board, seryugo::MVar<u64>);
    impl Drop for GivesBack<'_> {
        fn drop(&mut self) {
            // If it panicked here, the process would end.
            seat(self.0).put(self.1, 0).unwrap();
        }
    }
    let program = |board: &Board| {
        let mut main = seat(board);
        let lock = main.mvar_init(0).unwrap();
        let letters = main.mailbox::<u64>().unwrap();
        explore::scope(|threads| {
            for _ in 0..2 {
                let mut seat = seat(board);
                threads.spawn(move || {
                    seat.take(lock).unwrap();
                    let _gives_back = GivesBack(board, lock);
                    seat.recv(letters).unwrap();
                });
            }
        });
    };
    let found = explore(Strategy::every(), 10, program);
    let End::Stalled { waits, .. } = end(&found) else {
        panic!("{found}")
    };
    assert_eq!(waits.len(), 3, "{found}");
}

#[test]
fn a_switchboard_that_outlives_its_run() {
    type Kept = (Board, seryugo::OwnedSeat<seryugo::Numbers>, seryugo::Mailbox<u64>);
    let kept: RefCell<Vec<Kept>> = RefCell::default();
    let program = |board: &Board| {
        let mut own = seat(board);
        let letters = own.mailbox::<u64>().unwrap();
        if let Some((before, mut seat, letters)) = kept.take().pop() {
            assert!(!Board::ptr_eq(&before, board));
            // It is one as any other: a call from a seat that waits alone fails.
            seat.send(letters, 7).unwrap();
            assert_eq!((seat.recv(letters), seat.recv(letters)), (Ok(7), Err(Error::Stalled)));
        }
        kept.borrow_mut().push((Board::clone(board), own, letters));
    };
    let found = explore(Strategy::random(1), 3, program);
    assert!(found.is_clean(), "{found}");
}

#[test]
fn a_program_that_catches_what_unwinds_it() {
    let program = |board: &Board| {
        let letters = seat(board).mailbox::<u64>().unwrap();
        explore::scope(|threads| {
            for _ in 0..2 {
                let mut seat = seat(board);
                threads.spawn(move || {
                    for _ in 0..3 {
                        let _ = catch_unwind(AssertUnwindSafe(|| seat.recv(letters)));
                    }
                });
            }
        });
    };
    let found = explore(Strategy::every(), 10, program);
    assert!(matches!(end(&found), End::Stalled { .. }), "{found}");
}

#[test]
fn an_exploration_in_another_one() {
    let program = |_: &Board| drop(explore(Strategy::every(), 1, |_: &Board| ()));
    let found = explore(Strategy::every(), 10, program);
    let End::Panicked { message, .. } = end(&found) else {
        panic!("{found}")
    };
    assert!(message.contains("explores another one"), "{message}");
}

#[test]
fn looks_are_steps() {
    // It looks whether there is a letter, and then receives it as if it alone would.
    let program = |board: &Board| {
        let mut main = seat(board);
        let letters = main.mailbox().unwrap();
        main.send(letters, 1).unwrap();
        explore::scope(|threads| {
            for _ in 0..2 {
                let mut seat = seat(board);
                threads.spawn(move || {
                    if board.owed(letters).unwrap() > 0 {
                        seat.recv(letters).unwrap();
                    }
                });
            }
        });
    };
    let found = explore(Strategy::every(), 100, program);
    assert!(matches!(end(&found), End::Stalled { .. }), "{found}");
    let program = |board: &Board| {
        let mut main = seat(board);
        let mut other = seat(board);
        explore::scope(|threads| {
            threads.spawn(move || other.mailbox::<u64>().unwrap());
            main.mailbox::<u64>().unwrap();
            assert_ne!(board.entries(), 1, "it looked between the two");
        });
    };
    let found = explore(Strategy::every(), 100, program);
    assert!(matches!(end(&found), End::Panicked { .. }), "{found}");
}

#[test]
fn outside_an_exploration_a_scope_is_that_of_std() {
    let board = Board::new(seryugo::Switchboard::of_numbers(1_000).unwrap());
    let (mut main, mut other) = (seat(&board), seat(&board));
    let letters = main.mailbox().unwrap();
    let received = explore::scope(|threads| {
        let receiver = threads.spawn(move || other.recv(letters).unwrap());
        explore::aside(0);
        main.send(letters, 5).unwrap();
        receiver.join().unwrap()
    });
    assert_eq!(received, 5);
}

/// This test runs itself, and reads what it writes to standard error.
#[test]
fn a_thread_that_does_not_come_back_is_reported() {
    const NAME: &str = "SERYUGO_DOES_NOT_COME_BACK";
    if std::env::var_os(NAME).is_some() {
        return hang();
    }
    let own = std::env::current_exe().unwrap();
    let name = "ends::a_thread_that_does_not_come_back_is_reported";
    let mut child = std::process::Command::new(own)
        .args(["--exact", name, "--nocapture"])
        .env(NAME, "1")
        .stderr(std::process::Stdio::piped())
        .stdout(std::process::Stdio::null())
        .spawn()
        .unwrap();
    let (sender, lines) = mpsc::channel();
    let errors = std::io::BufReader::new(child.stderr.take().unwrap());
    std::thread::spawn(move || {
        std::io::BufRead::lines(errors).map_while(Result::ok).try_for_each(|line| sender.send(line))
    });
    let reported = std::iter::from_fn(|| lines.recv_timeout(PATIENCE).ok())
        .find(|line| line.starts_with("explore: "));
    child.kill().unwrap();
    child.wait().unwrap();
    let reported = reported.expect("a report");
    assert!(reported.contains(" at send 0. It computes"), "{reported}");
}

/// A thread waits for a lock that another one has over a call.
fn hang() {
    let program = |board: &Board| {
        let letters = seat(board).mailbox().unwrap();
        let lock = Mutex::new(());
        explore::scope(|threads| {
            for number in 0..2 {
                let (mut seat, lock) = (seat(board), &lock);
                threads.spawn(move || {
                    seat.send(letters, number).unwrap();
                    let _held = lock.lock();
                    seat.send(letters, number).unwrap();
                });
            }
        });
    };
    drop(explore(Strategy::random(1).patience(Duration::from_millis(20)), 100, program));
}
