//! Journals of real runs, with threads of the system, are followed to their ends.

use crate::programs::{seat, Board};
use seryugo::explore::{Reran, Rerun};
use seryugo::{Bytes, Error, Numbers, Request, Switchboard};
use std::sync::Arc;
use std::thread;
use std::time::Duration;

const TIMES: usize = 5;
const EACH: u64 = 200;

fn numbers() -> Board {
    Arc::new(Switchboard::of_numbers(1_000_000).unwrap())
}

/// The journal that a run of the program writes is followed, and ends alike.
fn is_followed(program: impl Fn(&Board)) -> Reran {
    let board = numbers();
    program(&board);
    let rerun = Rerun::of(&board.take_journal().unwrap()).unwrap();
    let first = rerun.run(&program);
    assert!(first.is_followed() && first.panics().is_empty(), "{first}");
    for _ in 1..TIMES {
        assert_eq!(rerun.run(&program), first);
    }
    first
}

/// Three threads send, and one receives and polls. All of them change a variable.
fn four_threads(board: &Board) {
    let mut main = seat(board);
    let letters = main.mailbox().unwrap();
    let sum = main.mvar_init(0).unwrap();
    let mut seats = [seat(board), seat(board), seat(board)];
    thread::scope(|threads| {
        for seat in &mut seats {
            threads.spawn(move || {
                for letter in 0..EACH {
                    seat.send(letters, letter).unwrap();
                    let held = seat.take(sum).unwrap();
                    assert!(seat.put(sum, held + letter).unwrap());
                }
            });
        }
        for _ in 0..3 * EACH / 2 {
            main.recv(letters).unwrap();
        }
        for _ in 0..3 * EACH / 2 {
            // If it polled again, polls of nothing would fill the journal while the others don't run.
            if main.recv_poll(letters).unwrap().is_none() {
                main.recv(letters).unwrap();
            }
        }
    });
    assert_eq!(main.take(sum), Ok(3 * EACH * (EACH - 1) / 2));
}

#[test]
fn a_run_of_four_threads() {
    assert!(is_followed(four_threads).stops().is_empty());
}

/// The receivers end as stalled, so that their last calls have no entries.
#[test]
fn receivers_that_end_as_stalled() {
    let reran = is_followed(|board| {
        let (mut sends, mut receives) = (seat(board), seat(board));
        let letters = sends.mailbox().unwrap();
        let receiver = thread::spawn(move || receives.iter(letters).count());
        (0..EACH).for_each(|letter| sends.send(letters, letter).unwrap());
        drop(sends);
        receiver.join().unwrap();
    });
    assert_eq!(reran.stops()[0].to_string(), "seat 1 at recv 0");
}

/// After its call has failed as stalled the thread goes on, by the same seat and by a new one.
#[test]
fn threads_that_go_on_after_a_stall() {
    let program = |board: &Board| {
        let (mut sends, mut receives) = (seat(board), seat(board));
        let letters = sends.mailbox().unwrap();
        let board = Arc::clone(board);
        let receiver = thread::spawn(move || {
            assert_eq!(receives.iter(letters).count() as u64, EACH);
            receives.send(letters, 1).unwrap();
            assert_eq!(receives.recv(letters), Ok(1));
            assert!(receives.recv(letters).is_err());
            drop(receives);
            seat(&board).send(letters, 2).unwrap();
        });
        (0..EACH).for_each(|letter| sends.send(letters, letter).unwrap());
        drop(sends);
        receiver.join().unwrap();
    };
    let board = numbers();
    program(&board);
    let rerun = Rerun::of(&board.take_journal().unwrap()).unwrap();
    let reran = rerun.patience(Duration::from_secs(1)).run(program);
    assert!(reran.is_followed() && reran.panics().is_empty(), "{reran}");
}

/// In the first run the time passes now and then.
#[test]
fn calls_with_a_time_limit() {
    let reran = is_followed(|board| {
        let (mut sends, mut receives) = (seat(board), seat(board));
        let letters = sends.mailbox().unwrap();
        let guest = board.hold_owned().unwrap();
        let receiver = thread::spawn(move || {
            let mut count = 0;
            while count < EACH {
                match receives.recv_timeout(letters, Duration::ZERO) {
                    Ok(_) => count += 1,
                    Err(error) => {
                        assert_eq!(error, Error::TimedOut);
                        // Or it may keep the others from the processor.
                        thread::sleep(Duration::from_micros(100));
                    }
                }
            }
            drop(guest);
        });
        (0..EACH).for_each(|letter| sends.send(letters, letter).unwrap());
        drop(sends);
        receiver.join().unwrap();
    });
    assert!(reran.stops().is_empty(), "{reran}");
}

/// One thread has two seats. While one waits in vain, it sends by the other one.
#[test]
fn a_thread_with_two_seats() {
    let journal = "journal 1\nseat 0 mailbox: made 0\nseat 0 send 0 0: done\n\
        seat 0 send 0 1: done\nseat 1 recv 0: 0\nseat 1 recv 0: 1\nend 5\n";
    let rerun = Rerun::<Numbers>::read(journal.as_bytes()).unwrap();
    let reran = rerun.run(|board| {
        let (mut sends, mut receives) = (seat(board), seat(board));
        let letters = sends.mailbox().unwrap();
        let (mut sent, mut received) = (0, 0);
        // It polls first, and sends if there is nothing.
        while received < 2 {
            match receives.recv_timeout(letters, Duration::from_secs(3_600)) {
                Ok(letter) => {
                    assert_eq!(letter, received);
                    received += 1;
                }
                Err(error) => {
                    assert_eq!(error, Error::TimedOut);
                    sends.send(letters, sent).unwrap();
                    sent += 1;
                }
            }
        }
    });
    assert!(reran.is_followed() && reran.panics().is_empty(), "{reran}");
}

/// Threads that nobody joins, and that outlive the program's first one.
#[test]
fn threads_that_are_not_joined() {
    let reran = is_followed(|board| {
        let (mut sends, mut receives) = (seat(board), seat(board));
        let letters = sends.mailbox().unwrap();
        let (over, is_over) = std::sync::mpsc::channel();
        thread::spawn(move || (0..EACH).for_each(|letter| sends.send(letters, letter).unwrap()));
        thread::spawn(move || {
            let sum: u64 = (0..EACH).map(|_| receives.recv(letters).unwrap()).sum();
            // In a rerun nobody waits for this.
            let _ = over.send(sum);
        });
        // Only the first run waits: a rerun waits by itself.
        if board.reran().is_none() {
            is_over.recv().unwrap();
        }
    });
    assert!(reran.stops().is_empty(), "{reran}");
}

/// Questions and answers, over bytes: also a seat that has the mailbox of one that has left.
#[test]
fn requests() {
    let program = |board: &Arc<Switchboard>| {
        let mut server = board.seat_owned().unwrap();
        let doubles = server.mailbox::<Request<u64, u64>>().unwrap();
        let clients = [0, 1, 2].map(|_| board.seat_owned().unwrap());
        let serving = thread::spawn(move || {
            for _ in 0..3 * EACH {
                let request = server.recv(doubles).unwrap();
                request.answer_with(&mut server, |question| 2 * question).unwrap();
            }
        });
        thread::scope(|threads| {
            for mut client in clients {
                threads.spawn(move || {
                    for question in 0..EACH {
                        assert_eq!(client.request(doubles, question).unwrap(), 2 * question);
                    }
                });
            }
        });
        serving.join().unwrap();
    };
    let board = Arc::new(Switchboard::new(1_000_000).unwrap());
    program(&board);
    let mut text = Vec::new();
    board.take_journal().unwrap().write_to(&mut text).unwrap();
    let rerun = Rerun::<Bytes>::read(&text[..]).unwrap();
    for _ in 0..TIMES {
        let reran = rerun.run(program);
        assert!(reran.is_followed() && reran.panics().is_empty(), "{reran}");
    }
}

/// A program that makes its own switchboard has another one in its place.
#[test]
fn a_program_that_makes_its_own_switchboard() {
    let program = |board: Board| {
        four_threads(&board);
        board
    };
    let journal = program(numbers()).take_journal().unwrap();
    let board = Arc::new(Rerun::of(&journal).unwrap().board().unwrap());
    let reran = program(board).reran().unwrap();
    assert!(reran.is_followed() && reran.stops().is_empty(), "{reran}");
}

#[test]
fn what_is_not_known_yet() {
    let rerun = Rerun::<Numbers>::read(&b"journal 1\nseat 0 mailbox: made 0\nend 1\n"[..]).unwrap();
    let reran = rerun.run(|board| {
        let mut seat = seat(board);
        let letters = seat.mailbox().unwrap();
        polls(seat.recv_async(letters));
    });
    let said = &reran.panics()[0];
    assert!(said.contains("a rerun doesn't know futures yet"), "{reran}");
}

/// Polls a future once.
fn polls<T>(future: impl std::future::Future<Output = T>) -> bool {
    let mut context = std::task::Context::from_waker(std::task::Waker::noop());
    std::pin::pin!(future).poll(&mut context).is_ready()
}

/// One thread has the entry that makes an object, and each other one finds it.
#[test]
fn objects_that_threads_make_again() {
    let reran = is_followed(|board| {
        let seats = [seat(board), seat(board), seat(board)];
        thread::scope(|threads| {
            for mut seat in seats {
                threads.spawn(move || {
                    for number in 0..20 {
                        let mailbox = seat.mailbox_again(number).unwrap();
                        seat.send(mailbox, number).unwrap();
                    }
                });
            }
        });
        assert!(seat(board).mailbox_again(40).is_err());
    });
    assert!(reran.stops().is_empty(), "{reran}");
}
