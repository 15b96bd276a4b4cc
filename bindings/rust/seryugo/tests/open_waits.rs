//! While a seat waits with a time limit or as a future, no call fails with `Stalled`.

mod common;

use common::{block_on, let_them_wait, poll_once, without_a_hang, Board};
use seryugo::{Error, JournalFile, Mailbox, Numbers, Request, Seat, Switchboard};
use std::future::Future;
use std::pin::pin;
use std::sync::atomic::{AtomicU64, Ordering};
use std::sync::Arc;
use std::task::Poll;
use std::thread;
use std::time::{Duration, Instant};

const SHORT: Duration = Duration::from_millis(5);
const LONG: Duration = Duration::from_secs(60);

fn board() -> Board {
    Switchboard::of_numbers(100_000).unwrap()
}

/// A seat that waits, and sends a heartbeat each time that its limit passes: how many it has sent and
/// received.
fn beats(
    seat: &mut Seat<'_, Numbers>,
    own: Mailbox<u64>,
    other: Mailbox<u64>,
    limit: Duration,
) -> (u64, u64) {
    let (mut sent, mut received) = (0, 0);
    while sent < 3 {
        match seat.recv_timeout(own, limit) {
            Ok(_) => received += 1,
            Err(error) => {
                assert_eq!(error, Error::TimedOut);
                seat.send(other, 1).unwrap();
                sent += 1;
            }
        }
    }
    (sent, received)
}

#[test]
fn two_peers_with_heartbeats() {
    without_a_hang(|| {
        let board = board();
        let (mut ann, mut ben) = (board.seat().unwrap(), board.seat().unwrap());
        let (to_ann, to_ben) = (ann.mailbox().unwrap(), ben.mailbox().unwrap());
        let beats_of = thread::scope(|scope| {
            let ann =
                scope.spawn(move || beats(&mut ann, to_ann, to_ben, Duration::from_millis(100)));
            let ben =
                scope.spawn(move || beats(&mut ben, to_ben, to_ann, Duration::from_millis(100)));
            [ann.join().unwrap(), ben.join().unwrap()]
        });
        let received: u64 = beats_of.iter().map(|(_, received)| received).sum();
        let left = board.owed(to_ann).unwrap() + board.owed(to_ben).unwrap();
        assert_eq!(received + left, 6);
    });
}

/// Workers as futures, each on a thread that polls it.
#[test]
fn workers_whose_first_client_comes_late() {
    const WORKERS: u64 = 4;
    const ASKED: u64 = 100;
    without_a_hang(|| {
        let board = Arc::new(Switchboard::new(100_000).unwrap());
        let doubles = board.seat().unwrap().mailbox::<Request<u64, u64>>().unwrap();
        let stop = board.seat().unwrap().ivar::<u64>().unwrap();
        let workers: Vec<_> = (0..WORKERS)
            .map(|_| {
                let (mut seat, mut other) =
                    (board.seat_owned().unwrap(), board.seat_owned().unwrap());
                thread::spawn(move || {
                    let serve = async {
                        loop {
                            let request = seat.recv_async(doubles).await.unwrap();
                            request.answer_with(&mut seat, |question| 2 * question).unwrap();
                        }
                    };
                    // As `select!` of a server and its end.
                    block_on(first_of(serve, other.get_async(stop)))
                })
            })
            .collect();
        thread::sleep(Duration::from_millis(20));
        let mut client = board.seat().unwrap();
        for question in 0..ASKED {
            assert_eq!(client.request(doubles, question).unwrap(), 2 * question);
        }
        assert_eq!(client.put(stop, 7), Ok(true));
        for worker in workers {
            assert_eq!(worker.join().unwrap(), Ok(7));
        }
    });
}

/// The result of the second future. The first one never ends.
async fn first_of<T>(one: impl Future<Output = ()>, other: impl Future<Output = T>) -> T {
    let (mut one, mut other) = (pin!(one), pin!(other));
    std::future::poll_fn(|context| {
        assert!(one.as_mut().poll(context).is_pending());
        other.as_mut().poll(context)
    })
    .await
}

#[test]
fn alone_a_timed_call_takes_its_time_and_a_future_waits() {
    let board = board();
    let mut seat = board.seat().unwrap();
    let mailbox = seat.mailbox().unwrap();
    let variable = seat.mvar::<u64>().unwrap();
    let start = Instant::now();
    assert_eq!(seat.recv_timeout(mailbox, SHORT), Err(Error::TimedOut));
    assert_eq!(seat.get_timeout(variable, SHORT), Err(Error::TimedOut));
    assert_eq!(seat.take_timeout(variable, SHORT), Err(Error::TimedOut));
    assert_eq!(seat.swap_timeout(variable, 5, SHORT).unwrap_err().error, Error::TimedOut);
    assert!(start.elapsed() >= 4 * SHORT);
    assert_eq!(seat.recv_timeout(mailbox, Duration::ZERO), Err(Error::TimedOut));
    assert_eq!(poll_once(pin!(seat.recv_async(mailbox))), Poll::Pending);
    // Without a limit it is a deadlock, as before.
    assert_eq!(seat.recv(mailbox), Err(Error::Stalled));
    assert_eq!(board.entries(), 2);
}

/// The call without a limit would be stalled at once, or as the other one begins to wait.
#[test]
fn a_call_beside_a_timed_one_waits_and_is_answered() {
    without_a_hang(|| {
        for is_first in [true, false] {
            let board = board();
            let (mut blocks, mut timed) = (board.seat().unwrap(), board.seat().unwrap());
            let (letters, none) = (blocks.mailbox().unwrap(), timed.mailbox::<u64>().unwrap());
            thread::scope(|scope| {
                let waits = scope.spawn(move || {
                    thread::sleep(if is_first { Duration::ZERO } else { 2 * SHORT });
                    blocks.recv(letters)
                });
                thread::sleep(if is_first { 2 * SHORT } else { Duration::ZERO });
                assert_eq!(timed.recv_timeout(none, 5 * SHORT), Err(Error::TimedOut));
                timed.send(letters, 7).unwrap();
                assert_eq!(waits.join().unwrap(), Ok(7));
            });
        }
    });
}

#[test]
fn it_is_stalled_once_the_last_open_wait_has_left() {
    without_a_hang(|| {
        let board = board();
        let (mut blocks, mut timed) = (board.seat().unwrap(), board.seat().unwrap());
        let mailbox = blocks.mailbox::<u64>().unwrap();
        thread::scope(|scope| {
            let waits = scope.spawn(move || blocks.recv(mailbox));
            let start = Instant::now();
            for _ in 0..3 {
                assert_eq!(timed.recv_timeout(mailbox, 2 * SHORT), Err(Error::TimedOut));
                assert!(!waits.is_finished());
            }
            drop(timed);
            assert_eq!(waits.join().unwrap(), Err(Error::Stalled));
            assert!(start.elapsed() >= 6 * SHORT);
        });
    });
}

/// What ends the last open wait, and has the deferred call be stalled.
#[test]
fn a_future_that_is_dropped_is_no_open_wait() {
    without_a_hang(|| {
        for is_forgotten in [false, true] {
            let board = Arc::new(board());
            let (mut blocks, mut polled) =
                (board.seat_owned().unwrap(), board.seat_owned().unwrap());
            let mailbox = blocks.mailbox::<u64>().unwrap();
            let mut future = Box::pin(polled.recv_async(mailbox));
            assert!(poll_once(future.as_mut()).is_pending());
            let waits = thread::spawn(move || blocks.recv(mailbox));
            let_them_wait();
            assert!(!waits.is_finished());
            match is_forgotten {
                true => std::mem::forget(future),
                false => drop(future),
            }
            let_them_wait();
            assert!(
                !waits.is_finished(),
                "the seat of the future is free, or its future is forgotten"
            );
            drop(polled);
            assert_eq!(waits.join().unwrap(), Err(Error::Stalled));
        }
    });
}

/// A call whose seat was parked before is deferred too, as the last free seat leaves.
#[test]
fn as_the_last_free_seat_leaves_none_is_stalled() {
    without_a_hang(|| {
        let board = board();
        let last = board.seat().unwrap();
        let (mut blocks, mut timed) = (board.seat().unwrap(), board.seat().unwrap());
        let mailbox = blocks.mailbox::<u64>().unwrap();
        let empty = blocks.ivar::<u64>().unwrap();
        thread::scope(|scope| {
            let waits = scope.spawn(move || blocks.recv(mailbox));
            let other = scope.spawn(move || {
                let late = timed.get_timeout(empty, 10 * SHORT);
                timed.send(mailbox, 5).unwrap();
                late
            });
            let_them_wait();
            drop(last);
            assert_eq!(other.join().unwrap(), Err(Error::TimedOut));
            assert_eq!(waits.join().unwrap(), Ok(5));
        });
    });
}

/// A lane, a drain and another thread's put wake it, also if a file has the journal.
#[test]
fn each_change_wakes_a_deferred_call() {
    type Change = fn(&Board, Mailbox<u64>);
    let changes: [Change; 4] = [
        |board, mailbox| board.seat().unwrap().send(mailbox, 5).unwrap(),
        |board, mailbox| {
            let mut lane = board.lane(mailbox, 4).unwrap();
            lane.send(5).unwrap();
            lane.close().unwrap();
        },
        |board, mailbox| {
            let mut lane = board.lane(mailbox, 4).unwrap();
            lane.send(5).unwrap();
            drop(lane);
        },
        |board, mailbox| {
            let mut lane = board.lane(mailbox, 4).unwrap();
            lane.send(5).unwrap();
            board.drain(lane.number()).unwrap();
        },
    ];
    let folder = std::env::temp_dir();
    without_a_hang(move || {
        for (place, change) in changes.into_iter().enumerate() {
            let path = folder.join(format!("seryugo-{}-{place}.open", std::process::id()));
            let filed = JournalFile::new().open_numbers(&path).unwrap();
            for board in [board(), filed] {
                let mut seat = board.seat().unwrap();
                let mailbox = seat.mailbox().unwrap();
                thread::scope(|scope| {
                    let waits = scope.spawn(move || (seat.recv_timeout(mailbox, LONG), seat));
                    let_them_wait();
                    change(&board, mailbox);
                    let (received, mut seat) = waits.join().unwrap();
                    assert_eq!(received, Ok(5), "{place}");
                    let waits = scope.spawn(move || block_on(seat.recv_async(mailbox)));
                    let_them_wait();
                    change(&board, mailbox);
                    assert_eq!(waits.join().unwrap(), Ok(5), "{place}");
                });
            }
            std::fs::remove_file(&path).unwrap();
        }
    });
}

/// With the old meaning all of them are stalled.
#[test]
fn the_builder_lets_open_waits_stall() {
    without_a_hang(|| {
        let board = board().open_waits_stall();
        let (mut blocks, mut timed) = (board.seat().unwrap(), board.seat().unwrap());
        let mailbox = blocks.mailbox::<u64>().unwrap();
        thread::scope(|scope| {
            let waits = scope.spawn(move || blocks.recv(mailbox));
            assert_eq!(timed.recv_timeout(mailbox, LONG), Err(Error::Stalled));
            drop(timed);
            assert_eq!(waits.join().unwrap(), Err(Error::Stalled));
        });
        let mut alone = board.seat().unwrap();
        assert_eq!(alone.recv_timeout(mailbox, Duration::ZERO), Err(Error::Stalled));
        assert_eq!(poll_once(pin!(alone.recv_async(mailbox))), Poll::Ready(Err(Error::Stalled)));
    });
}

#[test]
fn the_error_says_who_waited() {
    without_a_hang(|| {
        let board = board();
        let (mut ann, mut ben) = (board.seat().unwrap(), board.seat().unwrap());
        let (mailbox, variable) = (ann.mailbox::<u64>().unwrap(), ann.mvar::<u64>().unwrap());
        let alone = "no seat and no lane is left that could answer this call; if somebody comes \
                     later, announce it by `hold` or `expect`";
        let told = thread::scope(|scope| {
            let named = thread::Builder::new().name("ben".to_string());
            let waits = named.spawn_scoped(scope, move || ben.take(variable)).unwrap();
            while board.waiting().is_empty() {
                thread::yield_now();
            }
            let told = ann.recv(mailbox).unwrap_err().to_string();
            drop(ann);
            assert_eq!(waits.join().unwrap(), Err(Error::Stalled));
            told
        });
        let last =
            "The last call of this thread that failed so was `recv 0` from seat 0, and these \
                    waited: seat 1 (thread ben) at take 1 since entry 2";
        assert_eq!(told, format!("{alone}. {last}"));
        let elsewhere = thread::spawn(|| Error::Stalled.to_string()).join().unwrap();
        assert_eq!(elsewhere, alone);
    });
}

/// Threads that wait with limits of all lengths and without, and send now and then. Each message is
/// received, and the threads without a limit end.
#[test]
fn no_wake_is_lost() {
    const ROUNDS: u64 = 300;
    const SENT: u64 = 20;
    without_a_hang(|| {
        for round in 0..ROUNDS {
            let board = board();
            let mut seats: Vec<_> = (0..4).map(|_| board.seat().unwrap()).collect();
            let mailbox = seats[0].mailbox::<u64>().unwrap();
            let received = AtomicU64::new(0);
            thread::scope(|scope| {
                for (place, mut seat) in seats.drain(..).enumerate() {
                    let received = &received;
                    scope.spawn(move || match place {
                        0 | 1 => {
                            let count = seat.iter(mailbox).count() as u64;
                            received.fetch_add(count, Ordering::Relaxed);
                        }
                        _ => {
                            for number in 0..SENT {
                                let limit = Duration::from_micros(number * (round % 7));
                                if seat.recv_timeout(mailbox, limit).is_ok() {
                                    received.fetch_add(1, Ordering::Relaxed);
                                }
                                seat.send(mailbox, number).unwrap();
                            }
                        }
                    });
                }
            });
            assert_eq!(received.into_inner(), 2 * SENT);
        }
    });
}
