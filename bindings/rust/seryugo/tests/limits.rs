//! Calls with time limits. If a turn or a wake is lost, a test here doesn't end.

mod common;

use common::{let_them_wait, seats, without_a_hang, MVar, Mailbox, Random, Seat};
use seryugo::{Error, Switchboard};
use std::sync::atomic::{AtomicU64, Ordering};
use std::thread;
use std::time::{Duration, Instant};

const SHORT: Duration = Duration::from_millis(2);

/// What a call of each kind fails with on an object that has nothing, within this time.
fn each_call(seat: &mut Seat<'_>, timeout: Duration) -> [Result<(), Error>; 6] {
    let mailbox = seat.mailbox().unwrap();
    let channel = seat.channel().unwrap();
    let port = seat.port(channel).unwrap();
    let (once, often) = (seat.ivar().unwrap(), seat.mvar().unwrap());
    [
        seat.recv_timeout(mailbox, timeout).map(drop),
        seat.recv_timeout(port, timeout).map(drop),
        seat.get_timeout(once, timeout).map(drop),
        seat.get_timeout(often, timeout).map(drop),
        seat.take_timeout(often, timeout).map(drop),
        seat.swap_timeout(often, 1, timeout).map(drop).map_err(Error::from),
    ]
}

#[test]
fn each_call_ends_at_its_limit() {
    let board = Switchboard::of_numbers(100).unwrap();
    let (mut seat, _free) = (board.seat().unwrap(), board.seat().unwrap());
    for timeout in [Duration::ZERO, Duration::from_micros(50), SHORT] {
        let (start, entries) = (Instant::now(), board.entries());
        assert_eq!(each_call(&mut seat, timeout), [const { Err(Error::TimedOut) }; 6]);
        assert!(start.elapsed() >= 6 * timeout);
        assert_eq!(board.entries(), entries + 5, "only the objects are made");
    }
}

#[test]
fn what_is_there_is_received_whatever_the_limit() {
    let board = Switchboard::of_numbers(100).unwrap();
    let mut seat = board.seat().unwrap();
    let mailbox = seat.mailbox().unwrap();
    let variable = seat.mvar_init(1).unwrap();
    for timeout in [Duration::ZERO, SHORT, Duration::MAX] {
        seat.send(mailbox, 5).unwrap();
        assert_eq!(seat.recv_timeout(mailbox, timeout), Ok(5));
        assert_eq!(seat.swap_timeout(variable, 2, timeout), Ok(1));
        assert_eq!(seat.get_timeout(variable, timeout), Ok(2));
        assert_eq!(seat.swap_timeout(variable, 1, timeout), Ok(2));
    }
    let past = Instant::now();
    seat.send(mailbox, 6).unwrap();
    assert_eq!(seat.recv_deadline(mailbox, past), Ok(6));
    assert_eq!(seat.get_deadline(variable, past), Ok(1));
    assert_eq!(seat.swap_deadline(variable, 3, past), Ok(1));
    assert_eq!(seat.take_deadline(variable, past), Ok(3));
}

/// An answer, a closed port and a stall end a call before its limit, however far that is.
#[test]
fn a_call_with_a_limit_is_answered_and_refused_as_any_other() {
    without_a_hang(|| {
        for timeout in [Duration::from_secs(3_600), Duration::MAX] {
            let board = Switchboard::of_numbers(100).unwrap().open_waits_stall();
            let mut first = board.seat().unwrap();
            let mailbox = first.mailbox().unwrap();
            let channel = first.channel().unwrap();
            let port = first.port(channel).unwrap();
            let (variable, empty) = (first.mvar().unwrap(), first.mvar().unwrap());
            let waiting = seats(&board, 4);
            thread::scope(|scope| {
                for (n, mut seat) in waiting.into_iter().enumerate() {
                    scope.spawn(move || match n {
                        0 => assert_eq!(seat.recv_timeout(mailbox, timeout), Ok(5)),
                        1 => assert_eq!(seat.recv_timeout(port, timeout), Ok(None)),
                        2 => assert_eq!(seat.take_timeout(variable, timeout), Ok(6)),
                        _ => assert_eq!(seat.get_timeout(empty, timeout), Err(Error::Stalled)),
                    });
                    let_them_wait();
                }
                first.send(mailbox, 5).unwrap();
                first.close(port).unwrap();
                first.put(variable, 6).unwrap();
                drop(first);
            });
        }
    });
}

/// One waits up to a limit and one without, and as the limit passes a message is sent. If the first
/// gives up although it was due, the other receives the message.
#[test]
fn a_seat_that_gives_up_hands_its_turn_on() {
    without_a_hang(|| {
        let mut random = Random::new(1);
        let mut timed_out = 0;
        for _ in 0..1_000 {
            let board = Switchboard::of_numbers(100).unwrap();
            let mut first = board.seat().unwrap();
            let mailbox = first.mailbox().unwrap();
            let (mut brief, mut patient) = (board.seat().unwrap(), board.seat().unwrap());
            let limit = Duration::from_micros(random.below(200));
            let wait = Duration::from_micros(random.below(200));
            thread::scope(|scope| {
                let brief = scope.spawn(move || brief.recv_timeout(mailbox, limit));
                let patient = scope.spawn(move || patient.recv(mailbox));
                thread::sleep(wait);
                first.send(mailbox, 1).unwrap();
                match brief.join().unwrap() {
                    Ok(message) => {
                        assert_eq!(message, 1);
                        first.send(mailbox, 1).unwrap();
                    }
                    Err(error) => {
                        assert_eq!(error, Error::TimedOut);
                        timed_out += 1;
                    }
                }
                assert_eq!(patient.join().unwrap(), Ok(1));
            });
            assert_eq!(board.owed(mailbox), Ok(0));
        }
        assert!(timed_out > 0);
    });
}

/// Receives with short limits until all of this many messages were received by someone.
fn receive_all(
    seat: &mut Seat<'_>,
    mailbox: Mailbox,
    received: &AtomicU64,
    all: u64,
    seed: u64,
) -> u64 {
    let (mut random, mut sum, mut last) = (Random::new(seed), 0, [None; 4]);
    while received.load(Ordering::Relaxed) < all {
        let limit = Duration::from_micros(random.below(60));
        match seat.recv_timeout(mailbox, limit) {
            Ok(message) => {
                let last = &mut last[(message % 4) as usize];
                assert!(last.replace(message) < Some(message), "a sender's messages are in order");
                sum += message;
                received.fetch_add(1, Ordering::Relaxed);
            }
            Err(error) => assert_eq!(error, Error::TimedOut),
        }
    }
    sum
}

/// Four send at random times, and four receive with limits that pass as often as not: nothing is
/// lost, and each ends.
#[test]
fn limits_pass_while_messages_are_sent() {
    const EACH: u64 = 5_000;

    without_a_hang(|| {
        let board = &Switchboard::of_numbers(1 << 32).unwrap();
        let mut first = board.seat().unwrap();
        let mailbox = first.mailbox().unwrap();
        let received = &AtomicU64::new(0);
        let (senders, receivers) = (seats(board, 4), seats(board, 4));
        let sum: u64 = thread::scope(|scope| {
            let receiving: Vec<_> = (10..)
                .zip(receivers)
                .map(|(seed, mut seat)| {
                    scope.spawn(move || receive_all(&mut seat, mailbox, received, 4 * EACH, seed))
                })
                .collect();
            for (sender, mut seat) in (0..).zip(senders) {
                scope.spawn(move || {
                    let mut random = Random::new(sender);
                    for n in 0..EACH {
                        seat.send(mailbox, 4 * n + sender).unwrap();
                        if random.below(4) == 0 {
                            thread::sleep(Duration::from_micros(random.below(80)));
                        }
                    }
                });
            }
            receiving.into_iter().map(|thread| thread.join().unwrap()).sum()
        });
        assert_eq!(sum, (0..4 * EACH).sum());
        assert_eq!((board.got(mailbox), board.owed(mailbox)), (Ok(4 * EACH), Ok(0)));
    });
}

/// Takes a variable with a short limit, however often that takes.
fn take_at_last(seat: &mut Seat<'_>, variable: MVar, random: &mut Random) -> u64 {
    loop {
        match seat.take_timeout(variable, Duration::from_micros(random.below(30))) {
            Ok(count) => return count,
            Err(error) => assert_eq!(error, Error::TimedOut),
        }
    }
}

/// Variables are locks round counts. Half of the threads take them with limits, and the others
/// without.
#[test]
fn variables_are_locks_with_limits() {
    const THREADS: u64 = 8;
    const TIMES: u64 = 2_000;

    without_a_hang(|| {
        let board = Switchboard::of_numbers(1 << 32).unwrap();
        // It stays free, since those that give up are to go on.
        let mut first = board.seat().unwrap();
        let variables = &[(); 3].map(|()| first.mvar_init(0).unwrap());
        thread::scope(|scope| {
            for (at, mut seat) in (0..THREADS).zip(seats(&board, THREADS as usize)) {
                scope.spawn(move || {
                    let mut random = Random::new(at);
                    for n in 0..TIMES {
                        let variable = variables[((at + n) % 3) as usize];
                        let count = match at % 2 {
                            0 => seat.take(variable).unwrap(),
                            _ => take_at_last(&mut seat, variable, &mut random),
                        };
                        seat.put(variable, count + 1).unwrap();
                    }
                });
            }
        });
        let sum: u64 = variables.iter().map(|&variable| first.take(variable).unwrap()).sum();
        assert_eq!(sum, THREADS * TIMES);
    });
}

/// Each of many that wait at a variable or a port gives up or is answered, and all that wait
/// without a limit are answered.
#[test]
fn some_of_many_give_up() {
    without_a_hang(|| {
        let mut random = Random::new(2);
        for n in 0..300 {
            let board = Switchboard::of_numbers(100).unwrap();
            let mut first = board.seat().unwrap();
            let channel = first.channel().unwrap();
            let port = first.port(channel).unwrap();
            let variable = first.ivar().unwrap();
            thread::scope(|scope| {
                for (at, mut seat) in seats(&board, 8).into_iter().enumerate() {
                    let limit = Duration::from_micros(random.below(400));
                    scope.spawn(move || match at {
                        0..=1 => assert_eq!(seat.get(variable), Ok(n)),
                        2..=3 => assert_eq!(seat.recv(port), Ok(None)),
                        4..=5 => assert!(matches!(
                            seat.get_timeout(variable, limit),
                            Ok(_) | Err(Error::TimedOut)
                        )),
                        _ => assert!(matches!(
                            seat.recv_timeout(port, limit),
                            Ok(None) | Err(Error::TimedOut)
                        )),
                    });
                }
                thread::sleep(Duration::from_micros(random.below(400)));
                first.put(variable, n).unwrap();
                first.close(port).unwrap();
            });
        }
    });
}

#[test]
fn iterators_end() {
    without_a_hang(|| {
        let board = Switchboard::of_numbers(100).unwrap();
        let (mut seat, mut other) = (board.seat().unwrap(), board.seat().unwrap());
        let channel = seat.channel().unwrap();
        let port = seat.port(channel).unwrap();
        thread::scope(|scope| {
            let board = &board;
            scope.spawn(move || {
                (0..5).for_each(|n| other.multicast(channel, n).unwrap());
                while board.got(port) != Ok(5) {
                    thread::yield_now();
                }
                other.close(port).unwrap();
            });
            let mut messages = seat.iter(port);
            assert_eq!(messages.by_ref().collect::<Vec<_>>(), [0, 1, 2, 3, 4]);
            assert_eq!((messages.next(), messages.error()), (None, None));
        });
        let mut messages = seat.try_iter(port);
        assert_eq!((messages.next(), messages.error()), (None, None));

        let mailbox = seat.mailbox().unwrap();
        seat.send(mailbox, 7).unwrap();
        let mut messages = seat.iter(mailbox);
        assert_eq!(
            (messages.next(), messages.next(), messages.error()),
            (Some(7), None, Some(Error::Stalled))
        );
        while seat.recv_poll(mailbox).is_ok() {}
        let mut messages = seat.try_iter(mailbox);
        assert_eq!((messages.next(), messages.error()), (None, Some(Error::JournalFull)));
    });
}
