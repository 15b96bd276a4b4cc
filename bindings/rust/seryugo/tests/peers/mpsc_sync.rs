//! Bounded channels of std's `mpsc`: a lane to a mailbox is the bound, and its thread drains it.

use crate::common::without_a_hang;
use crate::{ms, seats, MANY};
use seryugo::{Error, Mailbox, Numbers, Seat, SendError, Switchboard};
use std::thread;
use std::time::Duration;

/// Sends these numbers on a lane of this capacity, and closes it.
fn send_on_lane(
    board: &Switchboard<Numbers>,
    mailbox: Mailbox<u64>,
    capacity: usize,
    messages: impl Iterator<Item = u64>,
) {
    let mut lane = board.lane(mailbox, capacity).unwrap();
    for message in messages {
        if lane.send(message).is_err() {
            assert!(lane.drain().unwrap() >= 1);
            lane.send(message).unwrap();
        }
    }
    lane.close().unwrap();
}

/// The lane was full, and returned this message.
pub fn assert_full(sent: Result<(), SendError<u64>>, message: u64) {
    let refused = sent.unwrap_err();
    assert_eq!((refused.error, refused.message), (Error::Full, message));
}

#[test]
fn smoke() {
    let board = Switchboard::of_numbers(MANY).unwrap();
    let [mut receiver] = seats(&board);
    let mailbox = receiver.mailbox().unwrap();
    let mut lane = board.lane(mailbox, 1).unwrap();
    lane.send(1).unwrap();
    lane.close().unwrap();
    assert_eq!(receiver.recv(mailbox), Ok(1));
}

#[test]
fn drop_full() {
    let board = Switchboard::of_numbers(MANY).unwrap();
    let mailbox = board.seat().unwrap().mailbox().unwrap();
    let mut lane = board.lane(mailbox, 1).unwrap();
    lane.send(1).unwrap();
    drop(lane);
    assert_eq!((board.owed(mailbox), board.lost()), (Ok(1), 0));
}

#[test]
fn smoke_shared() {
    let board = Switchboard::of_numbers(MANY).unwrap();
    let [mut receiver] = seats(&board);
    let mailbox = receiver.mailbox().unwrap();
    let (mut one, mut other) = (board.lane(mailbox, 1).unwrap(), board.lane(mailbox, 1).unwrap());
    one.send(1).unwrap();
    assert_eq!(one.drain(), Ok(1));
    assert_eq!(receiver.recv(mailbox), Ok(1));
    other.send(2).unwrap();
    assert_eq!(other.drain(), Ok(1));
    assert_eq!(receiver.recv(mailbox), Ok(2));
}

#[test]
fn recv_timeout() {
    let board = Switchboard::of_numbers(MANY).unwrap();
    let [mut receiver] = seats(&board);
    let mailbox = receiver.mailbox().unwrap();
    let mut lane = board.lane(mailbox, 1).unwrap();
    assert_eq!(receiver.recv_timeout(mailbox, ms(1)), Err(Error::TimedOut));
    lane.send(1).unwrap();
    lane.close().unwrap();
    assert_eq!(receiver.recv_timeout(mailbox, ms(1)), Ok(1));
}

#[test]
fn smoke_threads() {
    without_a_hang(|| {
        let board = Switchboard::of_numbers(MANY).unwrap();
        let [mut receiver] = seats(&board);
        let mailbox = receiver.mailbox().unwrap();
        let mut lane = board.lane(mailbox, 1).unwrap();
        thread::scope(|scope| {
            scope.spawn(move || {
                lane.send(1).unwrap();
                lane.close().unwrap();
            });
            assert_eq!(receiver.recv(mailbox), Ok(1));
        });
    });
}

#[test]
fn chan_gone() {
    let board = Switchboard::of_numbers(MANY).unwrap();
    let [mut receiver] = seats(&board);
    let mailbox = receiver.mailbox().unwrap();
    let (one, other) = (board.lane(mailbox, 1).unwrap(), board.lane(mailbox, 1).unwrap());
    drop(one);
    assert_eq!(receiver.recv_timeout(mailbox, ms(1)), Err(Error::TimedOut));
    drop(other);
    assert_eq!(receiver.recv(mailbox), Err(Error::Stalled));
}

#[test]
fn chan_gone_concurrent() {
    without_a_hang(|| {
        let board = Switchboard::of_numbers(MANY).unwrap();
        let [mut receiver, free] = seats(&board);
        let mailbox = receiver.mailbox().unwrap();
        thread::scope(|scope| {
            let board = &board;
            scope.spawn(move || {
                send_on_lane(board, mailbox, 1, 0..2);
                drop(free);
            });
            assert_eq!(receiver.iter(mailbox).collect::<Vec<_>>(), [0, 1]);
        });
    });
}

#[test]
fn stress() {
    without_a_hang(|| {
        let board = Switchboard::of_numbers(MANY).unwrap();
        let [mut receiver, free] = seats(&board);
        let mailbox = receiver.mailbox().unwrap();
        thread::scope(|scope| {
            let board = &board;
            scope.spawn(move || {
                send_on_lane(board, mailbox, 1, 0..5_000);
                drop(free);
            });
            (0..5_000).for_each(|message| assert_eq!(receiver.recv(mailbox), Ok(message)));
            assert_eq!(receiver.recv(mailbox), Err(Error::Stalled));
        });
    });
}

#[test]
fn stress_shared() {
    without_a_hang(|| {
        let board = Switchboard::of_numbers(MANY).unwrap();
        let [mut receiver] = seats(&board);
        let mailbox = receiver.mailbox().unwrap();
        thread::scope(|scope| {
            for free in seats::<_, 8>(&board) {
                let board = &board;
                scope.spawn(move || {
                    send_on_lane(board, mailbox, 1, 1..=500);
                    drop(free);
                });
            }
            let received: Vec<_> = receiver.iter(mailbox).collect();
            assert_eq!((received.len(), received.iter().sum::<u64>()), (4_000, 8 * 500 * 501 / 2));
        });
        assert_eq!(receiver.recv_poll(mailbox), Ok(None));
    });
}

/// How many messages a seat receives with this time limit, until nothing more can come.
fn count_within(receiver: &mut Seat<'_, Numbers>, mailbox: Mailbox<u64>, limit: Duration) -> usize {
    std::iter::repeat_with(|| receiver.recv_timeout(mailbox, limit))
        .take_while(|told| *told != Err(Error::Stalled))
        .flatten()
        .count()
}

#[test]
fn stress_recv_timeout() {
    without_a_hang(|| {
        let board = Switchboard::of_numbers(MANY).unwrap().open_waits_stall();
        let [mut receiver] = seats(&board);
        let mailbox = receiver.mailbox().unwrap();
        thread::scope(|scope| {
            for (place, free) in seats::<_, 20>(&board).into_iter().enumerate() {
                let board = &board;
                scope.spawn(move || {
                    thread::sleep(ms(place as u64 * 3));
                    send_on_lane(board, mailbox, 2, 0..5);
                    drop(free);
                });
            }
            assert_eq!(count_within(&mut receiver, mailbox, ms(2)), 100);
        });
    });
}

#[test]
fn recv_a_lot() {
    let board = Switchboard::of_numbers(MANY).unwrap();
    let [mut receiver] = seats(&board);
    let mailbox = receiver.mailbox().unwrap();
    send_on_lane(&board, mailbox, 1_024, 0..10_000);
    assert!(receiver.try_iter(mailbox).eq(0..10_000));
}

#[test]
fn a_full_lane_returns_the_message() {
    let board = Switchboard::of_numbers(MANY).unwrap();
    let mailbox = board.seat().unwrap().mailbox().unwrap();
    let mut lane = board.lane(mailbox, 1).unwrap();
    lane.send(1).unwrap();
    assert_full(lane.send(2), 2);
    assert_eq!(lane.drain(), Ok(1));
    lane.send(2).unwrap();
}

#[test]
fn no_lane_of_capacity_0() {
    let board = Switchboard::of_numbers(MANY).unwrap();
    let mailbox = board.seat().unwrap().mailbox().unwrap();
    assert_eq!(board.lane(mailbox, 0).err(), Some(Error::OutOfBounds));
    assert_eq!(board.lane(mailbox, 1_025).err(), Some(Error::OutOfBounds));
    assert!(board.lane(mailbox, 1_024).is_ok());
}
