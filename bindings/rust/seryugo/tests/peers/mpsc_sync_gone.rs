//! Bounded channels of std's `mpsc` whose receiver is gone: what was sent on a lane waits in the
//! mailbox for the next seat.

use crate::common::without_a_hang;
use crate::mpsc_sync::assert_full;
use crate::{seats, MANY};
use seryugo::{Error, Switchboard};
use std::thread;

#[test]
fn a_receiver_that_left_loses_nothing() {
    let board = Switchboard::of_numbers(MANY).unwrap();
    let [mut receiver] = seats(&board);
    let mailbox = receiver.mailbox().unwrap();
    let (mut one, other) = (board.lane(mailbox, 1).unwrap(), board.lane(mailbox, 1).unwrap());
    drop(receiver);
    drop(other);
    one.send(1).unwrap();
    assert_full(one.send(2), 2);
    one.close().unwrap();
    assert_eq!(board.seat().unwrap().recv(mailbox), Ok(1));
}

#[test]
fn a_receiver_that_leaves_loses_nothing() {
    without_a_hang(|| {
        let board = Switchboard::of_numbers(MANY).unwrap();
        let [mut receiver] = seats(&board);
        let mailbox = receiver.mailbox().unwrap();
        let lanes = [(); 2].map(|()| board.lane(mailbox, 4).unwrap());
        thread::scope(|scope| {
            scope.spawn(move || assert_eq!(receiver.recv(mailbox), Ok(1)));
            for mut lane in lanes {
                (0..4).for_each(|_| lane.send(1).unwrap());
                assert_full(lane.send(1), 1);
                lane.close().unwrap();
            }
        });
        assert_eq!(board.owed(mailbox), Ok(7));
    });
}

#[test]
fn lanes_close_while_a_receiver_leaves() {
    without_a_hang(|| {
        for _ in 0..100 {
            let board = Switchboard::of_numbers(MANY).unwrap();
            let [mut receiver, free] = seats(&board);
            let mailbox = receiver.mailbox().unwrap();
            let (mut one, other) =
                (board.lane(mailbox, 1).unwrap(), board.lane(mailbox, 1).unwrap());
            thread::scope(|scope| {
                scope.spawn(move || drop(free));
                scope.spawn(move || one.send(1).unwrap());
                scope.spawn(move || drop(other));
                assert_eq!(receiver.recv(mailbox), Ok(1));
                assert_eq!(receiver.recv(mailbox), Err(Error::Stalled));
            });
        }
    });
}
