//! This many threads send, and one receives all: each sender's messages in its order.

use super::queue::{Queue, Waking};
use super::Way;
use seryugo::{Error, Lane, Mailbox, Numbers, Seat, Switchboard};
use std::sync::mpsc;
use std::thread;
use std::time::{Duration, Instant};

#[must_use]
pub fn ways<const SENDERS: u64>() -> [Way; 5] {
    [
        ("seats", by_seats::<SENDERS>),
        ("lanes", by_lanes::<SENDERS>),
        ("by hand, wakes always", by_lock_waking_always::<SENDERS>),
        ("by hand, wakes at need", by_lock_waking_at_need::<SENDERS>),
        ("mpsc", by_mpsc::<SENDERS>),
    ]
}

const CAPACITY: usize = 1_024;

/// The messages of one sender: its number, and how many it has sent before.
pub fn messages_of<const SENDERS: u64>(sender: u64, messages: u64) -> impl Iterator<Item = u64> {
    (0..messages / SENDERS).map(move |n| n * SENDERS + sender)
}

/// Sees that each sender's messages come in order.
pub struct Orders<const SENDERS: u64> {
    expected: Vec<u64>,
    left: u64,
}

impl<const SENDERS: u64> Orders<SENDERS> {
    #[must_use]
    pub fn of(messages: u64) -> Orders<SENDERS> {
        Orders {
            expected: vec![0; SENDERS as usize],
            left: messages / SENDERS * SENDERS,
        }
    }

    #[must_use]
    pub fn are_all_here(&self) -> bool {
        self.left == 0
    }

    pub fn see(&mut self, message: u64) {
        let expected = &mut self.expected[(message % SENDERS) as usize];
        assert_eq!(message / SENDERS, *expected);
        *expected += 1;
        self.left -= 1;
    }
}

/// Receives all.
pub fn receive_all<const SENDERS: u64>(messages: u64, mut next: impl FnMut() -> u64) {
    let mut orders = Orders::<SENDERS>::of(messages);
    while !orders.are_all_here() {
        orders.see(next());
    }
}

fn by_lock_waking_always<const SENDERS: u64>(messages: u64) -> Duration {
    by_lock::<SENDERS>(messages, Waking::Always)
}

fn by_lock_waking_at_need<const SENDERS: u64>(messages: u64) -> Duration {
    by_lock::<SENDERS>(messages, Waking::WhereSleeping)
}

fn by_lock<const SENDERS: u64>(messages: u64, waking: Waking) -> Duration {
    let queue = &Queue::new(1 << 32, waking);
    let start = Instant::now();
    thread::scope(|scope| {
        for sender in 0..SENDERS {
            scope.spawn(move || {
                messages_of::<SENDERS>(sender, messages)
                    .for_each(|message| queue.send(sender, message).unwrap());
            });
        }
        receive_all::<SENDERS>(messages, || queue.recv(SENDERS).unwrap());
    });
    start.elapsed()
}

fn by_seats<const SENDERS: u64>(messages: u64) -> Duration {
    let board = Switchboard::of_numbers(1 << 32).unwrap();
    let mut receiver = board.seat().unwrap();
    let mailbox = receiver.mailbox().unwrap();
    let seats: Vec<Seat<'_, Numbers>> = (0..SENDERS).map(|_| board.seat().unwrap()).collect();
    let start = Instant::now();
    thread::scope(|scope| {
        for (sender, mut seat) in (0..).zip(seats) {
            scope.spawn(move || {
                messages_of::<SENDERS>(sender, messages)
                    .for_each(|message| seat.send(mailbox, message).unwrap());
            });
        }
        receive_from::<SENDERS>(&mut receiver, mailbox, messages);
    });
    start.elapsed()
}

fn by_lanes<const SENDERS: u64>(messages: u64) -> Duration {
    let board = Switchboard::of_numbers(1 << 32).unwrap();
    let mut receiver = board.seat().unwrap();
    let mailbox = receiver.mailbox().unwrap();
    let lanes: Vec<Lane<'_, Numbers, u64>> =
        (0..SENDERS).map(|_| board.lane(mailbox, CAPACITY).unwrap()).collect();
    let start = Instant::now();
    thread::scope(|scope| {
        for (sender, lane) in (0..).zip(lanes) {
            scope.spawn(move || send_on::<SENDERS>(lane, sender, messages));
        }
        receive_from::<SENDERS>(&mut receiver, mailbox, messages);
    });
    start.elapsed()
}

/// The lock is taken only where the lane is full.
fn send_on<const SENDERS: u64>(mut lane: Lane<'_, Numbers, u64>, sender: u64, messages: u64) {
    for message in messages_of::<SENDERS>(sender, messages) {
        while let Err(refused) = lane.send(message) {
            assert_eq!(refused.error, Error::Full);
            lane.drain().unwrap();
        }
    }
    lane.close().unwrap();
}

fn receive_from<const SENDERS: u64>(
    receiver: &mut Seat<'_, Numbers>,
    mailbox: Mailbox<u64>,
    messages: u64,
) {
    receive_all::<SENDERS>(messages, || receiver.recv(mailbox).unwrap());
}

fn by_mpsc<const SENDERS: u64>(messages: u64) -> Duration {
    let (sender, receiver) = mpsc::channel();
    let start = Instant::now();
    thread::scope(|scope| {
        for number in 0..SENDERS {
            let sender = sender.clone();
            scope.spawn(move || {
                messages_of::<SENDERS>(number, messages)
                    .for_each(|message| sender.send(message).unwrap());
            });
        }
        receive_all::<SENDERS>(messages, || receiver.recv().unwrap());
    });
    start.elapsed()
}
