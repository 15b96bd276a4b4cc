//! One thread sends a message and receives it, again and again.

use super::queue::{Queue, Waking};
use super::Way;
use seryugo::Switchboard;
use std::sync::mpsc;
use std::time::{Duration, Instant};

pub const WAYS: [Way; 4] = [
    ("a seat", by_seat),
    ("by hand, wakes always", by_lock_waking_always),
    ("by hand, wakes at need", by_lock_waking_at_need),
    ("mpsc", by_mpsc),
];

/// The journal is cut after this many messages, so that its memory is used again.
const CUT: u64 = 10_000;

fn by_lock_waking_always(messages: u64) -> Duration {
    by_lock(messages, Waking::Always)
}

fn by_lock_waking_at_need(messages: u64) -> Duration {
    by_lock(messages, Waking::WhereSleeping)
}

fn by_lock(messages: u64, waking: Waking) -> Duration {
    let queue = Queue::new(1 << 32, waking);
    let start = Instant::now();
    for n in 0..messages {
        queue.send(0, n).unwrap();
        assert_eq!(queue.recv(0).unwrap(), n);
        if n % CUT == 0 {
            queue.cut();
        }
    }
    start.elapsed()
}

fn by_seat(messages: u64) -> Duration {
    let board = Switchboard::of_numbers(1 << 32).unwrap();
    let mut seat = board.seat().unwrap();
    let mailbox = seat.mailbox().unwrap();
    let start = Instant::now();
    for n in 0..messages {
        seat.send(mailbox, n).unwrap();
        assert_eq!(seat.recv(mailbox).unwrap(), n);
        if n % CUT == 0 {
            board.cut().unwrap();
        }
    }
    let time = start.elapsed();
    assert_eq!(board.entries(), 2 * messages + 1);
    time
}

fn by_mpsc(messages: u64) -> Duration {
    let (sender, receiver) = mpsc::channel();
    let start = Instant::now();
    for n in 0..messages {
        sender.send(n).unwrap();
        assert_eq!(receiver.recv().unwrap(), n);
    }
    start.elapsed()
}
