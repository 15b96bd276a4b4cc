//! One thread sends a value of a type and receives it, again and again: numbers and strings, on
//! switchboards of numbers and of bytes.

use super::queue::{Queue, Waking};
use super::Way;
use seryugo::{Carries, Message, Switchboard};
use std::hint::black_box;
use std::sync::Arc;
use std::time::{Duration, Instant};

pub const NUMBERS: [Way; 3] = [
    ("u64 on numbers", u64_on_numbers),
    ("u64 on bytes", u64_on_bytes),
    ("by hand, as u64", u64_by_hand),
];

pub const STRINGS: [Way; 3] = [
    ("as a String", string),
    ("as a Vec<u8>", bytes),
    ("by hand, as Arc<str>", string_by_hand),
];

/// The journal is cut after this many messages, so that its memory is used again.
const CUT: u64 = 10_000;

const TEXT: &str = "a string that has 32 bytes of it";

fn u64_on_numbers(messages: u64) -> Duration {
    pass(
        &Switchboard::of_numbers(1 << 32).unwrap(),
        messages,
        |n| n,
        |n, received| assert_eq!(received, n),
    )
}

fn u64_on_bytes(messages: u64) -> Duration {
    pass(
        &Switchboard::new(1 << 32).unwrap(),
        messages,
        |n| n,
        |n, received| assert_eq!(received, n),
    )
}

fn string(messages: u64) -> Duration {
    let text = &black_box(TEXT).to_string();
    pass_on_bytes(messages, text)
}

fn bytes(messages: u64) -> Duration {
    let bytes = &black_box(TEXT).as_bytes().to_vec();
    pass_on_bytes(messages, bytes)
}

/// Sends each number's message, and sees that it is received.
fn pass<T, R: Carries<T>>(
    board: &Switchboard<R>,
    messages: u64,
    message: impl Fn(u64) -> T,
    see: impl Fn(u64, T),
) -> Duration {
    let mut seat = board.seat().unwrap();
    let mailbox = seat.mailbox().unwrap();
    let start = Instant::now();
    for n in 0..messages {
        seat.send(mailbox, message(n)).unwrap();
        see(n, seat.recv(mailbox).unwrap());
        if n % CUT == 0 {
            board.cut().unwrap();
        }
    }
    start.elapsed()
}

/// Sends one value by a reference to it. Each that is received is a new one.
fn pass_on_bytes<T: Message + PartialEq>(messages: u64, message: &T) -> Duration {
    let board = Switchboard::new(1 << 32).unwrap();
    let mut seat = board.seat().unwrap();
    let mailbox = seat.mailbox::<T>().unwrap();
    let start = Instant::now();
    for n in 0..messages {
        seat.send(mailbox, message).unwrap();
        assert!(seat.recv(mailbox).unwrap() == *message);
        if n % CUT == 0 {
            board.cut().unwrap();
        }
    }
    start.elapsed()
}

fn u64_by_hand(messages: u64) -> Duration {
    by_hand(messages, |n| n, |n, received| assert_eq!(received, n))
}

/// The text is copied into each message, and the receiver shares it.
fn string_by_hand(messages: u64) -> Duration {
    let text = black_box(TEXT);
    by_hand(messages, |_| Arc::from(text), |_, received: Arc<str>| assert!(*received == *text))
}

fn by_hand<M: Clone>(messages: u64, message: impl Fn(u64) -> M, see: impl Fn(u64, M)) -> Duration {
    let queue = Queue::new(1 << 32, Waking::WhereSleeping);
    let start = Instant::now();
    for n in 0..messages {
        queue.send(0, message(n)).unwrap();
        see(n, queue.recv(0).unwrap());
        if n % CUT == 0 {
            queue.cut();
        }
    }
    start.elapsed()
}
