//! Unbounded channels of crossbeam-channel: one thread, on a mailbox.

use crate::{ms, seats, MANY};
use seryugo::{Error, Message, Switchboard};
use std::sync::atomic::{AtomicU64, Ordering};
use std::thread;

#[test]
fn smoke() {
    let board = Switchboard::new(MANY).unwrap();
    let [mut sender, mut receiver] = seats(&board);
    let mailbox = sender.mailbox::<u64>().unwrap();
    sender.send(mailbox, 7).unwrap();
    assert_eq!(receiver.recv_poll(mailbox), Ok(Some(7)));
    sender.send(mailbox, 8).unwrap();
    assert_eq!(receiver.recv(mailbox), Ok(8));
    assert_eq!(receiver.recv_poll(mailbox), Ok(None));
    assert_eq!(receiver.recv_timeout(mailbox, ms(10)), Err(Error::TimedOut));
}

#[test]
fn capacity_is_that_of_the_journal() {
    let board = Switchboard::new(3).unwrap();
    let [mut seat] = seats(&board);
    let mailbox = seat.mailbox::<u64>().unwrap();
    seat.send(mailbox, 1).unwrap();
    seat.send(mailbox, 2).unwrap();
    let refused = seat.send(mailbox, 3).unwrap_err();
    assert_eq!((refused.message, refused.error), (3, Error::JournalFull));
    board.cut().unwrap();
    seat.send(mailbox, 3).unwrap();
    assert_eq!(seat.try_iter(mailbox).take(2).collect::<Vec<_>>(), [1, 2]);
}

#[test]
fn len_and_empty() {
    let board = Switchboard::new(MANY).unwrap();
    let [mut seat] = seats(&board);
    let mailbox = seat.mailbox::<()>().unwrap();
    assert_eq!(board.owed(mailbox), Ok(0));
    seat.send(mailbox, ()).unwrap();
    assert_eq!(board.owed(mailbox), Ok(1));
    assert_eq!(seat.recv(mailbox), Ok(()));
    assert_eq!(board.owed(mailbox), Ok(0));
}

#[test]
fn len() {
    let board = Switchboard::new(MANY).unwrap();
    let [mut seat] = seats(&board);
    let mailbox = seat.mailbox::<u64>().unwrap();
    for count in 1..=50 {
        seat.send(mailbox, count).unwrap();
        assert_eq!(board.owed(mailbox), Ok(count));
    }
    for count in 1..=50 {
        assert_eq!(seat.recv(mailbox), Ok(count));
        assert_eq!(board.owed(mailbox), Ok(50 - count));
    }
}

#[test]
fn send_never_blocks() {
    let board = Switchboard::new(MANY).unwrap();
    let [mut sender, receiver] = seats(&board);
    let mailbox = sender.mailbox::<u64>().unwrap();
    for message in 0..1_000 {
        sender.send(mailbox, message).unwrap();
    }
    drop(receiver);
    sender.send(mailbox, 777).unwrap();
    assert_eq!(board.owed(mailbox), Ok(1_001));
}

#[test]
fn send_after_the_receiver_left() {
    let board = Switchboard::new(MANY).unwrap();
    let [mut sender, receiver] = seats(&board);
    let mailbox = sender.mailbox::<u64>().unwrap();
    for message in 1..=3 {
        sender.send(mailbox, message).unwrap();
    }
    drop(receiver);
    sender.send(mailbox, 4).unwrap();
    drop(sender);
    let [mut later] = seats(&board);
    assert_eq!(later.iter(mailbox).collect::<Vec<_>>(), [1, 2, 3, 4]);
}

#[test]
fn recv_after_the_sender_left() {
    let board = Switchboard::new(MANY).unwrap();
    let [mut sender, mut receiver] = seats(&board);
    let mailbox = sender.mailbox::<u64>().unwrap();
    for message in 1..=3 {
        sender.send(mailbox, message).unwrap();
    }
    drop(sender);
    for message in 1..=3 {
        assert_eq!(receiver.recv(mailbox), Ok(message));
    }
    assert_eq!(receiver.recv(mailbox), Err(Error::Stalled));
}

static READ: AtomicU64 = AtomicU64::new(0);
static DROPPED: AtomicU64 = AtomicU64::new(0);

/// Counts how often it was read from bytes and dropped.
struct Counted;

impl Message for Counted {
    fn write_to(&self, _: &mut Vec<u8>) {}

    fn from_bytes(_: &[u8]) -> Option<Counted> {
        READ.fetch_add(1, Ordering::SeqCst);
        Some(Counted)
    }
}

impl Drop for Counted {
    fn drop(&mut self) {
        DROPPED.fetch_add(1, Ordering::SeqCst);
    }
}

#[test]
fn drops() {
    const RECEIVED: u64 = 2_000;
    const LEFT: u64 = 100;
    let board = Switchboard::new(MANY).unwrap();
    let [mut sender, mut receiver] = seats(&board);
    let mailbox = sender.mailbox::<Counted>().unwrap();
    thread::scope(|scope| {
        scope.spawn(|| (0..RECEIVED).for_each(|_| drop(receiver.recv(mailbox).unwrap())));
        scope.spawn(|| (0..RECEIVED + LEFT).for_each(|_| sender.send(mailbox, Counted).unwrap()));
    });
    drop((sender, receiver));
    drop(board);
    assert_eq!(READ.load(Ordering::SeqCst), RECEIVED);
    assert_eq!(DROPPED.load(Ordering::SeqCst), 2 * RECEIVED + LEFT);
}
