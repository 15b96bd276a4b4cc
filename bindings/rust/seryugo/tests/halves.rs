//! Senders and receivers of mailboxes.

mod common;

use common::{block_on, without_a_hang};
use seryugo::{Error, Kind, Message, Missing, Numbers, Receiver, Sender, Switchboard, WhenFull};
use std::sync::Arc;
use std::thread;
use std::time::{Duration, Instant};

fn board() -> Arc<Switchboard> {
    Arc::new(Switchboard::new(1_000).unwrap())
}

#[test]
fn each_goes_to_another_thread() {
    fn goes_anywhere<T: Send + 'static>() {}
    goes_anywhere::<Sender<u64>>();
    goes_anywhere::<Receiver<u64, Numbers>>();
    // Whatever its messages are.
    goes_anywhere::<Sender<std::rc::Rc<u8>>>();
}

#[test]
fn messages_come_in_order() {
    let (sender, mut receiver) = board().unbounded::<String>().unwrap();
    assert!(receiver.is_empty());
    for message in ["one", "two", "three", "four", "five"] {
        sender.send(message).unwrap();
    }
    assert_eq!((receiver.len(), receiver.recv().unwrap().as_str()), (5, "one"));
    assert_eq!(receiver.try_recv().unwrap().as_deref(), Some("two"));
    assert_eq!(receiver.recv_timeout(Duration::ZERO).unwrap(), "three");
    assert_eq!(block_on(receiver.recv_async()).unwrap(), "four");
    assert_eq!(receiver.iter().next().as_deref(), Some("five"));
    assert!(receiver.is_empty());
    assert_eq!(receiver.try_recv(), Ok(None));
}

#[test]
fn a_receiver_ends_once_all_senders_are_dropped() {
    const ROUNDS: u64 = 1_000;
    without_a_hang(|| {
        for round in 0..ROUNDS {
            let board = Arc::new(Switchboard::of_numbers(100).unwrap());
            let (sender, receiver) = board.unbounded::<u64>().unwrap();
            let other = receiver.clone();
            for number in [round, round + 1, round + 2] {
                let sender = sender.clone();
                thread::spawn(move || sender.send(number).unwrap());
            }
            drop(sender);
            let receiving = thread::spawn(move || other.iter().sum::<u64>());
            let sum = receiver.iter().sum::<u64>();
            assert_eq!(receiver.recv(), Err(Error::Stalled));
            drop(receiver);
            assert_eq!(sum + receiving.join().unwrap(), 3 * round + 3);
        }
    });
}

#[test]
fn beside_a_sender_a_receiver_waits() {
    let (sender, receiver) = board().unbounded::<u64>().unwrap();
    let (start, limit) = (Instant::now(), Duration::from_millis(3));
    assert_eq!(receiver.recv_timeout(limit), Err(Error::TimedOut));
    assert!(start.elapsed() >= limit);
    drop(sender);
    assert_eq!(receiver.recv(), Err(Error::Stalled));
}

#[test]
fn a_send_needs_no_receiver() {
    let board = board();
    let (sender, receiver) = board.unbounded::<u64>().unwrap();
    drop(receiver);
    sender.send(5).unwrap();
    assert_eq!(board.receiver(sender.mailbox()).unwrap().recv(), Ok(5));
}

#[test]
fn a_message_that_is_not_sent_comes_back() {
    let board = Arc::new(Switchboard::new(1).unwrap());
    let (sender, receiver) = board.unbounded::<String>().unwrap();
    let refused = sender.send("hello".to_string()).unwrap_err();
    assert_eq!((refused.message.as_str(), refused.error), ("hello", Error::JournalFull));
    assert_eq!(receiver.recv(), Err(Error::JournalFull));
    board.cut().unwrap();
    sender.send(&refused.message).unwrap();
    assert_eq!(receiver.len(), 1);
}

#[test]
fn a_mailbox_of_another_switchboard_has_no_halves_here() {
    let (board, other) = (board(), board());
    let (sender, _receiver) = other.unbounded::<u64>().unwrap();
    let elsewhere = Error::NoSuch(Missing::Elsewhere(Kind::Mailbox, 0));
    assert_eq!(board.sender(sender.mailbox()).err(), Some(elsewhere.clone()));
    assert_eq!(board.receiver(sender.mailbox()).err(), Some(elsewhere));
    assert_eq!(board.seat().unwrap().number(), 0);
}

#[test]
fn they_use_up_expected_seats() {
    let board = Arc::new(Switchboard::new(1_000).unwrap().open_waits_stall());
    let mut seat = board.seat_owned().unwrap();
    let mailbox = seat.mailbox::<u64>().unwrap();
    board.expect(2).unwrap();
    drop(board.sender(mailbox).unwrap());
    assert_eq!(seat.recv_timeout(mailbox, Duration::ZERO), Err(Error::TimedOut));
    drop(board.receiver(mailbox).unwrap());
    assert_eq!(seat.recv(mailbox), Err(Error::Stalled));
}

#[test]
fn each_half_has_its_seat_in_the_journal() {
    let board = Arc::new(Switchboard::of_numbers(10).unwrap());
    let (sender, receiver) = board.unbounded::<u64>().unwrap();
    let other = sender.clone();
    sender.send(5).unwrap();
    other.send(6).unwrap();
    assert_eq!((receiver.recv(), receiver.try_recv()), (Ok(5), Ok(Some(6))));
    let mut text = Vec::new();
    board.take_journal().unwrap().write_to(&mut text).unwrap();
    let lines = "seat 0 mailbox: made 0\nseat 0 send 0 5: done\nseat 2 send 0 6: done\n\
                 seat 1 recv 0: 5\nseat 1 poll 0: 6\n";
    assert_eq!(String::from_utf8(text).unwrap(), format!("journal 1\n{lines}end 5\n"));
}

#[test]
fn the_switchboard_goes_with_the_last_half() {
    let board = board();
    let gone = Arc::downgrade(&board);
    let (sender, receiver) = board.unbounded::<u64>().unwrap();
    drop((board, sender));
    assert!(gone.upgrade().is_some());
    drop(receiver);
    assert!(gone.upgrade().is_none());
}

#[test]
fn a_half_goes_on_after_its_sink_has_panicked() {
    let mut is_first = true;
    let sink = WhenFull::call(move |_| {
        assert!(!std::mem::take(&mut is_first), "the first journal");
        Ok(())
    });
    let board = Arc::new(Switchboard::new(1).unwrap().when_full(sink));
    let (sender, receiver) = board.unbounded::<u64>().unwrap();
    let sender = thread::spawn(move || {
        let sending = || sender.send(5);
        assert!(std::panic::catch_unwind(std::panic::AssertUnwindSafe(sending)).is_err());
        sender.send(6).unwrap();
    });
    sender.join().unwrap();
    assert_eq!(receiver.recv(), Ok(6));
}

/// A message whose own code sends by the sender that sends it.
struct Reentrant;

std::thread_local! {
    static SENDER: std::cell::OnceCell<Sender<Reentrant>> = const { std::cell::OnceCell::new() };
}

impl Message for Reentrant {
    fn write_to(&self, _bytes: &mut Vec<u8>) {
        SENDER.with(|sender| sender.get().unwrap().send(Reentrant).unwrap());
    }

    fn from_bytes(_bytes: &[u8]) -> Option<Reentrant> {
        Some(Reentrant)
    }
}

#[test]
#[should_panic(expected = "already borrowed: the code of its message makes a call by it")]
fn a_message_must_not_send_by_its_sender() {
    let (sender, _receiver) = board().unbounded().unwrap();
    SENDER.with(|kept| {
        let sender = kept.get_or_init(|| sender);
        sender.send(Reentrant).unwrap();
    });
}
