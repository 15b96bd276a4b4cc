//! tokio's broadcast channels, on a channel with ports.

use crate::task::Task;
use crate::{seats, MANY};
use seryugo::{Error, Message, Switchboard};
use std::panic::{catch_unwind, AssertUnwindSafe};
use std::task::Poll;

fn hello() -> String {
    String::from("hello")
}

#[test]
fn send_try_recv() {
    let board = Switchboard::new(MANY).unwrap();
    let [mut seat] = seats(&board);
    let channel = seat.channel::<String>().unwrap();
    let port = seat.port(channel).unwrap();
    assert_eq!(seat.recv_poll(port), Ok(None));
    seat.multicast(channel, hello()).unwrap();
    assert_eq!(seat.recv_poll(port), Ok(Some(hello())));
    assert_eq!(seat.recv_poll(port), Ok(None));
}

#[test]
fn send_two_recv() {
    let board = Switchboard::new(MANY).unwrap();
    let [mut seat] = seats(&board);
    let channel = seat.channel::<String>().unwrap();
    let ports = [seat.port(channel).unwrap(), seat.port(channel).unwrap()];
    assert!(ports.iter().all(|port| seat.recv_poll(*port) == Ok(None)));
    seat.multicast(channel, hello()).unwrap();
    assert!(ports.iter().all(|port| seat.recv_poll(*port) == Ok(Some(hello()))));
    assert!(ports.iter().all(|port| seat.recv_poll(*port) == Ok(None)));
}

#[test]
fn send_recv() {
    let board = Switchboard::new(MANY).unwrap();
    let [mut sender, mut receiver] = seats(&board);
    let channel = sender.channel::<String>().unwrap();
    let port = sender.port(channel).unwrap();
    let mut recv = Task::new(receiver.recv_async(port));
    assert_eq!(recv.poll(), Poll::Pending);
    assert!(!recv.is_woken());
    sender.multicast(channel, hello()).unwrap();
    assert!(recv.is_woken());
    assert_eq!(recv.poll(), Poll::Ready(Ok(Some(hello()))));
}

#[test]
fn send_two_recv_woken() {
    let board = Switchboard::new(MANY).unwrap();
    let [mut sender, mut one, mut other] = seats(&board);
    let channel = sender.channel::<u64>().unwrap();
    let ports = [sender.port(channel).unwrap(), sender.port(channel).unwrap()];
    {
        let mut recv = [
            Task::new(one.recv_async(ports[0])),
            Task::new(other.recv_async(ports[1])),
        ];
        assert!(recv.iter_mut().all(|task| task.poll() == Poll::Pending));
        sender.multicast(channel, 1).unwrap();
        assert!(recv.iter().all(Task::is_woken));
        assert!(recv.iter_mut().all(|task| task.poll() == Poll::Ready(Ok(Some(1)))));
    }
    let mut recv = [
        Task::new(one.recv_async(ports[0])),
        Task::new(other.recv_async(ports[1])),
    ];
    assert_eq!(recv[0].poll(), Poll::Pending);
    sender.multicast(channel, 2).unwrap();
    assert!(recv[0].is_woken() && !recv[1].is_woken());
    assert!(recv.iter_mut().all(|task| task.poll() == Poll::Ready(Ok(Some(2)))));
}

#[test]
fn change_tasks() {
    let board = Switchboard::new(MANY).unwrap();
    let [mut sender, mut receiver] = seats(&board);
    let channel = sender.channel::<u64>().unwrap();
    let port = sender.port(channel).unwrap();
    let mut task = Task::new(receiver.recv_async(port));
    assert_eq!(task.poll(), Poll::Pending);
    let mut task = task.moved();
    assert_eq!(task.poll(), Poll::Pending);
    sender.multicast(channel, 5).unwrap();
    assert!(task.is_woken());
    assert_eq!(task.poll(), Poll::Ready(Ok(Some(5))));
}

#[test]
fn send_slow_rx() {
    let board = Switchboard::new(MANY).unwrap();
    let [mut sender, mut fast, mut slow] = seats(&board);
    let channel = sender.channel::<u64>().unwrap();
    let (port, slow_port) = (sender.port(channel).unwrap(), sender.port(channel).unwrap());
    {
        let mut behind = Task::new(slow.recv_async(slow_port));
        {
            let mut recv = Task::new(fast.recv_async(port));
            assert_eq!((recv.poll(), behind.poll()), (Poll::Pending, Poll::Pending));
            sender.multicast(channel, 1).unwrap();
            assert!(recv.is_woken() && behind.is_woken());
            sender.multicast(channel, 2).unwrap();
            assert_eq!(recv.poll(), Poll::Ready(Ok(Some(1))));
        }
        assert_eq!(Task::new(fast.recv_async(port)).poll(), Poll::Ready(Ok(Some(2))));
        let mut recv = Task::new(fast.recv_async(port));
        assert_eq!(recv.poll(), Poll::Pending);
        sender.multicast(channel, 3).unwrap();
        assert!(recv.is_woken());
        assert_eq!(recv.poll(), Poll::Ready(Ok(Some(3))));
        assert_eq!(behind.poll(), Poll::Ready(Ok(Some(1))));
    }
    assert_eq!(slow.try_iter(slow_port).collect::<Vec<_>>(), [2, 3]);
}

#[test]
fn send_no_rx() {
    let board = Switchboard::new(MANY).unwrap();
    let [mut seat] = seats(&board);
    let channel = seat.channel::<String>().unwrap();
    (0..1_000).for_each(|_| seat.multicast(channel, hello()).unwrap());
    // A channel frees its messages in chunks.
    assert_eq!((board.sent(channel), board.kept(channel).unwrap() < 100), (Ok(1_000), true));
    let port = seat.port(channel).unwrap();
    seat.multicast(channel, String::from("world")).unwrap();
    assert_eq!(seat.recv_poll(port), Ok(Some(String::from("world"))));
}

/// A number whose reading panics for 0, and fails for 1.
#[derive(Debug, PartialEq)]
struct Touchy(u8);

impl Message for Touchy {
    fn write_to(&self, bytes: &mut Vec<u8>) {
        bytes.push(self.0);
    }

    fn from_bytes(bytes: &[u8]) -> Option<Touchy> {
        assert_ne!(bytes, [0]);
        (bytes != [1]).then(|| Touchy(bytes[0]))
    }
}

#[test]
fn panic_in_from_bytes() {
    let board = Switchboard::new(MANY).unwrap();
    let [mut seat] = seats(&board);
    let channel = seat.channel::<Touchy>().unwrap();
    let port = seat.port(channel).unwrap();
    for number in 0..3 {
        seat.multicast(channel, Touchy(number)).unwrap();
    }
    assert!(catch_unwind(AssertUnwindSafe(|| seat.recv_poll(port))).is_err());
    let unreadable = seat.recv_poll(port);
    assert!(matches!(unreadable, Err(Error::Unreadable { bytes, .. }) if bytes == [1]));
    assert_eq!(seat.recv(port), Ok(Some(Touchy(2))));
    assert_eq!(seat.recv_poll(port), Ok(None));
}

#[test]
fn the_last_sender_wakes_the_receivers() {
    let board = Switchboard::new(MANY).unwrap().open_waits_stall();
    let [mut sender, another, one, other] = seats(&board);
    let channel = sender.channel::<()>().unwrap();
    let mut recv = [one, other].map(|mut receiver| {
        let port = sender.port(channel).unwrap();
        // The seat leaves as its task ends. A free seat could still send, so that the other
        // receiver would wait on.
        Task::new(async move { receiver.recv_async(port).await })
    });
    assert!(recv.iter_mut().all(|task| task.poll() == Poll::Pending));
    drop(sender);
    assert!(recv.iter_mut().all(|task| task.poll() == Poll::Pending));
    drop(another);
    assert!(recv.iter().all(Task::is_woken));
    assert!(recv.iter_mut().all(|task| task.poll() == Poll::Ready(Err(Error::Stalled))));
}

#[test]
fn recv_after_the_sender_left() {
    let board = Switchboard::new(MANY).unwrap();
    let [mut sender, mut receiver] = seats(&board);
    let channel = sender.channel::<u64>().unwrap();
    let port = sender.port(channel).unwrap();
    sender.multicast(channel, 1).unwrap();
    sender.multicast(channel, 2).unwrap();
    drop(sender);
    let mut messages = receiver.iter(port);
    assert_eq!(messages.by_ref().collect::<Vec<_>>(), [1, 2]);
    assert_eq!(messages.error(), Some(Error::Stalled));
}
