//! Where tokio's broadcast channels overwrite messages: a channel keeps what a port hasn't
//! received.

use crate::{seats, MANY};
use seryugo::{Error, Switchboard};

#[test]
fn a_port_behind_loses_nothing() {
    let board = Switchboard::new(MANY).unwrap();
    let [mut seat] = seats(&board);
    let channel = seat.channel::<u64>().unwrap();
    let (fast, slow) = (seat.port(channel).unwrap(), seat.port(channel).unwrap());
    for number in 1..=1_000 {
        seat.multicast(channel, number).unwrap();
        assert_eq!(seat.recv(fast), Ok(Some(number)));
    }
    assert_eq!((board.owed(slow), board.kept(channel)), (Ok(1_000), Ok(1_000)));
    assert!(seat.try_iter(slow).eq(1..=1_000));
    assert_eq!((board.owed(slow), seat.recv_poll(slow)), (Ok(0), Ok(None)));
}

#[test]
fn one_message_at_a_time() {
    let board = Switchboard::new(MANY).unwrap();
    let [mut seat] = seats(&board);
    let channel = seat.channel::<u64>().unwrap();
    let port = seat.port(channel).unwrap();
    for number in 1..=3 {
        seat.multicast(channel, number).unwrap();
        assert_eq!(seat.recv_poll(port), Ok(Some(number)));
        assert_eq!(seat.recv_poll(port), Ok(None));
    }
}

#[test]
fn unread_messages_outlast_the_sender() {
    let board = Switchboard::new(MANY).unwrap();
    let [mut sender, mut receiver] = seats(&board);
    let channel = sender.channel::<u64>().unwrap();
    let port = sender.port(channel).unwrap();
    for number in 1..=4 {
        sender.multicast(channel, number).unwrap();
    }
    drop(sender);
    assert!(receiver.try_iter(port).eq(1..=4));
    assert_eq!(receiver.recv_poll(port), Ok(None));
    assert_eq!(receiver.recv(port), Err(Error::Stalled));
}

#[test]
fn closed_ports_free_what_remains() {
    let board = Switchboard::new(MANY).unwrap();
    let [mut seat] = seats(&board);
    let channel = seat.channel::<String>().unwrap();
    let (one, other) = (seat.port(channel).unwrap(), seat.port(channel).unwrap());
    // What a channel keeps is freed in chunks, so more is sent than one holds.
    for number in 0..1_000 {
        seat.multicast(channel, number.to_string()).unwrap();
    }
    assert_eq!(seat.recv(one), Ok(Some(String::from("0"))));
    assert_eq!(seat.recv(other), Ok(Some(String::from("0"))));
    assert!(seat.close(one).unwrap());
    assert!(board.kept(channel).unwrap() >= 999);
    assert!(seat.close(other).unwrap());
    assert!(board.kept(channel).unwrap() < 999);
    assert_eq!(seat.recv(one), Ok(None));
}

#[test]
fn feeds_of_bad_capacity() {
    let board = Switchboard::of_numbers(MANY).unwrap();
    let [mut seat] = seats(&board);
    let channel = seat.channel().unwrap();
    assert_eq!(board.feed(channel, 0).err(), Some(Error::OutOfBounds));
    assert_eq!(board.feed(channel, usize::MAX / 2 + 2).err(), Some(Error::OutOfBounds));
    assert!(board.feed(channel, 16).is_ok());
}

#[test]
fn len() {
    let board = Switchboard::new(MANY).unwrap();
    let [mut seat] = seats(&board);
    let channel = seat.channel::<u64>().unwrap();
    let port = seat.port(channel).unwrap();
    for number in [10, 20, 30, 40] {
        seat.multicast(channel, number).unwrap();
    }
    assert_eq!(board.owed(port), Ok(4));
    assert_eq!(seat.recv(port), Ok(Some(10)));
    seat.multicast(channel, 50).unwrap();
    seat.multicast(channel, 60).unwrap();
    assert_eq!(board.owed(port), Ok(5));
    assert_eq!(seat.recv(port), Ok(Some(20)));
}

#[test]
fn a_new_port_begins_at_the_tail() {
    let board = Switchboard::new(MANY).unwrap();
    let [mut seat] = seats(&board);
    let channel = seat.channel::<u64>().unwrap();
    let port = seat.port(channel).unwrap();
    seat.multicast(channel, 1).unwrap();
    let newer = seat.port(channel).unwrap();
    let copy = seat.copy(port).unwrap().unwrap();
    assert_eq!(seat.recv_poll(newer), Ok(None));
    assert_eq!(seat.recv(port), Ok(Some(1)));
    seat.multicast(channel, 2).unwrap();
    assert_eq!(seat.recv(newer), Ok(Some(2)));
    seat.multicast(channel, 3).unwrap();
    assert_eq!(seat.try_iter(port).collect::<Vec<_>>(), [2, 3]);
    assert_eq!(seat.try_iter(newer).collect::<Vec<_>>(), [3]);
    assert_eq!(seat.try_iter(copy).collect::<Vec<_>>(), [1, 2, 3]);
}

#[test]
fn a_new_port_after_the_sender_left() {
    let board = Switchboard::new(MANY).unwrap();
    let [mut sender, mut receiver] = seats(&board);
    let channel = sender.channel::<u64>().unwrap();
    sender.multicast(channel, 1).unwrap();
    drop(sender);
    let port = receiver.port(channel).unwrap();
    assert_eq!(receiver.recv_poll(port), Ok(None));
    assert_eq!(receiver.recv(port), Err(Error::Stalled));
}
