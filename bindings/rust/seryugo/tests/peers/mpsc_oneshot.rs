//! Channels of std's `mpsc` that take one message, on an i-variable.

use crate::common::without_a_hang;
use crate::{ms, seats, MANY};
use seryugo::{Error, Switchboard};
use std::thread;

#[test]
fn no_message() {
    let board = Switchboard::new(MANY).unwrap();
    let [sender, mut receiver] = seats(&board);
    let variable = receiver.ivar::<i32>().unwrap();
    drop(sender);
    drop(receiver);
    assert_eq!(board.held(variable), Ok(None));
}

#[test]
fn put_after_the_reader_left() {
    let board = Switchboard::new(MANY).unwrap();
    let [mut sender, receiver] = seats(&board);
    let variable = sender.ivar::<i32>().unwrap();
    drop(receiver);
    assert!(sender.put(variable, 10).unwrap());
    assert_eq!(board.held(variable), Ok(Some(10)));
}

#[test]
fn get_after_the_writer_left() {
    let board = Switchboard::new(MANY).unwrap();
    let [sender, mut receiver] = seats(&board);
    let variable = receiver.ivar::<i32>().unwrap();
    drop(sender);
    assert_eq!(receiver.get_poll(variable), Ok(None));
    assert_eq!(receiver.get(variable), Err(Error::Stalled));
}

#[test]
fn send_then_recv() {
    let board = Switchboard::new(MANY).unwrap();
    let [mut sender, mut receiver] = seats(&board);
    let variable = sender.ivar::<Box<str>>().unwrap();
    assert!(sender.put(variable, <Box<str>>::from("10")).unwrap());
    assert_eq!(receiver.get(variable).as_deref(), Ok("10"));
    assert!(!sender.put(variable, <Box<str>>::from("11")).unwrap());
}

#[test]
fn peek() {
    let board = Switchboard::new(MANY).unwrap();
    let [mut sender, mut receiver] = seats(&board);
    let variable = sender.ivar::<i32>().unwrap();
    assert_eq!(receiver.get_poll(variable), Ok(None));
    assert!(sender.put(variable, 10).unwrap());
    assert_eq!(receiver.get_poll(variable), Ok(Some(10)));
}

#[test]
fn multi_task_recv_then_send() {
    without_a_hang(|| {
        let board = Switchboard::new(MANY).unwrap();
        let [mut sender, mut receiver] = seats(&board);
        let variable = sender.ivar::<i32>().unwrap();
        thread::scope(|scope| {
            scope.spawn(move || assert_eq!(receiver.get(variable), Ok(10)));
            assert!(sender.put(variable, 10).unwrap());
        });
    });
}

#[test]
fn multi_task_recv_then_close() {
    without_a_hang(|| {
        for _ in 0..100 {
            let board = Switchboard::new(MANY).unwrap();
            let [sender, mut receiver] = seats(&board);
            let variable = receiver.ivar::<i32>().unwrap();
            thread::scope(|scope| {
                scope.spawn(move || drop(sender));
                scope.spawn(move || assert_eq!(receiver.get(variable), Err(Error::Stalled)));
            });
        }
    });
}

#[test]
fn multi_thread_close() {
    without_a_hang(|| {
        for _ in 0..100 {
            let board = Switchboard::new(MANY).unwrap();
            let [mut sender, receiver, last] = seats(&board);
            let variable = sender.ivar::<i32>().unwrap();
            thread::scope(|scope| {
                scope.spawn(move || drop(receiver));
                scope.spawn(move || drop(last));
                scope.spawn(move || assert!(sender.put(variable, 1).unwrap()));
            });
            assert_eq!(board.held(variable), Ok(Some(1)));
        }
    });
}

#[test]
fn multi_thread_send_recv_stress() {
    without_a_hang(|| {
        for message in 0..100 {
            let board = Switchboard::new(MANY).unwrap();
            let [mut sender, mut receiver] = seats(&board);
            let variable = sender.ivar::<i32>().unwrap();
            thread::scope(|scope| {
                scope.spawn(move || assert!(sender.put(variable, message).unwrap()));
                assert_eq!(receiver.get(variable), Ok(message));
            });
        }
    });
}

#[test]
fn stream_send_recv_stress() {
    without_a_hang(|| {
        let board = Switchboard::new(MANY).unwrap();
        let [mut maker] = seats(&board);
        let mailbox = maker.mailbox::<i32>().unwrap();
        for message in 0..100 {
            // A seat goes to another thread for each message.
            let [mut sender, mut receiver] = seats(&board);
            thread::scope(|scope| {
                scope.spawn(move || sender.send(mailbox, message).unwrap());
                scope.spawn(move || assert_eq!(receiver.recv(mailbox), Ok(message)));
            });
        }
        assert_eq!(board.got(mailbox), Ok(100));
    });
}

#[test]
fn single_thread_recv_timeout() {
    let board = Switchboard::new(MANY).unwrap();
    let [mut sender, mut receiver] = seats(&board);
    let variable = sender.mvar::<()>().unwrap();
    assert!(sender.put(variable, ()).unwrap());
    assert_eq!(receiver.take_timeout(variable, ms(1)), Ok(()));
    assert_eq!(receiver.take_timeout(variable, ms(1)), Err(Error::TimedOut));
    assert!(sender.put(variable, ()).unwrap());
    assert_eq!(receiver.take_timeout(variable, ms(1)), Ok(()));
}
