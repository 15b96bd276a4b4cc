//! Iterators and states of std's `mpsc`, on mailboxes. `iter.rs` has what crossbeam-channel tries
//! of iterators.

use crate::common::{let_them_wait, without_a_hang};
use crate::{seats, MANY};
use seryugo::{Error, Switchboard};
use std::thread;

#[test]
fn try_recv_states() {
    without_a_hang(|| {
        let board = Switchboard::new(MANY).unwrap();
        let [mut sender, mut receiver] = seats(&board);
        let numbers = sender.mailbox::<i32>().unwrap();
        let (turns, done) = (sender.mailbox::<()>().unwrap(), sender.mailbox::<()>().unwrap());
        thread::scope(|scope| {
            scope.spawn(move || {
                sender.recv(turns).unwrap();
                sender.send(numbers, 1).unwrap();
                sender.send(done, ()).unwrap();
            });
            assert_eq!(receiver.recv_poll(numbers), Ok(None));
            receiver.send(turns, ()).unwrap();
            receiver.recv(done).unwrap();
            assert_eq!(receiver.recv_poll(numbers), Ok(Some(1)));
            assert_eq!(receiver.recv_poll(numbers), Ok(None));
        });
        assert_eq!(receiver.recv_poll(numbers), Ok(None));
        assert_eq!(receiver.recv(numbers), Err(Error::Stalled));
    });
}

#[test]
fn a_receiver_leaves_while_a_sender_stays() {
    without_a_hang(|| {
        let board = Switchboard::new(MANY).unwrap();
        let [mut one, other, mut receiver] = seats(&board);
        let (begun, ended) = (one.mailbox::<()>().unwrap(), one.mailbox::<()>().unwrap());
        thread::scope(|scope| {
            scope.spawn(move || {
                receiver.recv(begun).unwrap();
                receiver.send(ended, ()).unwrap();
            });
            let_them_wait();
            drop(other);
            one.send(begun, ()).unwrap();
            assert_eq!(one.recv(ended), Ok(()));
            assert_eq!(one.recv(ended), Err(Error::Stalled));
        });
    });
}

#[test]
fn send_before_and_after_the_receiver_leaves() {
    let board = Switchboard::new(MANY).unwrap();
    let [mut sender, receiver] = seats(&board);
    let mailbox = sender.mailbox::<i32>().unwrap();
    sender.send(mailbox, 123).unwrap();
    drop(receiver);
    sender.send(mailbox, 123).unwrap();
    assert_eq!(board.owed(mailbox), Ok(2));
}

#[test]
fn a_send_doesnt_wait_for_the_receiver() {
    without_a_hang(|| {
        for _ in 0..100 {
            let board = Switchboard::new(MANY).unwrap();
            let [mut one, mut other] = seats(&board);
            let (there, back) = (one.mailbox::<()>().unwrap(), one.mailbox::<()>().unwrap());
            thread::scope(|scope| {
                scope.spawn(move || {
                    other.recv(there).unwrap();
                    other.send(back, ()).unwrap();
                });
                one.send(there, ()).unwrap();
                assert_eq!(one.recv(back), Ok(()));
            });
        }
    });
}
