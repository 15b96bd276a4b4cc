//! Iterators of crossbeam-channel, over a mailbox.

use crate::common::without_a_hang;
use crate::{seats, MANY};
use seryugo::{Error, Switchboard};
use std::thread;

#[test]
fn nested_recv_iter() {
    without_a_hang(|| {
        let board = Switchboard::new(MANY).unwrap();
        let [mut sender, mut receiver] = seats(&board);
        let numbers = sender.mailbox::<i32>().unwrap();
        let totals = sender.mailbox::<i32>().unwrap();
        thread::scope(|scope| {
            scope.spawn(move || {
                let total: i32 = receiver.iter(numbers).sum();
                receiver.send(totals, total).unwrap();
            });
            for number in [3, 1, 2] {
                sender.send(numbers, number).unwrap();
            }
            drop(sender);
        });
        assert_eq!(board.seat().unwrap().recv(totals), Ok(6));
    });
}

#[test]
fn recv_iter_break() {
    without_a_hang(|| {
        let board = Switchboard::new(MANY).unwrap();
        let [mut sender, mut receiver] = seats(&board);
        let numbers = sender.mailbox::<i32>().unwrap();
        let counts = sender.mailbox::<i32>().unwrap();
        thread::scope(|scope| {
            scope.spawn(move || {
                let mut count = 0;
                for number in receiver.iter(numbers) {
                    if count >= 3 {
                        break;
                    }
                    count += number;
                }
                receiver.send(counts, count).unwrap();
            });
            for _ in 0..4 {
                sender.send(numbers, 2).unwrap();
            }
            assert_eq!(sender.recv(counts), Ok(4));
            assert_eq!(board.owed(numbers), Ok(1));
        });
    });
}

#[test]
fn recv_try_iter() {
    without_a_hang(|| {
        let board = Switchboard::new(u64::from(u32::MAX)).unwrap();
        let [mut server, mut client] = seats(&board);
        let requests = server.mailbox::<()>().unwrap();
        let responses = server.mailbox::<usize>().unwrap();
        thread::scope(|scope| {
            let counted = scope.spawn(move || {
                let mut count = 0;
                while count < 6 {
                    client.send(requests, ()).unwrap();
                    let wanted = (6 - count) / 2;
                    count += client.try_iter(responses).take(wanted).sum::<usize>();
                }
                count
            });
            while let Ok(()) = server.recv(requests) {
                server.send(responses, 2).unwrap();
            }
            assert_eq!(counted.join().unwrap(), 6);
        });
    });
}

#[test]
fn recv_into_iter() {
    let board = Switchboard::new(MANY).unwrap();
    let [mut sender, mut receiver] = seats(&board);
    let mailbox = sender.mailbox::<i32>().unwrap();
    sender.send(mailbox, 1).unwrap();
    sender.send(mailbox, 2).unwrap();
    drop(sender);
    let mut messages = receiver.iter(mailbox);
    assert_eq!((messages.next(), messages.next(), messages.next()), (Some(1), Some(2), None));
    assert_eq!(messages.error(), Some(Error::Stalled));
}
