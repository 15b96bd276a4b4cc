//! Orders go from thread to thread, and outlive their process in a journal.

use serde::{Deserialize, Serialize};
use seryugo::{Checker, Error, Object, Switchboard};
use seryugo_serde::serde_message;
use std::thread;

#[derive(Clone, Debug, PartialEq, Serialize, Deserialize)]
enum Order {
    Buy { item: String, count: u64 },
    Cancel(u64),
}

serde_message!(Order);

fn order(number: u64) -> Order {
    match number % 3 {
        0 => Order::Cancel(number),
        _ => Order::Buy {
            item: format!("item {number}"),
            count: number,
        },
    }
}

#[test]
fn between_threads() {
    let board = Switchboard::new(10_000).unwrap();
    let (mut ann, mut ben) = (board.seat().unwrap(), board.seat().unwrap());
    let orders = ben.mailbox::<Order>().unwrap();
    thread::scope(|scope| {
        scope.spawn(move || (0..1_000).for_each(|number| ann.send(orders, order(number)).unwrap()));
        let mut received = ben.iter(orders);
        assert!(received.by_ref().eq((0..1_000).map(order)));
        assert_eq!(received.error(), Some(Error::Stalled));
    });
}

#[test]
fn a_journal_is_kept_and_restored() {
    let mut text = Vec::new();
    let (orders, number) = {
        let board = Switchboard::new(1_000).unwrap();
        let mut seat = board.seat().unwrap();
        let orders = seat.mailbox::<Order>().unwrap();
        (0..10).for_each(|number| seat.send(orders, order(number)).unwrap());
        board.take_journal().unwrap().write_to(&mut text).unwrap();
        for number in 0..4 {
            assert_eq!(seat.recv(orders), Ok(order(number)));
        }
        let last = seat.mvar_init(order(99)).unwrap();
        drop(seat);
        board.take_journal().unwrap().write_to(&mut text).unwrap();
        (orders.number(), last.number())
    };
    let mut checker = Checker::new().unwrap();
    checker.read(&text[..]).unwrap();
    assert!(checker.is_whole());

    let board: Switchboard = Switchboard::restore(&text[..], 1_000).unwrap();
    let mut seat = board.seat().unwrap();
    let orders = board.mailbox::<Order>(orders).unwrap();
    assert!(seat.try_iter(orders).eq((4..10).map(order)));
    assert_eq!(board.held(board.mvar::<Order>(number).unwrap()), Ok(Some(order(99))));
}
