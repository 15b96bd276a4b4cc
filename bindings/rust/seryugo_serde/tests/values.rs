//! What serde takes goes through a switchboard, and comes back the same.

use serde::de::DeserializeOwned;
use serde::{Deserialize, Serialize};
use seryugo::{Error, Message, Object, Switchboard};
use seryugo_serde::{serde_message, Serde};
use std::collections::{BTreeMap, HashMap};
use std::fmt::Debug;
use std::net::IpAddr;
use std::time::Duration;

#[derive(Clone, Debug, PartialEq, Serialize, Deserialize)]
struct Order {
    item: String,
    count: u32,
    notes: Option<Vec<String>>,
}

#[derive(Clone, Debug, PartialEq, Serialize, Deserialize)]
enum Event {
    Opened,
    Placed(Order, u64),
    Moved { from: (i32, i32), to: (i32, i32) },
    Several(Vec<Event>),
}

#[derive(Clone, Copy, Debug, PartialEq, Serialize, Deserialize)]
struct Nothing;

serde_message!(Order, Event, Nothing);

fn order(count: u32) -> Order {
    Order {
        item: String::from("äpfel"),
        count,
        notes: Some(vec![String::new(), String::from("ripe")]),
    }
}

/// Sends a value, receives it, and compares.
fn there_and_back<T: Message + PartialEq + Debug>(value: T) {
    let board = Switchboard::new(100).unwrap();
    let mut seat = board.seat().unwrap();
    let mailbox = seat.mailbox::<T>().unwrap();
    seat.send(mailbox, &value).unwrap();
    assert_eq!(seat.recv(mailbox), Ok(value));
}

/// The same of a type of another crate.
fn wrapped<T: Serialize + DeserializeOwned + PartialEq + Debug>(value: T) {
    there_and_back(Serde(value));
}

#[test]
fn structs() {
    there_and_back(order(3));
    there_and_back(order(u32::MAX));
    there_and_back(Order {
        item: String::new(),
        count: 0,
        notes: None,
    });
    there_and_back(Nothing);
}

#[test]
fn enums() {
    there_and_back(Event::Opened);
    there_and_back(Event::Placed(order(1), u64::MAX));
    there_and_back(Event::Moved {
        from: (-1, i32::MIN),
        to: (1, i32::MAX),
    });
}

#[test]
fn nested() {
    let inner = Event::Several(vec![Event::Opened, Event::Placed(order(2), 0)]);
    there_and_back(Event::Several(vec![inner.clone(), inner, Event::Several(Vec::new())]));
}

#[test]
fn types_of_other_crates() {
    wrapped(vec![order(1), order(2)]);
    wrapped(Vec::<Event>::new());
    wrapped(HashMap::from([(String::from("apple"), order(5)), (String::new(), order(0))]));
    wrapped(BTreeMap::from([(1, vec![(1.5, 'ß')]), (-1, Vec::new())]));
    wrapped((Some(Some(order(7))), None::<Order>, Ok::<u8, String>(5)));
    wrapped(Duration::from_nanos(u64::MAX));
    wrapped("::1".parse::<IpAddr>().unwrap());
    wrapped([0_u128, u128::MAX]);
}

#[test]
fn parts_of_tuples_and_options() {
    there_and_back((5_u64, order(5), Event::Opened));
    there_and_back(Some(order(6)));
    there_and_back(None::<Order>);
    there_and_back((Nothing, Serde(vec![1, 2]), String::from("end")));
}

#[test]
fn a_million_bytes() {
    let bytes: Vec<u8> = (0..1_000_000_u32).map(|number| (number % 251) as u8).collect();
    wrapped(bytes);
    there_and_back(Order {
        item: "ü".repeat(500_000),
        count: 1,
        notes: None,
    });
}

#[test]
fn every_object() {
    let board = Switchboard::new(100).unwrap();
    let mut seat = board.seat().unwrap();
    let channel = seat.channel::<Event>().unwrap();
    let port = seat.port(channel).unwrap();
    seat.multicast(channel, Event::Placed(order(1), 1)).unwrap();
    assert_eq!(seat.recv(port), Ok(Some(Event::Placed(order(1), 1))));
    let (once, often) = (seat.ivar::<Order>().unwrap(), seat.mvar_init(order(2)).unwrap());
    assert!(seat.put(once, order(3)).unwrap());
    assert_eq!(seat.get(once), Ok(order(3)));
    assert_eq!(seat.swap(often, order(4)).unwrap(), order(2));
    assert_eq!(board.held(often), Ok(Some(order(4))));
    assert_eq!(seat.take(often), Ok(order(4)));
}

#[test]
fn another_type_is_unreadable() {
    let board = Switchboard::new(100).unwrap();
    let mut seat = board.seat().unwrap();
    let orders = seat.mailbox::<Order>().unwrap();
    seat.send(orders, order(5)).unwrap();
    seat.send(orders, order(6)).unwrap();
    let numbers = board.mailbox::<Serde<u64>>(orders.number()).unwrap();
    let Err(Error::Unreadable { bytes, .. }) = seat.recv(numbers) else {
        panic!("an order is no number");
    };
    assert_eq!(Order::from_bytes(&bytes), Some(order(5)));
    assert_eq!(seat.recv(orders), Ok(order(6)));
}

#[test]
fn bad_bytes_are_none() {
    let mut good = Vec::new();
    order(5).write_to(&mut good);
    assert_eq!(Order::from_bytes(&good), Some(order(5)));
    for length in 0..good.len() {
        assert_eq!(Order::from_bytes(&good[..length]), None);
    }
    let mut longer = good.clone();
    longer.push(0);
    assert_eq!(Order::from_bytes(&longer), None);
    good[0] = 2;
    assert_eq!(Order::from_bytes(&good), None);
    assert_eq!(Serde::<Vec<u64>>::from_bytes(&[&[1, 253][..], &[255; 8]].concat()), None);
    assert_eq!(Serde::<String>::from_bytes(&[1, 1, 255]), None);
}
