//! What is sent in place of a message: it is received as the message.

mod common;

use common::block_on;
use seryugo::{Error, Kind, Mailbox, Message, Missing, Object, SentAs, Switchboard};
use std::borrow::Cow;
use std::collections::{BTreeMap, HashMap};
use std::fmt::Debug;
use std::rc::Rc;
use std::sync::Arc;

/// This is sent as that message by each call that sends. It is handed back if it isn't sent.
fn arrives<T, M>(sent: M, message: &T)
where
    T: Message + PartialEq + Debug,
    M: SentAs<T> + Clone + PartialEq + Debug,
{
    let board = Switchboard::new(100).unwrap();
    let mut seat = board.seat().unwrap();
    let (mailbox, channel) = (seat.mailbox::<T>().unwrap(), seat.channel::<T>().unwrap());
    let (port, variable) = (seat.port(channel).unwrap(), seat.mvar::<T>().unwrap());
    seat.send(mailbox, sent.clone()).unwrap();
    assert_eq!(seat.recv(mailbox).as_ref(), Ok(message));
    seat.multicast(channel, sent.clone()).unwrap();
    assert_eq!(seat.recv(port).unwrap().as_ref(), Some(message));
    assert_eq!(seat.put(variable, sent.clone()), Ok(true));
    assert_eq!(seat.swap(variable, sent.clone()).as_ref(), Ok(message));
    assert_eq!(block_on(seat.swap_async(variable, sent.clone())).as_ref(), Ok(message));
    assert_eq!(seat.take(variable).as_ref(), Ok(message));
    let mut lane = board.lane(mailbox, 1).unwrap();
    lane.send(sent.clone()).unwrap();
    let refused = lane.send(sent.clone()).unwrap_err();
    assert_eq!((&refused.message, refused.error), (&sent, Error::Full));
    lane.close().unwrap();
    assert_eq!(seat.recv(mailbox).as_ref(), Ok(message));
    let elsewhere = Switchboard::new(1).unwrap();
    let refused = elsewhere.seat().unwrap().send(mailbox, sent.clone()).unwrap_err();
    let missing = Missing::Elsewhere(Kind::Mailbox, mailbox.number());
    assert_eq!((refused.message, refused.error), (sent, Error::NoSuch(missing)));
}

#[test]
fn a_message_by_any_owner() {
    let order = ("apple".to_string(), 3_u8);
    arrives(order.clone(), &order);
    arrives(&order, &order);
    arrives(Box::new(order.clone()), &order);
    arrives(Rc::new(order.clone()), &order);
    arrives(Arc::new(order.clone()), &order);
    let board = Switchboard::of_numbers(10).unwrap();
    let mut seat = board.seat().unwrap();
    let mailbox = seat.mailbox().unwrap();
    let mut number = 5;
    seat.send(mailbox, &mut number).unwrap();
    seat.send(mailbox, &number).unwrap();
    seat.send(mailbox, Arc::new(number)).unwrap();
    assert_eq!(seat.try_iter(mailbox).collect::<Vec<_>>(), [5; 3]);
}

#[test]
fn texts() {
    // Up to 78 bytes lie in the library's struct.
    for text in ["", "fünf", &"x".repeat(78), &"y".repeat(200)] {
        arrives(text, &text.to_string());
        arrives(Cow::Borrowed(text), &text.to_string());
        arrives(text, &Box::<str>::from(text));
        arrives(text, &Arc::<str>::from(text));
    }
}

#[test]
fn bytes() {
    arrives(b"five", &b"five".to_vec());
    arrives(&[1_u8, 2][..], &vec![1, 2]);
    arrives(&[0; 100], &Box::<[u8]>::from([0; 100]));
    arrives(&[0_u8; 0][..], &Box::<[u8]>::default());
}

#[test]
fn lists_and_maps() {
    arrives(vec![1_u32, 2, 3], &vec![1, 2, 3]);
    let pairs = vec![(1_u8, "a".to_string())];
    arrives(&pairs, &pairs);
    let ages = BTreeMap::from([("Ann".to_string(), 41_u8), ("Ben".to_string(), 12)]);
    arrives(ages.clone(), &ages);
    let ages: HashMap<_, _> = ages.into_iter().collect();
    arrives(&ages, &ages);
}

/// What is sent needs no type beside it.
#[test]
fn no_type_is_written() {
    let board = Switchboard::new(100).unwrap();
    let mut seat = board.seat().unwrap();
    let numbers: Mailbox<u8> = seat.mailbox().unwrap();
    let texts: Mailbox<Option<String>> = seat.mailbox().unwrap();
    let lists: Mailbox<Vec<i64>> = seat.mailbox().unwrap();
    seat.send(numbers, 5).unwrap();
    seat.send(texts, None).unwrap();
    seat.send(lists, vec![]).unwrap();
    seat.send(lists, (1..4).collect::<Vec<_>>()).unwrap();
    assert_eq!((seat.recv(numbers), seat.recv(texts)), (Ok(5), Ok(None)));
    assert_eq!((seat.recv(lists), seat.recv(lists)), (Ok(vec![]), Ok(vec![1, 2, 3])));
}
