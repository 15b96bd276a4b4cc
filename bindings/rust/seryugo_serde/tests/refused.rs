//! A value that serde refuses is sent as a message that says so.

use serde::ser::Error as _;
use serde::{Deserialize, Deserializer, Serialize, Serializer};
use seryugo::{Error, Object, Switchboard};
use seryugo_serde::{check, refusal, serde_message, Serde};
use std::ffi::OsString;
use std::os::unix::ffi::OsStringExt;
use std::path::PathBuf;

/// A number that is written only if it is even.
#[derive(Debug, PartialEq)]
struct Even(u32);

impl Serialize for Even {
    fn serialize<S: Serializer>(&self, serializer: S) -> Result<S::Ok, S::Error> {
        match self.0 % 2 {
            0 => serializer.serialize_u32(self.0),
            _ => Err(S::Error::custom("the number is odd")),
        }
    }
}

impl<'de> Deserialize<'de> for Even {
    fn deserialize<D: Deserializer<'de>>(deserializer: D) -> Result<Even, D::Error> {
        u32::deserialize(deserializer).map(Even)
    }
}

/// The odd number is refused after bytes that were written before.
#[derive(Debug, PartialEq, Serialize, Deserialize)]
struct Pair {
    name: String,
    number: Even,
}

serde_message!(Even, Pair);

fn pair(number: u32) -> Pair {
    Pair {
        name: String::from("number"),
        number: Even(number),
    }
}

#[test]
fn the_receiver_reads_why() {
    let board = Switchboard::new(100).unwrap();
    let mut seat = board.seat().unwrap();
    let mailbox = seat.mailbox::<Pair>().unwrap();
    for number in [2, 3, 4] {
        seat.send(mailbox, pair(number)).unwrap();
    }
    assert_eq!(seat.recv(mailbox), Ok(pair(2)));
    let Err(Error::Unreadable { bytes, .. }) = seat.recv(mailbox) else {
        panic!("an odd number isn't written");
    };
    let refused = refusal(&bytes).unwrap();
    assert_eq!(refused.to_string(), "serde refuses this message: the number is odd");
    assert_eq!(seat.recv(mailbox), Ok(pair(4)));
}

#[test]
fn a_part_of_a_tuple() {
    let board = Switchboard::new(100).unwrap();
    let mut seat = board.seat().unwrap();
    let mailbox = seat.mailbox::<(u8, Even, String)>().unwrap();
    seat.send(mailbox, (1, Even(3), String::from("rest"))).unwrap();
    seat.send(mailbox, (1, Even(4), String::from("rest"))).unwrap();
    assert!(matches!(seat.recv(mailbox), Err(Error::Unreadable { .. })));
    assert_eq!(seat.recv(mailbox), Ok((1, Even(4), String::from("rest"))));
}

#[test]
fn check_says_it_before() {
    assert_eq!(check(&pair(2)), Ok(()));
    let refused = check(&pair(3)).unwrap_err();
    assert_eq!(refused.to_string(), "serde refuses this message: the number is odd");
    let path = PathBuf::from(OsString::from_vec(vec![b'/', 255]));
    assert!(check(&path).is_err());
}

#[test]
fn a_good_message_has_no_refusal() {
    let board = Switchboard::new(100).unwrap();
    let mut seat = board.seat().unwrap();
    let mailbox = seat.mailbox::<Serde<String>>().unwrap();
    seat.send(mailbox, Serde(String::from("apple"))).unwrap();
    let numbers = board.mailbox::<u64>(mailbox.number()).unwrap();
    let Err(Error::Unreadable { bytes, .. }) = seat.recv(numbers) else {
        panic!("seven bytes are no number");
    };
    assert_eq!((refusal(&bytes), refusal(&[])), (None, None));
}
