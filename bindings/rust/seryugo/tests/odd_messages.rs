//! Messages of types that panic, or make calls, as they are written or read.

mod common;

use common::{block_on, without_a_hang};
use seryugo::{Mailbox, Message, Seat, Switchboard};
use std::cell::OnceCell;
use std::sync::Arc;
use std::thread;

/// Panics as it is read or written, if its number says so.
#[derive(Debug, PartialEq)]
struct Fragile(u8);

impl Message for Fragile {
    fn write_to(&self, bytes: &mut Vec<u8>) {
        assert!(self.0 != 1, "it can't be written");
        bytes.extend_from_slice(&[self.0; 40]);
    }

    fn from_bytes(bytes: &[u8]) -> Option<Fragile> {
        let &number = bytes.first()?;
        assert!(number != 2, "it can't be read");
        Some(Fragile(number))
    }
}

/// A message that panics is dropped. Its switchboard goes on.
#[test]
fn a_message_may_panic() {
    let board = Switchboard::new(100).unwrap();
    let mailbox = board.seat().unwrap().mailbox::<Fragile>().unwrap();
    let panics = |call: fn(&mut Seat<'_>, Mailbox<Fragile>)| {
        thread::scope(|scope| {
            scope.spawn(|| call(&mut board.seat().unwrap(), mailbox)).join().is_err()
        })
    };
    assert!(panics(|seat, mailbox| seat.send(mailbox, Fragile(1)).unwrap()));
    assert!(!panics(|seat, mailbox| seat.send(mailbox, Fragile(2)).unwrap()));
    assert!(!panics(|seat, mailbox| seat.send(mailbox, Fragile(3)).unwrap()));
    assert!(panics(|seat, mailbox| drop(seat.recv(mailbox))));
    assert_eq!(board.seat().unwrap().recv(mailbox), Ok(Fragile(3)));
}

thread_local! {
    /// The switchboard that the next test's messages use.
    static BOARD: OnceCell<Arc<Switchboard>> = const { OnceCell::new() };
}

/// Makes a call as it is written, and as it is read.
#[derive(Debug, PartialEq)]
struct Calls;

impl Message for Calls {
    fn write_to(&self, bytes: &mut Vec<u8>) {
        BOARD.with(|board| board.get().unwrap().entries()).write_to(bytes);
    }

    fn from_bytes(bytes: &[u8]) -> Option<Calls> {
        let entries = BOARD.with(|board| board.get().unwrap().entries());
        (u64::from_bytes(bytes)? < entries).then_some(Calls)
    }
}

/// No lock is held while a value is turned into bytes or back.
#[test]
fn a_message_may_make_calls() {
    without_a_hang(|| {
        let board = Arc::new(Switchboard::new(100).unwrap());
        BOARD.with(|shared| {
            shared.set(Arc::clone(&board)).unwrap_or_else(|_| panic!("it is set once"));
        });
        let mut seat = board.seat().unwrap();
        let mailbox = seat.mailbox().unwrap();
        seat.send(mailbox, Calls).unwrap();
        assert_eq!(seat.recv(mailbox), Ok(Calls));
        let variable = seat.mvar_init(Calls).unwrap();
        assert_eq!(
            (seat.swap(variable, Calls), board.held(variable)),
            (Ok(Calls), Ok(Some(Calls)))
        );
        assert_eq!(block_on(seat.swap_async(variable, Calls)), Ok(Calls));
        let mut lane = board.lane(mailbox, 1).unwrap();
        assert!(lane.send(Calls).is_ok() && lane.close().is_ok());
    });
}
