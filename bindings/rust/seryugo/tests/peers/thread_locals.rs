//! Calls while a thread ends.

use crate::{ms, MANY};
use seryugo::{Error, Switchboard};
use std::sync::OnceLock;
use std::thread;

static BOARD: OnceLock<Switchboard> = OnceLock::new();
static ANSWER: OnceLock<Error> = OnceLock::new();

/// Waits on a mailbox when it is dropped.
struct WaitsAtTheEnd;

impl Drop for WaitsAtTheEnd {
    fn drop(&mut self) {
        let board = BOARD.get().unwrap();
        let (_free, mut seat) = (board.seat().unwrap(), board.seat().unwrap());
        let mailbox = seat.mailbox::<()>().unwrap();
        ANSWER.set(seat.recv_timeout(mailbox, ms(10)).unwrap_err()).unwrap();
    }
}

thread_local! {
    static AT_THE_END: WaitsAtTheEnd = const { WaitsAtTheEnd };
}

#[test]
fn use_while_exiting() {
    let board = BOARD.get_or_init(|| Switchboard::new(MANY).unwrap());
    let (mut sender, mut receiver) = (board.seat().unwrap(), board.seat().unwrap());
    let mailbox = sender.mailbox::<()>().unwrap();
    let ending = thread::spawn(move || {
        AT_THE_END.with(|_| ());
        receiver.recv(mailbox)
    });
    sender.send(mailbox, ()).unwrap();
    assert_eq!(ending.join().unwrap(), Ok(()));
    assert_eq!(ANSWER.get(), Some(&Error::TimedOut));
}
