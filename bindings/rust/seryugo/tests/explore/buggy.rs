//! Programs with a bug.

use crate::programs::{seat, Board};
use seryugo::explore;
use std::sync::atomic::{AtomicBool, Ordering::SeqCst};

/// Each takes both locks, in its own order.
pub fn two_locks(board: &Board) {
    let mut main = seat(board);
    let locks = [main.mvar_init(0).unwrap(), main.mvar_init(0).unwrap()];
    explore::scope(|threads| {
        for (first, second) in [(locks[0], locks[1]), (locks[1], locks[0])] {
            let mut seat = seat(board);
            threads.spawn(move || {
                for _ in 0..3 {
                    seat.take(first).unwrap();
                    seat.take(second).unwrap();
                    seat.put(second, 0).unwrap();
                    seat.put(first, 0).unwrap();
                }
            });
        }
    });
}

/// Each adds to what it has read, whatever was written meanwhile.
pub fn lost_update(board: &Board) {
    let mut main = seat(board);
    let account = main.mvar_init(100).unwrap();
    explore::scope(|threads| {
        for sum in [10, 20, 30] {
            let mut seat = seat(board);
            threads.spawn(move || {
                let held = seat.get(account).unwrap();
                seat.swap(account, held + sum).unwrap();
            });
        }
    });
    assert_eq!(main.take(account), Ok(160), "an update is lost");
}

/// Both see the job, and one takes it.
pub fn double_take(board: &Board) {
    let job = seat(board).mvar_init(7).unwrap();
    explore::scope(|threads| {
        for _ in 0..2 {
            let mut seat = seat(board);
            threads.spawn(move || {
                if seat.get_poll(job).unwrap().is_some() {
                    seat.take(job).unwrap();
                }
            });
        }
    });
}

/// The port is made after the other one may have sent.
pub fn late_port(board: &Board) {
    let mut main = seat(board);
    let (channel, ready) = (main.channel().unwrap(), main.mailbox().unwrap());
    let (mut one, mut other) = (seat(board), seat(board));
    explore::scope(|threads| {
        threads.spawn(move || {
            one.send(ready, 1).unwrap();
            let port = one.port(channel).unwrap();
            assert_eq!(one.recv(port), Ok(Some(0)), "the first message is missed");
        });
        threads.spawn(move || {
            other.recv(ready).unwrap();
            (0..3).for_each(|message| other.multicast(channel, message).unwrap());
        });
    });
}

/// The port may be closed before the message.
pub fn closed_port(board: &Board) {
    let mut main = seat(board);
    let channel = main.channel().unwrap();
    let port = main.port(channel).unwrap();
    let (mut sends, mut closes) = (seat(board), seat(board));
    explore::scope(|threads| {
        threads.spawn(move || sends.multicast(channel, 5).unwrap());
        threads.spawn(move || closes.close(port).unwrap());
        assert_eq!(main.recv(port), Ok(Some(5)), "the message came too late");
    });
}

/// The receiver waits for one more message than there are.
pub fn no_end(board: &Board) {
    let letters = seat(board).mailbox().unwrap();
    explore::scope(|threads| {
        let (mut sends, mut receives) = (seat(board), seat(board));
        threads.spawn(move || (0..3).for_each(|letter| sends.send(letters, letter).unwrap()));
        threads.spawn(move || while receives.recv(letters).unwrap() < 3 {});
    });
}

/// The one that waits says so only after it has looked.
pub fn flag(board: &Board, aside: impl Fn() + Sync) {
    let mut main = seat(board);
    let (wakes, one, other) =
        (main.mailbox().unwrap(), main.mailbox().unwrap(), main.mailbox().unwrap());
    let (is_full, waits) = (AtomicBool::new(false), AtomicBool::new(false));
    let (mut taker, mut giver) = (seat(board), seat(board));
    explore::scope(|threads| {
        threads.spawn(|| {
            taker.send(one, 1).unwrap();
            aside();
            let looked = is_full.load(SeqCst);
            aside();
            if !looked {
                waits.store(true, SeqCst);
                taker.recv(wakes).unwrap();
            }
        });
        threads.spawn(|| {
            giver.send(other, 1).unwrap();
            aside();
            is_full.store(true, SeqCst);
            if waits.load(SeqCst) {
                giver.send(wakes, 1).unwrap();
            }
        });
    });
}

/// Whether the other one sends depends on a flag, and the two use no object together before.
pub fn lost_wake(board: &Board) {
    let mut main = seat(board);
    let (wakes, one, other) =
        (main.mailbox().unwrap(), main.mailbox().unwrap(), main.mailbox().unwrap());
    let waits = AtomicBool::new(false);
    let (mut taker, mut giver) = (seat(board), seat(board));
    explore::scope(|threads| {
        threads.spawn(|| {
            taker.send(one, 1).unwrap();
            waits.store(true, SeqCst);
            taker.recv(wakes).unwrap();
        });
        threads.spawn(|| {
            giver.send(other, 1).unwrap();
            if waits.load(SeqCst) {
                giver.send(wakes, 1).unwrap();
            }
        });
    });
}
