//! A token goes round this many threads: each receives it at its own mailbox, and sends it to the
//! next. All others wait.

use super::mailboxes::Mailboxes;
use super::together::{timed, Job};
use super::Way;
use seryugo::Switchboard;
use std::sync::mpsc;
use std::time::Duration;

#[must_use]
pub fn ways<const THREADS: usize>() -> [Way; 3] {
    [
        ("seats", by_seats::<THREADS>),
        ("by hand", by_hand::<THREADS>),
        ("mpsc", by_mpsc::<THREADS>),
    ]
}

/// The token says how many hops are left, and a hop gives what it said. Each thread ends as it sees
/// the token for the last time.
pub fn pass_on<const THREADS: usize>(mut hop: impl FnMut() -> u64) {
    while hop() >= THREADS as u64 {}
}

/// Sends on the token that says this, unless it was the last hop. Returns what it said.
pub fn sent_on(left: u64, send: impl FnOnce(u64)) -> u64 {
    if left > 0 {
        send(left - 1);
    }
    left
}

/// How many hops it makes: enough for each thread to receive it.
#[must_use]
pub fn hops<const THREADS: usize>(messages: u64) -> u64 {
    messages.max(THREADS as u64)
}

fn by_seats<const THREADS: usize>(messages: u64) -> Duration {
    let board = Switchboard::of_numbers(1 << 32).unwrap();
    let mut first = board.seat().unwrap();
    let mailboxes = &(0..THREADS).map(|_| first.mailbox().unwrap()).collect::<Vec<_>>();
    let mut jobs: Vec<Job> = Vec::new();
    for at in 0..THREADS {
        let mut seat = board.seat().unwrap();
        jobs.push(Box::new(move || {
            let next = mailboxes[(at + 1) % THREADS];
            pass_on::<THREADS>(|| {
                sent_on(seat.recv(mailboxes[at]).unwrap(), |left| seat.send(next, left).unwrap())
            });
        }));
    }
    first.send(mailboxes[0], hops::<THREADS>(messages)).unwrap();
    drop(first);
    timed(jobs)
}

fn by_hand<const THREADS: usize>(messages: u64) -> Duration {
    let mailboxes = &Mailboxes::new(THREADS, 1 << 32);
    let mut jobs: Vec<Job> = Vec::new();
    for at in 0..THREADS {
        jobs.push(Box::new(move || {
            let number = at as u64;
            pass_on::<THREADS>(|| {
                sent_on(mailboxes.recv(number, at).unwrap(), |left| {
                    mailboxes.send(number, (at + 1) % THREADS, left).unwrap();
                })
            });
        }));
    }
    mailboxes.send(0, 0, hops::<THREADS>(messages)).unwrap();
    timed(jobs)
}

fn by_mpsc<const THREADS: usize>(messages: u64) -> Duration {
    let (senders, receivers): (Vec<_>, Vec<_>) = (0..THREADS).map(|_| mpsc::channel()).unzip();
    let mut jobs: Vec<Job> = Vec::new();
    for (at, receiver) in receivers.into_iter().enumerate() {
        let next = senders[(at + 1) % THREADS].clone();
        jobs.push(Box::new(move || {
            pass_on::<THREADS>(|| {
                sent_on(receiver.recv().unwrap(), |left| next.send(left).unwrap())
            });
        }));
    }
    senders[0].send(hops::<THREADS>(messages)).unwrap();
    timed(jobs)
}
