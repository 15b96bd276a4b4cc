//! Eight threads serve requests that arrive in one mailbox. This many clients ask, and each waits at
//! its mailbox for the answer before it asks again.

use super::mailboxes::Mailboxes;
use super::together::{timed, Job};
use super::Way;
use seryugo::{Error, Switchboard};
use std::sync::atomic::{AtomicUsize, Ordering};
use std::sync::{mpsc, Mutex};
use std::time::Duration;

#[must_use]
pub fn ways<const CLIENTS: usize>() -> [Way; 3] {
    [
        ("seats", by_seats::<CLIENTS>),
        ("by hand", by_hand::<CLIENTS>),
        ("mpsc", by_mpsc::<CLIENTS>),
    ]
}

pub const WORKERS: usize = 8;

/// How often each client asks.
#[must_use]
pub fn each<const CLIENTS: usize>(messages: u64) -> u64 {
    messages.div_ceil(CLIENTS as u64)
}

/// A request is its client's number, and so is the answer. As the last client has left, each worker
/// is refused.
fn by_seats<const CLIENTS: usize>(messages: u64) -> Duration {
    let board = Switchboard::of_numbers(1 << 32).unwrap();
    let mut first = board.seat().unwrap();
    let requests = first.mailbox().unwrap();
    let answers = &(0..CLIENTS).map(|_| first.mailbox().unwrap()).collect::<Vec<_>>();
    drop(first);
    let mut jobs: Vec<Job> = Vec::new();
    for _ in 0..WORKERS {
        let mut seat = board.seat().unwrap();
        jobs.push(Box::new(move || loop {
            match seat.recv(requests) {
                Ok(client) => seat.send(answers[client as usize], client).unwrap(),
                Err(error) => return assert_eq!(error, Error::Stalled),
            }
        }));
    }
    for (client, &answer) in (0..).zip(answers) {
        let mut seat = board.seat().unwrap();
        jobs.push(Box::new(move || {
            for _ in 0..each::<CLIENTS>(messages) {
                seat.send(requests, client).unwrap();
                assert_eq!(seat.recv(answer), Ok(client));
            }
        }));
    }
    timed(jobs)
}

/// The last mailbox has the requests. A request that names no client ends its worker.
fn by_hand<const CLIENTS: usize>(messages: u64) -> Duration {
    let mailboxes = &Mailboxes::new(CLIENTS + 1, 1 << 32);
    let clients_left = &AtomicUsize::new(CLIENTS);
    let mut jobs: Vec<Job> = Vec::new();
    for worker in 0..WORKERS {
        let number = (CLIENTS + worker) as u64;
        jobs.push(Box::new(move || loop {
            let client = mailboxes.recv(number, CLIENTS).unwrap();
            if client == CLIENTS as u64 {
                return;
            }
            mailboxes.send(number, client as usize, client).unwrap();
        }));
    }
    for client in 0..CLIENTS {
        let number = client as u64;
        jobs.push(Box::new(move || {
            for _ in 0..each::<CLIENTS>(messages) {
                mailboxes.send(number, CLIENTS, number).unwrap();
                assert_eq!(mailboxes.recv(number, client), Ok(number));
            }
            if clients_left.fetch_sub(1, Ordering::Relaxed) == 1 {
                for _ in 0..WORKERS {
                    mailboxes.send(number, CLIENTS, CLIENTS as u64).unwrap();
                }
            }
        }));
    }
    timed(jobs)
}

/// The workers share the receiver by a lock. They end as no client is left that could send.
fn by_mpsc<const CLIENTS: usize>(messages: u64) -> Duration {
    let (asks, requests) = mpsc::channel::<usize>();
    let requests = &Mutex::new(requests);
    let (answers, answered): (Vec<_>, Vec<_>) = (0..CLIENTS).map(|_| mpsc::channel()).unzip();
    let mut jobs: Vec<Job> = Vec::new();
    for _ in 0..WORKERS {
        let answers = answers.clone();
        jobs.push(Box::new(move || loop {
            let request = requests.lock().unwrap().recv();
            let Ok(client) = request else { return };
            answers[client].send(client).unwrap();
        }));
    }
    for (client, answered) in answered.into_iter().enumerate() {
        let asks = asks.clone();
        jobs.push(Box::new(move || {
            for _ in 0..each::<CLIENTS>(messages) {
                asks.send(client).unwrap();
                assert_eq!(answered.recv(), Ok(client));
            }
        }));
    }
    drop(asks);
    timed(jobs)
}
