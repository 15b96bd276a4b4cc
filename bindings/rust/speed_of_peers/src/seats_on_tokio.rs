//! By the library's futures, and tasks on the same runtime as for tokio's channels.

use crate::speed::server::{each, WORKERS};
use crate::speed::token::{hops, sent_on};
use crate::tokio_tasks::{clocked, ended, runtime};
use seryugo::{Error, Mailbox, Numbers, Switchboard};
use std::time::Duration;
use tokio::task::JoinSet;

/// A switchboard that tasks share: it lives as long as the process does.
fn board() -> &'static Switchboard<Numbers> {
    // Nothing else ends these futures.
    Box::leak(Box::new(Switchboard::of_numbers(1 << 32).unwrap().open_waits_stall()))
}

pub fn token<const THREADS: usize>(messages: u64) -> Duration {
    let board = board();
    let mut first = board.seat().unwrap();
    let mailboxes: Vec<Mailbox<u64>> = (0..THREADS).map(|_| first.mailbox().unwrap()).collect();
    let mut tasks = JoinSet::new();
    clocked(&runtime(), async {
        for (at, &mailbox) in mailboxes.iter().enumerate() {
            let next = mailboxes[(at + 1) % THREADS];
            let mut seat = board.seat().unwrap();
            tasks.spawn(async move {
                let mut left = THREADS as u64;
                while left >= THREADS as u64 {
                    left = seat.recv_async(mailbox).await.unwrap();
                    sent_on(left, |left| seat.send(next, left).unwrap());
                }
            });
        }
        first.send(mailboxes[0], hops::<THREADS>(messages)).unwrap();
        drop(first);
        ended(tasks).await;
    })
}

/// As the last client has left, each worker is refused.
pub fn server<const CLIENTS: usize>(messages: u64) -> Duration {
    let board = board();
    let mut first = board.seat().unwrap();
    let requests = first.mailbox().unwrap();
    let answers: Vec<Mailbox<u64>> = (0..CLIENTS).map(|_| first.mailbox().unwrap()).collect();
    let mut tasks = JoinSet::new();
    clocked(&runtime(), async {
        for _ in 0..WORKERS {
            let answers = answers.clone();
            let mut seat = board.seat().unwrap();
            tasks.spawn(async move {
                loop {
                    match seat.recv_async(requests).await {
                        Ok(client) => seat.send(answers[client as usize], client).unwrap(),
                        Err(error) => return assert_eq!(error, Error::Stalled),
                    }
                }
            });
        }
        for (client, &answer) in (0..).zip(&answers) {
            let mut seat = board.seat().unwrap();
            tasks.spawn(async move {
                for _ in 0..each::<CLIENTS>(messages) {
                    seat.send(requests, client).unwrap();
                    assert_eq!(seat.recv_async(answer).await, Ok(client));
                }
            });
        }
        drop(first);
        ended(tasks).await;
    })
}
