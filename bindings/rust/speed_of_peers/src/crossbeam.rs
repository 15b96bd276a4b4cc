//! By crossbeam's channels without a limit. Threads share a receiver by copies of it.

use crate::speed::senders::{messages_of, receive_all};
use crate::speed::server::{each, WORKERS};
use crate::speed::together::{timed, Job};
use crate::speed::token::{hops, pass_on, sent_on};
use crossbeam_channel::unbounded;
use std::thread;
use std::time::{Duration, Instant};

pub fn one_thread(messages: u64) -> Duration {
    let (sender, receiver) = unbounded();
    let start = Instant::now();
    for n in 0..messages {
        sender.send(n).unwrap();
        assert_eq!(receiver.recv().unwrap(), n);
    }
    start.elapsed()
}

pub fn senders<const SENDERS: u64>(messages: u64) -> Duration {
    let (sender, receiver) = unbounded();
    let start = Instant::now();
    thread::scope(|scope| {
        for number in 0..SENDERS {
            let sender = &sender;
            scope.spawn(move || {
                messages_of::<SENDERS>(number, messages)
                    .for_each(|message| sender.send(message).unwrap());
            });
        }
        receive_all::<SENDERS>(messages, || receiver.recv().unwrap());
    });
    start.elapsed()
}

pub fn token<const THREADS: usize>(messages: u64) -> Duration {
    let (senders, receivers): (Vec<_>, Vec<_>) = (0..THREADS).map(|_| unbounded()).unzip();
    let mut jobs: Vec<Job> = Vec::new();
    for (at, receiver) in receivers.into_iter().enumerate() {
        let next = &senders[(at + 1) % THREADS];
        jobs.push(Box::new(move || {
            pass_on::<THREADS>(|| {
                sent_on(receiver.recv().unwrap(), |left| next.send(left).unwrap())
            });
        }));
    }
    senders[0].send(hops::<THREADS>(messages)).unwrap();
    timed(jobs)
}

/// The workers end as no client is left that could send.
pub fn server<const CLIENTS: usize>(messages: u64) -> Duration {
    let (asks, requests) = unbounded::<usize>();
    let (answers, answered): (Vec<_>, Vec<_>) = (0..CLIENTS).map(|_| unbounded()).unzip();
    let answers = &answers;
    let mut jobs: Vec<Job> = Vec::new();
    for _ in 0..WORKERS {
        let requests = requests.clone();
        jobs.push(Box::new(move || {
            requests.iter().for_each(|client| answers[client].send(client).unwrap());
        }));
    }
    for (client, answered) in answered.into_iter().enumerate() {
        let asks = asks.clone();
        jobs.push(Box::new(move || {
            for _ in 0..each::<CLIENTS>(messages) {
                asks.send(client).unwrap();
                assert_eq!(answered.recv(), Ok(client));
            }
        }));
    }
    drop(asks);
    timed(jobs)
}
