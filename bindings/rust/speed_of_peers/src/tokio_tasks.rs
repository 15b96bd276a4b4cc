//! By tokio's `mpsc` without a limit, and a task for each thread of the other ways. Its runtime has
//! a thread for each processor.

use crate::speed::senders::{messages_of, Orders};
use crate::speed::server::{each, WORKERS};
use crate::speed::token::{hops, sent_on};
use std::future::Future;
use std::sync::Arc;
use std::time::{Duration, Instant};
use tokio::runtime::{Builder, Runtime};
use tokio::sync::mpsc::unbounded_channel;
use tokio::sync::Mutex;
use tokio::task::JoinSet;

/// A runtime of threads, which is there before the clock runs.
pub fn runtime() -> Runtime {
    Builder::new_multi_thread().build().unwrap()
}

/// Waits until all tasks have ended. If one has failed, this fails too.
pub async fn ended(mut tasks: JoinSet<()>) {
    while let Some(task) = tasks.join_next().await {
        task.unwrap();
    }
}

/// How long the runtime takes for this.
pub fn clocked(runtime: &Runtime, work: impl Future<Output = ()>) -> Duration {
    let start = Instant::now();
    runtime.block_on(work);
    start.elapsed()
}

/// The runtime has one thread alone.
pub fn one_task(messages: u64) -> Duration {
    let runtime = Builder::new_current_thread().build().unwrap();
    let (sender, mut receiver) = unbounded_channel();
    clocked(&runtime, async {
        for n in 0..messages {
            sender.send(n).unwrap();
            assert_eq!(receiver.recv().await, Some(n));
        }
    })
}

pub fn senders<const SENDERS: u64>(messages: u64) -> Duration {
    let (sender, mut receiver) = unbounded_channel();
    clocked(&runtime(), async {
        let mut tasks = JoinSet::new();
        for number in 0..SENDERS {
            let sender = sender.clone();
            tasks.spawn(async move {
                messages_of::<SENDERS>(number, messages)
                    .for_each(|message| sender.send(message).unwrap());
            });
        }
        tasks.spawn(async move {
            let mut orders = Orders::<SENDERS>::of(messages);
            while !orders.are_all_here() {
                orders.see(receiver.recv().await.unwrap());
            }
        });
        ended(tasks).await;
    })
}

pub fn token<const THREADS: usize>(messages: u64) -> Duration {
    let (senders, receivers): (Vec<_>, Vec<_>) = (0..THREADS).map(|_| unbounded_channel()).unzip();
    clocked(&runtime(), async {
        let mut tasks = JoinSet::new();
        for (at, mut receiver) in receivers.into_iter().enumerate() {
            let next = senders[(at + 1) % THREADS].clone();
            tasks.spawn(async move {
                let mut left = THREADS as u64;
                while left >= THREADS as u64 {
                    left = receiver.recv().await.unwrap();
                    sent_on(left, |left| next.send(left).unwrap());
                }
            });
        }
        senders[0].send(hops::<THREADS>(messages)).unwrap();
        ended(tasks).await;
    })
}

/// The workers share the receiver by a lock of tokio's. They end as no client is left that could
/// send.
pub fn server<const CLIENTS: usize>(messages: u64) -> Duration {
    let (asks, requests) = unbounded_channel::<usize>();
    let requests = Arc::new(Mutex::new(requests));
    let (answers, answered): (Vec<_>, Vec<_>) = (0..CLIENTS).map(|_| unbounded_channel()).unzip();
    clocked(&runtime(), async {
        let mut tasks = JoinSet::new();
        for _ in 0..WORKERS {
            let (requests, answers) = (requests.clone(), answers.clone());
            tasks.spawn(async move {
                loop {
                    let request = requests.lock().await.recv().await;
                    let Some(client) = request else { return };
                    answers[client].send(client).unwrap();
                }
            });
        }
        for (client, mut answered) in answered.into_iter().enumerate() {
            let asks = asks.clone();
            tasks.spawn(async move {
                for _ in 0..each::<CLIENTS>(messages) {
                    asks.send(client).unwrap();
                    assert_eq!(answered.recv().await, Some(client));
                }
            });
        }
        drop(asks);
        ended(tasks).await;
    })
}
