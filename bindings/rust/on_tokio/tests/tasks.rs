//! Many tasks under tokio: no message is lost, and none is received twice.

mod common;

use common::{board, board_of_numbers, ms, on_each_runtime};
use seryugo::{Error, Request, Switchboard};
use std::sync::Arc;
use tokio::task::{spawn_blocking, yield_now, JoinSet};

/// All that the tasks of a set return, in no order.
async fn joined<T: 'static>(mut tasks: JoinSet<T>) -> Vec<T> {
    let mut returned = Vec::new();
    while let Some(task) = tasks.join_next().await {
        returned.push(task.unwrap());
    }
    returned
}

#[test]
fn a_mailbox() {
    const SENDERS: u64 = 20;
    const COUNT: u64 = 100;
    on_each_runtime(|| async {
        let board = board();
        let mailbox = board.seat_owned().unwrap().mailbox::<String>().unwrap();
        let (mut senders, mut receivers) = (JoinSet::new(), JoinSet::new());
        // While one of these is free, no receiver's call fails with `Stalled`.
        let sending: Vec<_> = (0..SENDERS).map(|_| board.seat_owned().unwrap()).collect();
        for _ in 0..20 {
            let mut seat = board.seat_owned().unwrap();
            receivers.spawn(async move {
                let mut received = Vec::new();
                while let Ok(message) = seat.recv_async(mailbox).await {
                    received.push(message);
                }
                assert_eq!(seat.recv_async(mailbox).await, Err(Error::Stalled));
                received
            });
        }
        for (sender, mut seat) in (0..).zip(sending) {
            senders.spawn(async move {
                for count in 0..COUNT {
                    seat.send(mailbox, (sender * COUNT + count).to_string()).unwrap();
                    yield_now().await;
                }
            });
        }
        joined(senders).await;
        let received = joined(receivers).await.into_iter().flatten();
        let mut received: Vec<u64> = received.map(|message| message.parse().unwrap()).collect();
        received.sort_unstable();
        assert!(received.into_iter().eq(0..SENDERS * COUNT));
    });
}

#[test]
fn ports() {
    const COUNT: u64 = 200;
    on_each_runtime(|| async {
        let board = board();
        let mut seat = board.seat_owned().unwrap();
        let (channel, counts) = (seat.channel::<u64>().unwrap(), seat.mailbox::<u64>().unwrap());
        let mut receivers = JoinSet::new();
        let mut ports = Vec::new();
        for _ in 0..10 {
            let (mut own, port) = (board.seat_owned().unwrap(), seat.port(channel).unwrap());
            ports.push(port);
            receivers.spawn(async move {
                for number in 0..COUNT {
                    assert_eq!(own.recv_async(port).await, Ok(Some(number)));
                }
                own.send(counts, COUNT).unwrap();
                assert_eq!(own.recv_async(port).await, Ok(None));
            });
        }
        for number in 0..COUNT {
            seat.multicast(channel, number).unwrap();
            yield_now().await;
        }
        for port in ports {
            assert_eq!(seat.recv_async(counts).await, Ok(COUNT));
            // This closes a port that is behind only if its receiver had its count before.
            while board.owed(port).unwrap() > 0 {
                yield_now().await;
            }
            assert!(seat.close(port).unwrap());
        }
        assert_eq!(joined(receivers).await.len(), 10);
    });
}

#[test]
fn an_i_variable() {
    on_each_runtime(|| async {
        let board = board();
        let mut seat = board.seat_owned().unwrap();
        let variable = seat.ivar::<(u32, String)>().unwrap();
        let mut readers = JoinSet::new();
        for _ in 0..50 {
            let mut own = board.seat_owned().unwrap();
            readers.spawn(async move { own.get_async(variable).await });
        }
        yield_now().await;
        assert!(seat.put(variable, (5, String::from("five"))).unwrap());
        let read = joined(readers).await;
        assert!(
            read.len() == 50 && read.iter().all(|value| *value == Ok((5, String::from("five"))))
        );
    });
}

#[test]
fn an_m_variable_as_a_lock() {
    on_each_runtime(|| async {
        let board = board();
        let mut seat = board.seat_owned().unwrap();
        let variable = seat.mvar_init(0_u64).unwrap();
        let mut tasks = JoinSet::new();
        for _ in 0..20 {
            let mut own = board.seat_owned().unwrap();
            tasks.spawn(async move {
                for _ in 0..50 {
                    let count = own.take_async(variable).await.unwrap();
                    yield_now().await;
                    assert!(own.put(variable, count + 1).unwrap());
                }
            });
        }
        joined(tasks).await;
        assert_eq!(seat.take_async(variable).await, Ok(1_000));
    });
}

#[test]
fn swapped_tokens() {
    const TASKS: u64 = 20;
    on_each_runtime(|| async {
        let board = board_of_numbers();
        let mut seat = board.seat_owned().unwrap();
        let variable = seat.mvar().unwrap();
        let mut tasks = JoinSet::new();
        for token in 1..=TASKS {
            let mut own = board.seat_owned().unwrap();
            tasks.spawn(async move {
                let mut token = token;
                for _ in 0..50 {
                    token = own.swap_async(variable, token).await.unwrap();
                    yield_now().await;
                }
                token
            });
        }
        yield_now().await;
        assert!(seat.put(variable, 0).unwrap());
        let mut tokens = joined(tasks).await;
        tokens.push(seat.take(variable).unwrap());
        tokens.sort_unstable();
        assert!(tokens.into_iter().eq(0..=TASKS));
    });
}

#[test]
fn blocking_threads_beside_tasks() {
    on_each_runtime(|| async {
        let board = board();
        let (mut there, mut back) = (board.seat_owned().unwrap(), board.seat_owned().unwrap());
        let questions = there.mailbox::<u64>().unwrap();
        let answers = there.mailbox::<u64>().unwrap();
        let server = spawn_blocking(move || {
            while let Ok(number) = back.recv(questions) {
                back.send(answers, number * number).unwrap();
            }
        });
        for number in 0..200 {
            there.send(questions, number).unwrap();
            assert_eq!(there.recv_async(answers).await, Ok(number * number));
        }
        drop(there);
        server.await.unwrap();
    });
}

#[test]
fn halves_of_a_mailbox() {
    const COUNT: u64 = 100;
    on_each_runtime(|| async {
        let (sender, mut receiver) = board().unbounded::<u64>().unwrap();
        for _ in 0..10 {
            let sender = sender.clone();
            tokio::spawn(async move {
                for number in 0..COUNT {
                    sender.send(number).unwrap();
                    yield_now().await;
                }
            });
        }
        drop(sender);
        let mut sum = 0;
        while let Ok(number) = receiver.recv_async().await {
            sum += number;
        }
        assert_eq!(sum, 10 * COUNT * (COUNT - 1) / 2);
    });
}

#[test]
fn a_guest_of_tasks_that_come_late() {
    on_each_runtime(|| async {
        let board = board();
        let mut seat = board.seat_owned().unwrap();
        let mailbox = seat.mailbox::<String>().unwrap();
        let guest = board.hold_owned().unwrap();
        let coming = tokio::spawn(async move {
            for _ in 0..10 {
                yield_now().await;
            }
            let mut seat = board.seat_owned().unwrap();
            drop(guest);
            seat.send(mailbox, "late").unwrap();
        });
        assert_eq!(seat.recv_async(mailbox).await.unwrap(), "late");
        coming.await.unwrap();
        assert_eq!(seat.recv_async(mailbox).await, Err(Error::Stalled));
    });
}

/// Their first client comes late, and a channel of tokio ends them.
#[test]
fn workers_beside_another_channel() {
    on_each_runtime(|| async {
        let board = Arc::new(Switchboard::new(100_000).unwrap());
        let doubles = board.seat_owned().unwrap().mailbox::<Request<u64, u64>>().unwrap();
        let (stop, _) = tokio::sync::broadcast::channel::<()>(1);
        let mut workers = JoinSet::new();
        for _ in 0..4 {
            let (mut seat, mut stopped) = (board.seat_owned().unwrap(), stop.subscribe());
            workers.spawn(async move {
                let mut count = 0;
                loop {
                    let request = tokio::select! {
                        request = seat.recv_async(doubles) => request.unwrap(),
                        _ = stopped.recv() => return count,
                    };
                    request.answer_with(&mut seat, |question| 2 * question).unwrap();
                    count += 1;
                }
            });
        }
        tokio::time::sleep(ms(20)).await;
        let mut client = board.seat_owned().unwrap();
        for question in 0..100 {
            assert_eq!(client.request_async(doubles, question).await, Ok(2 * question));
        }
        stop.send(()).unwrap();
        assert_eq!(joined(workers).await.iter().sum::<u64>(), 100);
    });
}
