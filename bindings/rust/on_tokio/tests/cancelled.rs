//! Futures that tokio drops before they are ready: their calls have done nothing.

mod common;

use common::{board, board_of_numbers, ms, on_each_runtime, PATIENCE};
use seryugo::{Error, Request};
use tokio::select;
use tokio::task::{yield_now, JoinSet};
use tokio::time::{sleep, timeout};

#[test]
fn a_timeout_loses_no_message() {
    const COUNT: u64 = 100;
    on_each_runtime(|| async {
        let board = board();
        let (mut sender, mut receiver) = (board.seat_owned().unwrap(), board.seat_owned().unwrap());
        let mailbox = sender.mailbox::<u64>().unwrap();
        let sending = tokio::spawn(async move {
            for number in 0..COUNT {
                sender.send(mailbox, number).unwrap();
                sleep(ms(number % 4)).await;
            }
        });
        let (mut received, mut timeouts) = (Vec::new(), 0);
        while received.len() < COUNT as usize {
            match timeout(ms(1), receiver.recv_async(mailbox)).await {
                Ok(message) => received.push(message.unwrap()),
                Err(_) => timeouts += 1,
            }
        }
        sending.await.unwrap();
        assert!(received.into_iter().eq(0..COUNT));
        assert!(timeouts > 0, "no future was dropped, so that this tries nothing");
        assert_eq!(receiver.recv_async(mailbox).await, Err(Error::Stalled));
    });
}

#[test]
fn a_timeout_of_each_call() {
    on_each_runtime(|| async {
        let board = board();
        let (mut seat, mut free) = (board.seat_owned().unwrap(), board.seat_owned().unwrap());
        let channel = seat.channel::<u64>().unwrap();
        let port = seat.port(channel).unwrap();
        let (once, often) = (seat.ivar::<u64>().unwrap(), seat.mvar::<u64>().unwrap());
        let entries = board.entries();
        assert!(timeout(ms(1), seat.recv_async(port)).await.is_err());
        assert!(timeout(ms(1), seat.get_async(once)).await.is_err());
        assert!(timeout(ms(1), seat.take_async(often)).await.is_err());
        assert!(timeout(ms(1), seat.swap_async(often, 9)).await.is_err());
        assert_eq!(board.entries(), entries);
        free.multicast(channel, 1).unwrap();
        assert!(free.put(once, 2).unwrap() && free.put(often, 3).unwrap());
        assert_eq!(timeout(PATIENCE, seat.recv_async(port)).await, Ok(Ok(Some(1))));
        assert_eq!(timeout(PATIENCE, seat.get_async(once)).await, Ok(Ok(2)));
        assert_eq!(seat.swap_async(often, 4).await.unwrap(), 3);
        assert_eq!(timeout(PATIENCE, seat.take_async(often)).await, Ok(Ok(4)));
    });
}

#[test]
fn select_over_two() {
    const COUNT: u64 = 200;
    on_each_runtime(|| async {
        let board = board_of_numbers();
        let mut senders = [board.seat_owned().unwrap(), board.seat_owned().unwrap()];
        let (mut one, mut other) = (board.seat_owned().unwrap(), board.seat_owned().unwrap());
        let (odd, even) = (one.mailbox().unwrap(), one.mailbox().unwrap());
        let sending = tokio::spawn(async move {
            for number in 0..COUNT {
                let mailbox = if number % 2 == 0 { even } else { odd };
                senders[number as usize % 2].send(mailbox, number).unwrap();
                yield_now().await;
            }
        });
        let (mut odds, mut evens) = (Vec::new(), Vec::new());
        for _ in 0..COUNT {
            select! {
                number = one.recv_async(odd) => odds.push(number.unwrap()),
                number = other.recv_async(even) => evens.push(number.unwrap()),
            }
        }
        sending.await.unwrap();
        assert!(evens.into_iter().eq((0..COUNT).step_by(2)));
        assert!(odds.into_iter().eq((1..COUNT).step_by(2)));
    });
}

#[test]
fn aborted_tasks_leave() {
    on_each_runtime(|| async {
        let board = board();
        let mut seat = board.seat_owned().unwrap();
        let (mailbox, begun) = (seat.mailbox::<u64>().unwrap(), seat.mailbox::<()>().unwrap());
        let mut tasks = JoinSet::new();
        for _ in 0..20 {
            let mut own = board.seat_owned().unwrap();
            tasks.spawn(async move {
                own.send(begun, ()).unwrap();
                own.recv_async(mailbox).await
            });
        }
        for _ in 0..20 {
            assert_eq!(seat.recv_async(begun).await, Ok(()));
        }
        tasks.abort_all();
        while let Some(ended) = tasks.join_next().await {
            assert!(ended.unwrap_err().is_cancelled());
        }
        seat.send(mailbox, 5).unwrap();
        assert_eq!(seat.recv_async(mailbox).await, Ok(5));
        assert_eq!(seat.recv_async(mailbox).await, Err(Error::Stalled));
    });
}

/// Clients give up at any moment, and a server is often late. No client has another one's answer, or
/// one of an older question.
#[test]
fn questions_whose_futures_are_dropped() {
    on_each_runtime(|| async {
        let board = board();
        let mut server = board.seat_owned().unwrap();
        let doubles = server.mailbox::<Request<u64, u64>>().unwrap();
        let mut clients = JoinSet::new();
        for client in 0..8 {
            let mut seat = board.seat_owned().unwrap();
            clients.spawn(async move {
                let mut answered = 0;
                for question in 0..50 {
                    let question = 1_000 * client + question;
                    let asked = timeout(ms(question % 3), seat.request_async(doubles, question));
                    if let Ok(answer) = asked.await {
                        assert_eq!(answer.unwrap(), 2 * question);
                        answered += 1;
                    }
                }
                // The answers to all older questions come before this one's.
                assert_eq!(seat.request_async(doubles, client).await.unwrap(), 2 * client);
                answered
            });
        }
        let serving = tokio::spawn(async move {
            while let Ok(request) = server.recv_async(doubles).await {
                if request.question % 5 == 0 {
                    sleep(ms(1)).await;
                }
                request.answer_with(&mut server, |question| 2 * question).unwrap();
            }
        });
        let mut answered = 0;
        while let Some(ended) = clients.join_next().await {
            answered += ended.unwrap();
        }
        serving.await.unwrap();
        assert!(answered < 400, "no future was dropped, so that this tries nothing");
        assert_eq!(board.owed(doubles), Ok(0));
    });
}
