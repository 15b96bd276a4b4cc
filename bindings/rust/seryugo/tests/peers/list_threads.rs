//! Unbounded channels of crossbeam-channel: several threads, on mailboxes.

use crate::common::{let_them_wait, without_a_hang};
use crate::{ms, seats, MANY};
use seryugo::{Error, Object, Switchboard};
use std::sync::atomic::{AtomicU64, Ordering};
use std::thread;

#[test]
fn try_recv() {
    without_a_hang(|| {
        let board = Switchboard::new(MANY).unwrap();
        let [mut sender, mut receiver] = seats(&board);
        let mailbox = sender.mailbox::<u64>().unwrap();
        assert_eq!(receiver.recv_poll(mailbox), Ok(None));
        thread::scope(|scope| {
            scope.spawn(move || sender.send(mailbox, 7).unwrap()).join().unwrap();
            assert_eq!(receiver.recv_poll(mailbox), Ok(Some(7)));
            assert_eq!(receiver.recv_poll(mailbox), Ok(None));
        });
    });
}

#[test]
fn recv() {
    without_a_hang(|| {
        let board = Switchboard::new(MANY).unwrap();
        let [mut sender, mut receiver] = seats(&board);
        let mailbox = sender.mailbox::<u64>().unwrap();
        thread::scope(|scope| {
            scope.spawn(move || {
                let_them_wait();
                for message in 7..=9 {
                    sender.send(mailbox, message).unwrap();
                }
            });
            for message in 7..=9 {
                assert_eq!(receiver.recv(mailbox), Ok(message));
            }
            assert_eq!(receiver.recv(mailbox), Err(Error::Stalled));
        });
    });
}

#[test]
fn recv_timeout() {
    without_a_hang(|| {
        let board = Switchboard::new(MANY).unwrap().open_waits_stall();
        let [mut sender, mut receiver] = seats(&board);
        let mailbox = sender.mailbox::<u64>().unwrap();
        assert_eq!(receiver.recv_timeout(mailbox, ms(5)), Err(Error::TimedOut));
        thread::scope(|scope| {
            scope.spawn(move || {
                let_them_wait();
                sender.send(mailbox, 7).unwrap();
            });
            assert_eq!(receiver.recv_timeout(mailbox, ms(50_000)), Ok(7));
            assert_eq!(receiver.recv_timeout(mailbox, ms(50_000)), Err(Error::Stalled));
        });
    });
}

#[test]
fn the_last_sender_wakes_the_receiver() {
    without_a_hang(|| {
        let board = Switchboard::new(MANY).unwrap();
        let [sender, mut receiver] = seats(&board);
        let mailbox = receiver.mailbox::<()>().unwrap();
        thread::scope(|scope| {
            scope.spawn(move || {
                let_them_wait();
                drop(sender);
            });
            assert_eq!(receiver.recv(mailbox), Err(Error::Stalled));
        });
    });
}

#[test]
fn spsc() {
    const COUNT: u64 = 5_000;
    without_a_hang(|| {
        let board = Switchboard::new(MANY).unwrap();
        let [mut sender, mut receiver] = seats(&board);
        let mailbox = sender.mailbox::<u64>().unwrap();
        thread::scope(|scope| {
            scope.spawn(move || {
                (0..COUNT).for_each(|message| sender.send(mailbox, message).unwrap());
            });
            for message in 0..COUNT {
                assert_eq!(receiver.recv(mailbox), Ok(message));
            }
            assert_eq!(receiver.recv(mailbox), Err(Error::Stalled));
        });
    });
}

#[test]
fn mpmc() {
    const COUNT: u64 = 2_000;
    const THREADS: u64 = 4;
    without_a_hang(|| {
        let board = Switchboard::new(MANY).unwrap();
        let (senders, receivers): ([_; THREADS as usize], [_; THREADS as usize]) =
            (seats(&board), seats(&board));
        let mailbox = board.seat().unwrap().mailbox::<u64>().unwrap();
        let times: Vec<_> = (0..COUNT).map(|_| AtomicU64::new(0)).collect();
        thread::scope(|scope| {
            for mut receiver in receivers {
                let times = &times;
                scope.spawn(move || {
                    for _ in 0..COUNT {
                        let message = receiver.recv(mailbox).unwrap();
                        times[message as usize].fetch_add(1, Ordering::Relaxed);
                    }
                });
            }
            for mut sender in senders {
                scope.spawn(move || {
                    (0..COUNT).for_each(|message| sender.send(mailbox, message).unwrap());
                });
            }
        });
        assert_eq!(board.owed(mailbox), Ok(0));
        assert!(times.iter().all(|times| times.load(Ordering::Relaxed) == THREADS));
    });
}

#[test]
fn stress_oneshot() {
    without_a_hang(|| {
        for _ in 0..100 {
            let board = Switchboard::new(3).unwrap();
            let [mut sender, mut receiver] = seats(&board);
            let mailbox = sender.mailbox::<u64>().unwrap();
            thread::scope(|scope| {
                scope.spawn(move || assert_eq!(receiver.recv(mailbox), Ok(5)));
                scope.spawn(move || sender.send(mailbox, 5).unwrap());
            });
            assert_eq!(board.got(mailbox), Ok(1));
        }
    });
}

#[test]
fn stress_iter() {
    const COUNT: u64 = 500;
    without_a_hang(|| {
        let board = Switchboard::new(u64::from(u32::MAX)).unwrap();
        let [mut server, mut client] = seats(&board);
        let requests = server.mailbox::<()>().unwrap();
        let responses = server.mailbox::<u64>().unwrap();
        thread::scope(|scope| {
            scope.spawn(move || {
                let mut count = 0;
                while count < COUNT {
                    client.send(requests, ()).unwrap();
                    count += client.try_iter(responses).sum::<u64>();
                }
            });
            while let Ok(()) = server.recv(requests) {
                server.send(responses, 1).unwrap();
            }
        });
        assert!(board.got(responses).unwrap() >= COUNT);
    });
}

#[test]
fn stress_timeout_two_threads() {
    const COUNT: u64 = 100;
    without_a_hang(|| {
        let board = Switchboard::new(MANY).unwrap();
        let [mut sender, mut receiver] = seats(&board);
        let mailbox = sender.mailbox::<u64>().unwrap();
        thread::scope(|scope| {
            scope.spawn(move || {
                for message in 0..COUNT {
                    thread::sleep(ms(3 * (message % 2)));
                    sender.send(mailbox, message).unwrap();
                }
            });
            for message in 0..COUNT {
                let mut received = std::iter::repeat_with(|| receiver.recv_timeout(mailbox, ms(1)));
                assert_eq!(received.find(|told| *told != Err(Error::TimedOut)), Some(Ok(message)));
            }
        });
    });
}

#[test]
fn linearizable() {
    without_a_hang(|| {
        let board = Switchboard::new(MANY).unwrap();
        let mailbox = board.seat().unwrap().mailbox::<u64>().unwrap();
        thread::scope(|scope| {
            for mut seat in seats::<_, 4>(&board) {
                scope.spawn(move || {
                    for _ in 0..2_000 {
                        seat.send(mailbox, 0).unwrap();
                        assert_eq!(seat.recv_poll(mailbox), Ok(Some(0)));
                    }
                });
            }
        });
        assert_eq!(board.got(mailbox), Ok(8_000));
    });
}

#[test]
fn mailbox_through_mailbox() {
    const COUNT: u64 = 200;
    without_a_hang(|| {
        let board = Switchboard::new(MANY).unwrap();
        let [mut sender, mut receiver] = seats(&board);
        let first = sender.mailbox::<u64>().unwrap();
        thread::scope(|scope| {
            scope.spawn(move || {
                let mut mailbox = first;
                for _ in 0..COUNT {
                    let next = sender.mailbox::<u64>().unwrap();
                    sender.send(mailbox, next.number()).unwrap();
                    mailbox = next;
                }
            });
            let mut mailbox = first;
            for _ in 0..COUNT {
                let number = receiver.recv(mailbox).unwrap();
                mailbox = board.mailbox::<u64>(number).unwrap();
            }
            assert_eq!(mailbox.number(), COUNT);
        });
    });
}
