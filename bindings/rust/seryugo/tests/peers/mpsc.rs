//! Channels of std's `mpsc`, on a mailbox.

use crate::common::{let_them_wait, without_a_hang};
use crate::{ms, seats, MANY};
use seryugo::{Error, Seat, Switchboard};
use std::thread;
use std::time::{Duration, Instant};

#[test]
fn smoke() {
    let board = Switchboard::new(MANY).unwrap();
    let [mut seat] = seats(&board);
    let mailbox = seat.mailbox::<i32>().unwrap();
    seat.send(mailbox, 1).unwrap();
    assert_eq!(seat.recv(mailbox), Ok(1));
}

#[test]
fn drop_full() {
    let board = Switchboard::new(MANY).unwrap();
    let [mut sender, other, another] = seats(&board);
    let mailbox = sender.mailbox::<Box<str>>().unwrap();
    drop((other, another));
    sender.send(mailbox, <Box<str>>::from("never received")).unwrap();
    drop(sender);
    assert_eq!(board.owed(mailbox), Ok(1));
    drop(board);
}

#[test]
fn smoke_shared() {
    let board = Switchboard::new(MANY).unwrap();
    let [mut one, mut other, mut receiver] = seats(&board);
    let mailbox = receiver.mailbox::<i32>().unwrap();
    one.send(mailbox, 1).unwrap();
    assert_eq!(receiver.recv(mailbox), Ok(1));
    other.send(mailbox, 2).unwrap();
    assert_eq!(receiver.recv(mailbox), Ok(2));
}

#[test]
fn smoke_threads() {
    without_a_hang(|| {
        let board = Switchboard::new(MANY).unwrap();
        let [mut sender, mut receiver] = seats(&board);
        let mailbox = sender.mailbox::<i32>().unwrap();
        thread::scope(|scope| {
            scope.spawn(move || sender.send(mailbox, 1).unwrap());
            assert_eq!(receiver.recv(mailbox), Ok(1));
        });
    });
}

#[test]
fn a_receiver_that_left_loses_nothing() {
    let board = Switchboard::new(MANY).unwrap();
    let [mut one, mut other, receiver] = seats(&board);
    let mailbox = one.mailbox::<i32>().unwrap();
    drop(receiver);
    one.send(mailbox, 1).unwrap();
    drop(one);
    other.send(mailbox, 2).unwrap();
    assert_eq!(other.try_iter(mailbox).collect::<Vec<_>>(), [1, 2]);
}

#[test]
fn a_receiver_that_leaves_loses_nothing() {
    without_a_hang(|| {
        let board = Switchboard::new(MANY).unwrap();
        let [mut one, mut other, mut receiver] = seats(&board);
        let mailbox = one.mailbox::<i32>().unwrap();
        thread::scope(|scope| {
            scope.spawn(move || assert_eq!(receiver.recv(mailbox), Ok(1)));
            for _ in 0..50 {
                one.send(mailbox, 1).unwrap();
                other.send(mailbox, 1).unwrap();
            }
        });
        assert_eq!(board.owed(mailbox), Ok(99));
    });
}

#[test]
fn smoke_chan_gone() {
    let board = Switchboard::new(MANY).unwrap();
    let [sender, mut receiver] = seats(&board);
    let mailbox = receiver.mailbox::<i32>().unwrap();
    drop(sender);
    assert_eq!(receiver.recv(mailbox), Err(Error::Stalled));
}

#[test]
fn smoke_chan_gone_shared() {
    let board = Switchboard::new(MANY).unwrap();
    let [one, other, mut receiver] = seats(&board);
    let mailbox = receiver.mailbox::<()>().unwrap();
    drop(one);
    assert_eq!(receiver.recv_timeout(mailbox, ms(1)), Err(Error::TimedOut));
    drop(other);
    assert_eq!(receiver.recv(mailbox), Err(Error::Stalled));
}

#[test]
fn chan_gone_concurrent() {
    without_a_hang(|| {
        let board = Switchboard::new(MANY).unwrap();
        let [mut sender, mut receiver] = seats(&board);
        let mailbox = sender.mailbox::<i32>().unwrap();
        thread::scope(|scope| {
            scope.spawn(move || (0..2).for_each(|_| sender.send(mailbox, 1).unwrap()));
            let mut messages = receiver.iter(mailbox);
            assert_eq!(messages.by_ref().count(), 2);
            assert_eq!(messages.error(), Some(Error::Stalled));
        });
    });
}

#[test]
fn stress() {
    without_a_hang(|| {
        let board = Switchboard::new(MANY).unwrap();
        let [mut sender, mut receiver] = seats(&board);
        let mailbox = sender.mailbox::<i32>().unwrap();
        thread::scope(|scope| {
            scope.spawn(move || {
                (0..10_000).for_each(|message| sender.send(mailbox, message).unwrap());
            });
            (0..10_000).for_each(|message| assert_eq!(receiver.recv(mailbox), Ok(message)));
        });
    });
}

/// Each of these seats sends this often, in a thread.
fn all_send<'scope, 'board: 'scope>(
    scope: &'scope thread::Scope<'scope, '_>,
    senders: impl IntoIterator<Item = Seat<'board>>,
    mailbox: seryugo::Mailbox<i32>,
    count: u64,
) {
    for mut sender in senders {
        scope.spawn(move || (0..count).for_each(|_| sender.send(mailbox, 1).unwrap()));
    }
}

#[test]
fn stress_shared() {
    without_a_hang(|| {
        let board = Switchboard::new(MANY).unwrap();
        let [mut receiver] = seats(&board);
        let mailbox = receiver.mailbox::<i32>().unwrap();
        thread::scope(|scope| {
            all_send(scope, seats::<_, 8>(&board), mailbox, 1_000);
            (0..8_000).for_each(|_| assert_eq!(receiver.recv(mailbox), Ok(1)));
        });
        assert_eq!(receiver.recv_poll(mailbox), Ok(None));
    });
}

#[test]
fn shared_chan_stress() {
    without_a_hang(|| {
        let board = Switchboard::new(MANY).unwrap();
        let [mut receiver] = seats(&board);
        let mailbox = receiver.mailbox::<i32>().unwrap();
        thread::scope(|scope| {
            all_send(scope, seats::<_, 100>(&board), mailbox, 1);
            assert_eq!(receiver.iter(mailbox).count(), 100);
        });
    });
}

#[test]
fn from_threads_of_any_kind() {
    without_a_hang(|| {
        let board = Switchboard::new(MANY).unwrap();
        let [mut one, mut other, mut main] = seats(&board);
        let begun = main.mailbox::<()>().unwrap();
        let numbers = main.mailbox::<i32>().unwrap();
        thread::scope(|scope| {
            scope.spawn(move || {
                one.send(begun, ()).unwrap();
                (0..80).for_each(|_| assert_eq!(one.recv(numbers), Ok(1)));
            });
            assert_eq!(main.recv(begun), Ok(()));
            scope.spawn(move || (0..40).for_each(|_| other.send(numbers, 1).unwrap()));
            (0..40).for_each(|_| main.send(numbers, 1).unwrap());
        });
        assert_eq!(board.owed(numbers), Ok(0));
    });
}

#[test]
fn to_and_fro() {
    without_a_hang(|| {
        let board = Switchboard::new(MANY).unwrap();
        let [mut one, mut other] = seats(&board);
        let (there, back) = (one.mailbox::<i32>().unwrap(), one.mailbox::<i32>().unwrap());
        thread::scope(|scope| {
            scope.spawn(move || {
                assert_eq!(one.recv(there), Ok(1));
                one.send(back, 2).unwrap();
            });
            other.send(there, 1).unwrap();
            assert_eq!(other.recv(back), Ok(2));
        });
    });
}

#[test]
fn recv_timeout_takes_its_time() {
    let board = Switchboard::new(MANY).unwrap();
    let [_free, mut receiver] = seats(&board);
    let mailbox = receiver.mailbox::<()>().unwrap();
    let start = Instant::now();
    assert_eq!(receiver.recv_timeout(mailbox, ms(2)), Err(Error::TimedOut));
    assert!(start.elapsed() >= ms(2));
}

#[test]
fn very_long_recv_timeout() {
    without_a_hang(|| {
        let board = Switchboard::new(MANY).unwrap();
        let [mut sender, mut receiver] = seats(&board);
        let mailbox = sender.mailbox::<i32>().unwrap();
        thread::scope(|scope| {
            scope.spawn(move || {
                let_them_wait();
                sender.send(mailbox, 1).unwrap();
            });
            assert_eq!(receiver.recv_timeout(mailbox, Duration::MAX), Ok(1));
            assert_eq!(receiver.recv_timeout(mailbox, Duration::MAX), Err(Error::Stalled));
        });
    });
}

#[test]
fn a_time_limit_while_seats_come_and_go() {
    without_a_hang(|| {
        let board = Switchboard::new(MANY).unwrap().open_waits_stall();
        let [sender, mut receiver] = seats(&board);
        let mailbox = receiver.mailbox::<()>().unwrap();
        thread::scope(|scope| {
            let other = scope.spawn(|| {
                thread::sleep(ms(2));
                drop(board.seat().unwrap());
                sender
            });
            assert_eq!(receiver.recv_timeout(mailbox, ms(5)), Err(Error::TimedOut));
            let sender = other.join().unwrap();
            assert_eq!(receiver.recv_timeout(mailbox, ms(5)), Err(Error::TimedOut));
            drop(sender);
        });
        assert_eq!(receiver.recv_timeout(mailbox, ms(5)), Err(Error::Stalled));
    });
}

/// How many messages a seat receives with this time limit, until nothing more can come.
fn count_within(receiver: &mut Seat<'_>, mailbox: seryugo::Mailbox<i32>, limit: Duration) -> usize {
    std::iter::repeat_with(|| receiver.recv_timeout(mailbox, limit))
        .take_while(|told| *told != Err(Error::Stalled))
        .inspect(|told| assert!(matches!(told, Ok(1) | Err(Error::TimedOut))))
        .flatten()
        .count()
}

#[test]
fn stress_recv_timeout_two_threads() {
    without_a_hang(|| {
        let board = Switchboard::new(MANY).unwrap().open_waits_stall();
        let [mut sender, mut receiver] = seats(&board);
        let mailbox = sender.mailbox::<i32>().unwrap();
        thread::scope(|scope| {
            scope.spawn(move || {
                for message in 0..100 {
                    thread::sleep(ms(4 * (message % 2)));
                    sender.send(mailbox, 1).unwrap();
                }
            });
            assert_eq!(count_within(&mut receiver, mailbox, ms(2)), 100);
        });
    });
}

#[test]
fn stress_recv_timeout_shared() {
    without_a_hang(|| {
        let board = Switchboard::new(MANY).unwrap().open_waits_stall();
        let [mut receiver] = seats(&board);
        let mailbox = receiver.mailbox::<i32>().unwrap();
        thread::scope(|scope| {
            for (place, mut sender) in seats::<_, 100>(&board).into_iter().enumerate() {
                scope.spawn(move || {
                    thread::sleep(ms(place as u64 * 3));
                    sender.send(mailbox, 1).unwrap();
                });
            }
            assert_eq!(count_within(&mut receiver, mailbox, ms(3)), 100);
        });
    });
}

#[test]
fn recv_a_lot() {
    let board = Switchboard::new(MANY).unwrap();
    let [mut seat] = seats(&board);
    let mailbox = seat.mailbox::<()>().unwrap();
    (0..10_000).for_each(|_| seat.send(mailbox, ()).unwrap());
    assert_eq!(seat.try_iter(mailbox).count(), 10_000);
}

#[test]
fn shared_recv_timeout() {
    without_a_hang(|| {
        let board = Switchboard::new(MANY).unwrap();
        let [mut receiver, mut last] = seats(&board);
        let mailbox = receiver.mailbox::<i32>().unwrap();
        thread::scope(|scope| {
            all_send(scope, seats::<_, 5>(&board), mailbox, 1);
            (0..5).for_each(|_| assert_eq!(receiver.recv(mailbox), Ok(1)));
        });
        assert_eq!(receiver.recv_timeout(mailbox, ms(1)), Err(Error::TimedOut));
        last.send(mailbox, 1).unwrap();
        assert_eq!(receiver.recv_timeout(mailbox, ms(1)), Ok(1));
    });
}
