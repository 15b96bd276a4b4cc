//! Programs of Go's channels, on mailboxes.

use crate::common::{let_them_wait, without_a_hang};
use crate::{seats, MANY};
use seryugo::{Error, Mailbox, Message, Seat, Switchboard};
use std::fmt::Debug;
use std::thread;

#[test]
fn asynch_fifo() {
    let board = Switchboard::new(MANY).unwrap();
    let [mut seat] = seats(&board);
    let mailbox = seat.mailbox::<i32>().unwrap();
    (0..10).for_each(|message| seat.send(mailbox, message).unwrap());
    assert!(seat.iter(mailbox).eq(0..10));
}

#[test]
fn synch_fifo() {
    without_a_hang(|| {
        let board = Switchboard::new(MANY).unwrap();
        let [mut main] = seats(&board);
        let numbers = main.mailbox::<i32>().unwrap();
        let turns: Vec<_> = (0..=10).map(|_| main.mailbox::<()>().unwrap()).collect();
        thread::scope(|scope| {
            for (place, mut seat) in seats::<_, 10>(&board).into_iter().enumerate() {
                let (turn, next) = (turns[place], turns[place + 1]);
                scope.spawn(move || {
                    seat.recv(turn).unwrap();
                    assert_eq!(seat.recv(numbers), Ok(place as i32));
                    seat.send(next, ()).unwrap();
                });
            }
            main.send(turns[0], ()).unwrap();
            (0..10).for_each(|number| main.send(numbers, number).unwrap());
            assert_eq!(main.recv(turns[10]), Ok(()));
        });
    });
}

#[test]
fn goroutines() {
    without_a_hang(|| {
        let board = Switchboard::new(MANY).unwrap();
        let [mut main] = seats(&board);
        let mailboxes: Vec<_> = (0..=100).map(|_| main.mailbox::<i32>().unwrap()).collect();
        thread::scope(|scope| {
            for (place, mut seat) in seats::<_, 100>(&board).into_iter().enumerate() {
                let (left, right) = (mailboxes[place], mailboxes[place + 1]);
                scope.spawn(move || {
                    let number = seat.recv(right).unwrap();
                    seat.send(left, number + 1).unwrap();
                });
            }
            main.send(mailboxes[100], 1).unwrap();
            assert_eq!(main.recv(mailboxes[0]), Ok(101));
        });
    });
}

/// A message goes there to a thread that blocks, and another comes back. A poll blocks never.
fn there_and_back<T: Message + Copy + PartialEq + Debug + Send>(there: T, back: T) {
    let board = Switchboard::new(MANY).unwrap();
    let [mut main, mut other] = seats(&board);
    let mailbox = main.mailbox::<T>().unwrap();
    let strobe = main.mailbox::<bool>().unwrap();
    assert_eq!(main.recv_poll(mailbox), Ok(None));
    thread::scope(|scope| {
        scope.spawn(move || {
            assert_eq!(other.recv(mailbox), Ok(there));
            other.send(strobe, true).unwrap();
            other.send(mailbox, back).unwrap();
            other.send(strobe, true).unwrap();
        });
        let_them_wait();
        main.send(mailbox, there).unwrap();
        assert_eq!((main.recv(strobe), main.recv(strobe)), (Ok(true), Ok(true)));
        assert_eq!(main.recv_poll(mailbox), Ok(Some(back)));
        assert_eq!(main.recv_poll(mailbox), Ok(None));
    });
}

#[test]
fn nonblock() {
    without_a_hang(|| {
        there_and_back(123_i32, 234);
        there_and_back(123_456_i64, 234_567);
        there_and_back(true, false);
        there_and_back(*b"hello", *b"again");
    });
}

/// Sends on what no prime so far divides, up to the 0 at the end.
fn filter(seat: &mut Seat<'_>, from: Mailbox<i32>, to: Mailbox<i32>, prime: i32) {
    let mut number = seat.recv(from).unwrap();
    while number != 0 {
        if number % prime != 0 {
            seat.send(to, number).unwrap();
        }
        number = seat.recv(from).unwrap();
    }
    seat.send(to, 0).unwrap();
}

#[test]
fn sieve() {
    const PRIMES: [i32; 25] = [
        2, 3, 5, 7, 11, 13, 17, 19, 23, 29, 31, 37, 41, 43, 47, 53, 59, 61, 67, 71, 73, 79, 83, 89,
        97,
    ];
    without_a_hang(|| {
        let board = Switchboard::new(MANY).unwrap();
        let [mut main] = seats(&board);
        let mut numbers = main.mailbox::<i32>().unwrap();
        (2..=100).chain([0]).for_each(|number| main.send(numbers, number).unwrap());
        thread::scope(|scope| {
            let mut primes = Vec::new();
            let mut prime = main.recv(numbers).unwrap();
            while prime != 0 {
                primes.push(prime);
                let (from, to) = (numbers, main.mailbox::<i32>().unwrap());
                let [mut seat] = seats(&board);
                scope.spawn(move || filter(&mut seat, from, to, prime));
                numbers = to;
                prime = main.recv(numbers).unwrap();
            }
            assert_eq!(primes, PRIMES);
        });
    });
}

#[test]
fn zero_size() {
    let board = Switchboard::new(MANY).unwrap();
    let [mut seat] = seats(&board);
    let (units, arrays) = (seat.mailbox::<()>().unwrap(), seat.mailbox::<[u8; 0]>().unwrap());
    for _ in 0..3 {
        seat.send(units, ()).unwrap();
        seat.send(arrays, []).unwrap();
    }
    assert_eq!(seat.try_iter(units).count(), 3);
    assert_eq!(seat.try_iter(arrays).count(), 3);
}

#[test]
fn empty_blocks() {
    without_a_hang(|| {
        let board = Switchboard::new(MANY).unwrap();
        let [mut main, mut one, mut other] = seats(&board);
        let mailbox = main.mailbox::<i32>().unwrap();
        thread::scope(|scope| {
            let received = [
                scope.spawn(move || one.recv(mailbox)),
                scope.spawn(move || other.recv(mailbox)),
            ];
            let_them_wait();
            assert!(received.iter().all(|thread| !thread.is_finished()));
            main.send(mailbox, 7).unwrap();
            main.send(mailbox, 7).unwrap();
            assert!(received.into_iter().all(|thread| thread.join().unwrap() == Ok(7)));
        });
        assert_eq!((board.owed(mailbox), main.recv_poll(mailbox)), (Ok(0), Ok(None)));
    });
}

#[test]
fn a_poll_sees_what_was_sent_before() {
    without_a_hang(|| {
        for _ in 0..200 {
            let board = Switchboard::new(MANY).unwrap();
            let [mut main, mut other] = seats(&board);
            let mailbox = main.mailbox::<i32>().unwrap();
            main.send(mailbox, 1).unwrap();
            thread::scope(|scope| {
                scope.spawn(move || assert_eq!(other.recv_poll(mailbox), Ok(Some(1))));
                drop(main);
            });
        }
    });
}

#[test]
fn multi_consumer() {
    const NUMBERS: [u64; 10] = [2, 3, 7, 11, 13, 17, 19, 23, 27, 31];
    const COUNT: usize = 1_000;
    without_a_hang(|| {
        let board = Switchboard::new(MANY).unwrap();
        let [mut main] = seats(&board);
        let (work, done) = (main.mailbox::<u64>().unwrap(), main.mailbox::<u64>().unwrap());
        thread::scope(|scope| {
            for mut seat in seats::<_, 23>(&board) {
                scope.spawn(move || {
                    while let Ok(number) = seat.recv(work) {
                        seat.send(done, number).unwrap();
                    }
                });
            }
            let sent: Vec<_> = NUMBERS.into_iter().cycle().take(COUNT).collect();
            for number in &sent {
                main.send(work, number).unwrap();
            }
            let received: Vec<_> = main.iter(done).take(COUNT).collect();
            assert_eq!(received.iter().sum::<u64>(), sent.iter().sum());
            // Once this seat has left, each worker's call fails with `Stalled`.
            drop(main);
        });
        assert_eq!((board.owed(work), board.owed(done)), (Ok(0), Ok(0)));
    });
}

#[test]
fn ten_receivers() {
    const COUNT: usize = 1_000;
    without_a_hang(|| {
        let board = Switchboard::new(MANY).unwrap();
        let [mut sender] = seats(&board);
        let mailbox = sender.mailbox::<u64>().unwrap();
        thread::scope(|scope| {
            let receivers: Vec<_> = seats::<_, 10>(&board)
                .into_iter()
                .map(|mut seat| scope.spawn(move || seat.iter(mailbox).collect::<Vec<_>>()))
                .collect();
            (0..COUNT as u64).for_each(|number| sender.send(mailbox, number).unwrap());
            drop(sender);
            let mut received: Vec<_> =
                receivers.into_iter().flat_map(|thread| thread.join().unwrap()).collect();
            received.sort_unstable();
            assert!(received.into_iter().eq(0..COUNT as u64));
        });
        assert_eq!(board.seat().unwrap().recv(mailbox), Err(Error::Stalled));
    });
}
