//! While somebody will come, no call fails with `Stalled`: guests, and seats that are still to be
//! made.

mod common;

use common::{let_them_wait, without_a_hang, Board, PATIENCE};
use seryugo::{Error, Mailbox, Numbers, OwnedGuest, OwnedSeat, Switchboard, Who};
use std::future::Future;
use std::pin::pin;
use std::sync::atomic::{AtomicU64, Ordering};
use std::sync::Arc;
use std::task::{Context, Poll, Wake, Waker};
use std::thread;
use std::time::{Duration, Instant};

const SHORT: Duration = Duration::from_millis(2);

/// Here waits with a time limit and futures are stalled too, so that they show when somebody is
/// awaited.
fn board() -> Arc<Board> {
    Arc::new(Switchboard::of_numbers(1_000).unwrap().open_waits_stall())
}

/// A switchboard, a seat at it, and a mailbox.
fn seated() -> (Arc<Board>, OwnedSeat<Numbers>, Mailbox<u64>) {
    let board = board();
    let mut seat = board.seat_owned().unwrap();
    let mailbox = seat.mailbox().unwrap();
    (board, seat, mailbox)
}

#[test]
fn a_seat_that_waits_alone_is_stalled() {
    let (_board, mut seat, mailbox) = seated();
    assert_eq!(seat.recv(mailbox), Err(Error::Stalled));
    assert_eq!(seat.recv_timeout(mailbox, PATIENCE), Err(Error::Stalled));
    let mut context = Context::from_waker(Waker::noop());
    let stalled = Poll::Ready(Err(Error::Stalled));
    assert_eq!(pin!(seat.recv_async(mailbox)).poll(&mut context), stalled);
}

#[test]
fn beside_a_guest_a_timed_call_takes_its_time() {
    let (board, mut seat, mailbox) = seated();
    let variable = seat.mvar::<u64>().unwrap();
    let guest = board.hold().unwrap();
    let start = Instant::now();
    for _ in 0..5 {
        assert_eq!(seat.recv_timeout(mailbox, SHORT), Err(Error::TimedOut));
        assert_eq!(seat.get_timeout(variable, SHORT), Err(Error::TimedOut));
        assert_eq!(seat.take_timeout(variable, SHORT), Err(Error::TimedOut));
        let refused = seat.swap_timeout(variable, 5, SHORT).unwrap_err();
        assert_eq!(refused.error, Error::TimedOut);
    }
    assert!(start.elapsed() >= 20 * SHORT);
    drop(guest);
    assert_eq!(seat.recv_timeout(mailbox, SHORT), Err(Error::Stalled));
}

/// A call that waits.
type Wait = Box<dyn FnOnce(OwnedSeat<Numbers>) -> Result<u64, Error> + Send>;

#[test]
fn once_the_last_guest_goes_all_that_wait_are_stalled() {
    without_a_hang(|| {
        let (board, mut seat, mailbox) = seated();
        let (ivar, mvar) = (seat.ivar::<u64>().unwrap(), seat.mvar::<u64>().unwrap());
        let waits: [Wait; 4] = [
            Box::new(move |mut seat| seat.recv(mailbox)),
            Box::new(move |mut seat| seat.get(ivar)),
            Box::new(move |mut seat| seat.take(mvar)),
            Box::new(move |mut seat| Ok(seat.swap(mvar, 5)?)),
        ];
        let guests = [board.hold_owned().unwrap(), board.hold_owned().unwrap()];
        drop(seat);
        let waiters = waits.map(|wait| {
            let seat = board.seat_owned().unwrap();
            thread::spawn(move || wait(seat))
        });
        for guest in guests {
            let_them_wait();
            assert!(!waiters.iter().any(thread::JoinHandle::is_finished));
            drop(guest);
        }
        for waiter in waiters {
            assert_eq!(waiter.join().unwrap(), Err(Error::Stalled));
        }
    });
}

/// Counts how often it is woken.
struct Count(AtomicU64);

impl Wake for Count {
    fn wake(self: Arc<Self>) {
        self.0.fetch_add(1, Ordering::Relaxed);
    }
}

#[test]
fn a_future_waits_for_a_guest() {
    let (board, mut seat, mailbox) = seated();
    let guest = board.hold_owned().unwrap();
    let woken = Arc::new(Count(AtomicU64::new(0)));
    let waker = woken.clone().into();
    let mut context = Context::from_waker(&waker);
    let mut received = pin!(seat.recv_async(mailbox));
    assert_eq!(received.as_mut().poll(&mut context), Poll::Pending);
    assert_eq!(woken.0.load(Ordering::Relaxed), 0);
    drop(guest);
    assert_eq!(woken.0.load(Ordering::Relaxed), 1);
    assert_eq!(received.as_mut().poll(&mut context), Poll::Ready(Err(Error::Stalled)));
}

#[test]
fn the_next_call_is_stalled_once_the_seat_before_has_left() {
    let (board, mut seat, mailbox) = seated();
    let mut other = board.seat_owned().unwrap();
    let guest = board.hold().unwrap();
    let mut context = Context::from_waker(Waker::noop());
    let mut later = Box::pin(async move { other.recv_async(mailbox).await });
    assert_eq!(later.as_mut().poll(&mut context), Poll::Pending);
    let mut first = Box::pin(async move { (seat.recv_async(mailbox).await, seat) });
    assert!(first.as_mut().poll(&mut context).is_pending());
    drop(guest);
    let Poll::Ready((received, seat)) = first.as_mut().poll(&mut context) else {
        panic!("no guest is left");
    };
    assert_eq!(received, Err(Error::Stalled));
    assert_eq!(later.as_mut().poll(&mut context), Poll::Pending);
    drop(seat);
    assert_eq!(later.as_mut().poll(&mut context), Poll::Ready(Err(Error::Stalled)));
}

#[test]
fn each_seat_that_is_made_uses_up_one_that_is_expected() {
    let (board, mut seat, mailbox) = seated();
    board.expect(3).unwrap();
    let comes = |number| board.seat().unwrap().send(mailbox, number).unwrap();
    for number in 0..3 {
        assert_eq!(seat.recv_timeout(mailbox, SHORT), Err(Error::TimedOut));
        comes(number);
        assert_eq!(seat.recv_timeout(mailbox, SHORT), Ok(number));
    }
    assert_eq!(seat.recv_timeout(mailbox, SHORT), Err(Error::Stalled));
    board.expect(1).unwrap();
    drop(board.seat_owned().unwrap());
    assert_eq!(seat.recv(mailbox), Err(Error::Stalled));
}

#[test]
fn lanes_and_feeds_use_up_no_expected_seat() {
    let (board, mut seat, mailbox) = seated();
    let channel = seat.channel::<u64>().unwrap();
    board.expect(1).unwrap();
    board.lane(mailbox, 1).unwrap().close().unwrap();
    drop(board.feed(channel, 1).unwrap());
    assert_eq!(seat.recv_timeout(mailbox, SHORT), Err(Error::TimedOut));
}

#[test]
fn another_number_of_expected_seats_takes_the_place_of_the_one_before() {
    without_a_hang(|| {
        let (board, mut seat, mailbox) = seated();
        board.expect(5).unwrap();
        board.expect(1).unwrap();
        drop(board.seat().unwrap());
        assert_eq!(seat.recv(mailbox), Err(Error::Stalled));
        board.expect(u64::MAX).unwrap();
        let waiter = thread::spawn(move || seat.recv(mailbox));
        let_them_wait();
        board.expect(0).unwrap();
        assert_eq!(waiter.join().unwrap(), Err(Error::Stalled));
    });
}

#[test]
fn a_guest_and_expected_seats_are_awaited_together() {
    let (board, mut seat, mailbox) = seated();
    let guest = board.hold().unwrap();
    board.expect(1).unwrap();
    drop(guest);
    assert_eq!(seat.recv_timeout(mailbox, SHORT), Err(Error::TimedOut));
    let guest = board.hold().unwrap();
    drop(board.seat().unwrap());
    board.expect(0).unwrap();
    assert_eq!(seat.recv_timeout(mailbox, SHORT), Err(Error::TimedOut));
    drop(guest);
    assert_eq!(seat.recv_timeout(mailbox, SHORT), Err(Error::Stalled));
}

#[test]
fn seats_have_the_numbers_that_they_have_without_guests() {
    let board = board();
    let number = || board.seat().unwrap().number();
    let guests = [board.hold().unwrap(), board.hold().unwrap()];
    assert_eq!((number(), number()), (0, 1));
    board.expect(2).unwrap();
    drop(guests);
    assert_eq!((number(), number(), number()), (2, 3, 4));
    // No seat has the number of a guest that has gone before the seat came.
    drop(board.hold().unwrap());
    assert_eq!((number(), number()), (6, 7));
    assert_eq!(board.entries(), 0);
}

#[test]
fn after_a_restore_seats_have_the_next_numbers() {
    let (before, mut seat, mailbox) = seated();
    let guest = before.hold().unwrap();
    seat.send(mailbox, 5).unwrap();
    drop(guest);
    before.seat().unwrap().send(mailbox, 6).unwrap();
    let mut text = Vec::new();
    before.take_journal().unwrap().write_to(&mut text).unwrap();
    let board = Switchboard::<Numbers>::restore(&text[..], 1_000).unwrap();
    let _guest = board.hold().unwrap();
    let mut seats = [board.seat().unwrap(), board.seat().unwrap()];
    // Seat 2 was the last with an entry: number 1 was the guest's.
    assert_eq!([seats[0].number(), seats[1].number()], [3, 4]);
    let mailbox = board.mailbox(0).unwrap();
    assert_eq!([seats[0].recv(mailbox), seats[1].recv(mailbox)], [Ok(5), Ok(6)]);
    let makers = board.take_journal().unwrap().iter().map(|entry| entry.who).collect::<Vec<_>>();
    assert_eq!(makers, [Who::Seat(3), Who::Seat(4)]);
}

#[test]
fn a_short_journal_beside_a_guest_is_read_back() {
    let (board, mut seat, mailbox) = seated();
    seat.send(mailbox, 5).unwrap();
    let guest = board.hold().unwrap();
    let mut text = Vec::new();
    board.compact_and_cut().unwrap().write_to(&mut text).unwrap();
    let mut other = board.seat().unwrap();
    other.send(mailbox, 6).unwrap();
    drop(guest);
    board.take_journal().unwrap().write_to(&mut text).unwrap();
    let restored = Switchboard::<Numbers>::restore(&text[..], 1_000).unwrap();
    let mut seat = restored.seat().unwrap();
    assert!(seat.number() > other.number());
    let mailbox = restored.mailbox(0).unwrap();
    assert_eq!((seat.recv(mailbox), seat.recv(mailbox)), (Ok(5), Ok(6)));
}

#[test]
fn a_guest_goes_anywhere() {
    fn goes_anywhere<T: Send + Sync + 'static>() {}
    goes_anywhere::<OwnedGuest>();
    let board = board();
    let (guest, gone) = (board.hold_owned().unwrap(), Arc::downgrade(&board));
    drop(board);
    assert!(gone.upgrade().is_some());
    thread::spawn(move || drop(guest)).join().unwrap();
    assert!(gone.upgrade().is_none());
}

/// Threads that make their seats late.
#[test]
fn who_is_expected_sends_all_before_a_receiver_is_stalled() {
    const ROUNDS: u64 = 1_000;
    const SENDERS: u64 = 3;
    const COUNT: u64 = 5;
    without_a_hang(|| {
        for round in 0..ROUNDS {
            let (board, mut seat, mailbox) = seated();
            if round % 2 == 0 {
                drop(board.hold().unwrap());
            }
            let mut other = board.seat_owned().unwrap();
            board.expect(SENDERS).unwrap();
            let receiving = thread::spawn(move || other.iter(mailbox).count() as u64);
            for _ in 0..SENDERS {
                let board = board.clone();
                thread::spawn(move || {
                    let mut seat = board.seat_owned().unwrap();
                    (0..COUNT).for_each(|number| seat.send(mailbox, number).unwrap());
                });
            }
            let received = seat.iter(mailbox).count() as u64;
            drop(seat);
            assert_eq!(received + receiving.join().unwrap(), SENDERS * COUNT);
        }
    });
}

/// A guest for each thread that will make a seat.
#[test]
fn a_guest_holds_until_its_thread_has_a_seat() {
    const ROUNDS: u64 = 1_000;
    without_a_hang(|| {
        for round in 0..ROUNDS {
            let (board, mut seat, mailbox) = seated();
            for _ in 0..2 {
                let (board, guest) = (board.clone(), board.hold_owned().unwrap());
                thread::spawn(move || {
                    let mut seat = board.seat_owned().unwrap();
                    drop(guest);
                    seat.send(mailbox, round).unwrap();
                });
            }
            assert_eq!(seat.iter(mailbox).collect::<Vec<_>>(), [round, round]);
        }
    });
}
