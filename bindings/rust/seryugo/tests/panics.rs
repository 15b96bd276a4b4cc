//! Wakers and sinks that panic: each other seat that is due is woken nevertheless.

mod common;

use common::{poll_once, seats};
use seryugo::{Error, Numbers, OwnedSeat, Seat, Switchboard, WhenFull};
use std::future::Future;
use std::panic::{self, AssertUnwindSafe, RefUnwindSafe, UnwindSafe};
use std::pin::{pin, Pin};
use std::sync::atomic::{AtomicU64, Ordering};
use std::sync::Arc;
use std::task::{Context, Poll, Wake, Waker};
use std::thread;
use std::time::Duration;

/// Counts how often it is woken, and may panic then, with its number.
struct Alarm {
    number: usize,
    panics: bool,
    count: AtomicU64,
}

impl Alarm {
    fn new(number: usize, panics: bool) -> Arc<Alarm> {
        Arc::new(Alarm {
            number,
            panics,
            count: AtomicU64::new(0),
        })
    }

    fn count(&self) -> u64 {
        self.count.load(Ordering::Relaxed)
    }
}

impl Wake for Alarm {
    fn wake(self: Arc<Self>) {
        self.count.fetch_add(1, Ordering::Relaxed);
        if self.panics {
            panic::resume_unwind(Box::new(self.number));
        }
    }
}

/// A future that waits, and whose waker is this one.
fn waits_by<F: Future>(future: Pin<&mut F>, alarm: &Arc<Alarm>) {
    let waker = Waker::from(Arc::clone(alarm));
    assert!(future.poll(&mut Context::from_waker(&waker)).is_pending());
}

/// The number of the waker that panicked in this call.
fn panicked_in<T>(call: impl FnOnce() -> T) -> Option<usize> {
    let panicked = panic::catch_unwind(AssertUnwindSafe(call)).err()?;
    panicked.downcast_ref().copied()
}

/// Whichever wakers panic, all are called, and the call that wakes them was made.
#[test]
fn each_waker_is_called_though_others_panic() {
    for panics in 1..8_usize {
        let board = Switchboard::of_numbers(100).unwrap();
        let mut first = board.seat().unwrap();
        let channel = first.channel().unwrap();
        let ports = [(); 3].map(|()| first.port(channel).unwrap());
        let alarms = [0, 1, 2].map(|at| Alarm::new(at, panics >> at & 1 == 1));
        let mut seats = seats(&board, 3);
        let mut futures: Vec<_> = seats
            .iter_mut()
            .zip(ports)
            .map(|(seat, port)| Box::pin(seat.recv_async(port)))
            .collect();
        for (future, alarm) in futures.iter_mut().zip(&alarms) {
            waits_by(future.as_mut(), alarm);
        }
        first.multicast(channel, 7).unwrap();
        assert_eq!(alarms.map(|alarm| alarm.count()), [1; 3]);
        for future in &mut futures {
            assert_eq!(poll_once(future.as_mut()), Poll::Ready(Ok(Some(7))));
        }
    }
}

/// A thread that sleeps is woken first. Its call or the next one wakes the seat whose waker panics.
/// Whichever does, both have their messages.
#[test]
fn a_message_reaches_its_caller_though_another_waker_panics() {
    for _ in 0..10 {
        let board = Switchboard::of_numbers(100).unwrap();
        let (mut ann, mut ben, mut carl) =
            (board.seat().unwrap(), board.seat().unwrap(), board.seat().unwrap());
        let (mailbox, channel) = (ann.mailbox().unwrap(), ann.channel::<u64>().unwrap());
        let (one, other) = (ann.port(channel).unwrap(), ann.port(channel).unwrap());
        ann.send(mailbox, 8).unwrap();
        thread::scope(|scope| {
            let waits = scope.spawn(move || ben.recv(one));
            thread::sleep(Duration::from_millis(100));
            let (mut woken, alarm) = (Box::pin(carl.recv_async(other)), Alarm::new(0, true));
            waits_by(woken.as_mut(), &alarm);
            ann.multicast(channel, 7).unwrap();
            assert_eq!(ann.recv_poll(mailbox), Ok(Some(8)));
            assert_eq!(waits.join().unwrap(), Ok(Some(7)));
            assert_eq!(alarm.count(), 1);
            assert_eq!(poll_once(woken.as_mut()), Poll::Ready(Ok(Some(7))));
        });
    }
}

/// A drain moves a message, and then the sink panics, for which the journal is full.
#[test]
fn a_message_wakes_its_seat_though_the_sink_panics_after_it() {
    let calls = AtomicU64::new(0);
    let board = Switchboard::of_numbers(2).unwrap().when_full(WhenFull::call(move |_| {
        assert_ne!(calls.fetch_add(1, Ordering::Relaxed), 0, "the first time it panics");
        Ok(())
    }));
    let (mut seat, _other) = (board.seat().unwrap(), board.seat().unwrap());
    let mailbox = seat.mailbox::<u64>().unwrap();
    let mut lane = board.lane(mailbox, 4).unwrap();
    for number in 0..4 {
        lane.send(number).unwrap();
    }
    let (mut received, alarm) = (pin!(seat.recv_async(mailbox)), Alarm::new(0, false));
    waits_by(received.as_mut(), &alarm);
    assert!(panic::catch_unwind(AssertUnwindSafe(|| lane.drain())).is_err());
    assert_eq!(alarm.count(), 1);
    assert_eq!(poll_once(received), Poll::Ready(Ok(0)));
    // What moved before the panic is no loss.
    assert_eq!(lane.drain(), Ok(3));
    drop(lane);
    assert_eq!(board.lost(), 0);
}

/// The thread that is woken makes its call again, and the sink panics in it. The thread wakes the
/// next seat though it makes no other call.
#[test]
fn a_thread_in_whose_call_the_sink_panics_wakes_the_next() {
    let board = Switchboard::of_numbers(4).unwrap().when_full(WhenFull::call(|_| {
        assert_ne!(thread::current().name(), Some("ben"), "the sink panics in one thread");
        Ok(())
    }));
    let (mut ann, mut ben, mut carl) =
        (board.seat().unwrap(), board.seat().unwrap(), board.seat().unwrap());
    let channel = ann.channel::<u64>().unwrap();
    let (one, other) = (ann.port(channel).unwrap(), ann.port(channel).unwrap());
    thread::scope(|scope| {
        let waits = thread::Builder::new().name("ben".to_string());
        let waits = waits.spawn_scoped(scope, || {
            assert!(panic::catch_unwind(AssertUnwindSafe(|| ben.recv(one))).is_err());
        });
        thread::sleep(Duration::from_millis(200));
        let (mut received, alarm) = (pin!(carl.recv_async(other)), Alarm::new(0, false));
        waits_by(received.as_mut(), &alarm);
        ann.multicast(channel, 7).unwrap();
        waits.unwrap().join().unwrap();
        assert_eq!(alarm.count(), 1);
        assert_eq!(poll_once(received), Poll::Ready(Ok(Some(7))));
    });
}

/// A second panic would abort the tests.
#[test]
fn a_waker_may_panic_as_a_thread_that_panics_drops_its_seat() {
    let board = Switchboard::of_numbers(100).unwrap().open_waits_stall();
    let (last, mut seats) = (board.seat().unwrap(), seats(&board, 3));
    let mailbox = seats[0].mailbox().unwrap();
    let alarms = [0, 1, 2].map(|at| Alarm::new(at, at == 0));
    let mut futures: Vec<_> =
        seats.iter_mut().map(|seat| Box::pin(seat.recv_async(mailbox))).collect();
    for (future, alarm) in futures.iter_mut().zip(&alarms) {
        waits_by(future.as_mut(), alarm);
    }
    let panicked = panicked_in(move || {
        let _last = last;
        panic::resume_unwind(Box::new(5_usize));
    });
    assert_eq!(panicked, Some(5));
    assert_eq!(alarms.map(|alarm| alarm.count()), [1; 3]);
    assert_eq!(poll_once(futures[0].as_mut()), Poll::Ready(Err(Error::Stalled)));
}

/// A seat that is dropped hands its turn on, and the waker of the other seat panics.
#[test]
fn a_seat_leaves_though_a_waker_panics() {
    let board = Switchboard::of_numbers(100).unwrap().open_waits_stall();
    let (mut ann, mut ben, mut carl) =
        (board.seat().unwrap(), board.seat().unwrap(), board.seat().unwrap());
    let mailbox = ann.mailbox().unwrap();
    let mut forgotten = Box::pin(ben.recv_async(mailbox));
    waits_by(forgotten.as_mut(), &Alarm::new(0, false));
    std::mem::forget(forgotten);
    let mut received = Box::pin(carl.recv_async(mailbox));
    waits_by(received.as_mut(), &Alarm::new(1, true));
    ann.send(mailbox, 7).unwrap();
    drop(ben);
    assert_eq!(poll_once(received.as_mut()), Poll::Ready(Ok(7)));
    drop((received, ann));
    // If a seat were left, this would wait.
    assert_eq!(poll_once(pin!(carl.recv_async(mailbox))), Poll::Ready(Err(Error::Stalled)));
}

/// A panic leaves a switchboard whole, so that nobody who catches one has to assert that it is.
#[test]
fn a_closure_that_panics_may_use_a_switchboard() {
    fn may_be_caught<T: UnwindSafe + RefUnwindSafe>() {}
    may_be_caught::<Switchboard>();
    may_be_caught::<Seat<'_>>();
    may_be_caught::<OwnedSeat<Numbers>>();

    let board = Switchboard::of_numbers(100).unwrap();
    let mailbox = board.seat().unwrap().mailbox::<u64>().unwrap();
    let panicked = panic::catch_unwind(|| {
        board.seat().unwrap().send(mailbox, 5).unwrap();
        panic::resume_unwind(Box::new(()));
    });
    assert!(panicked.is_err());
    assert_eq!(board.seat().unwrap().recv(mailbox), Ok(5));
}
