//! Switchboards that cut full journals.

use seryugo::{Bytes, Error, MessageKind, Numbers, Switchboard, WhenFull};
use std::future::Future;
use std::io::{self, ErrorKind};
use std::panic::{self, AssertUnwindSafe};
use std::pin::pin;
use std::sync::atomic::{AtomicBool, AtomicU64, Ordering};
use std::sync::{mpsc, Arc, Mutex};
use std::task::{Context, Poll, Waker};
use std::thread;
use std::time::Duration;

type Text = Arc<Mutex<Vec<u8>>>;

/// A sink that appends to a text, and what it appends to.
fn text_sink<R: MessageKind>() -> (WhenFull<R>, Text) {
    let text = Text::default();
    let kept = text.clone();
    (WhenFull::call(move |journal| journal.write_to(&mut *kept.lock().unwrap())), text)
}

/// Fails while the disk is full.
fn disk(is_full: &AtomicBool) -> io::Result<()> {
    match is_full.load(Ordering::Relaxed) {
        true => Err(ErrorKind::StorageFull.into()),
        false => Ok(()),
    }
}

/// How many entries a whole, lawful journal has.
fn entries_of<R: MessageKind>(text: &[u8]) -> u64 {
    Switchboard::<R>::restore(text, 1_000).unwrap().entries()
}

#[test]
fn no_call_is_refused_for_a_full_journal_by_seats_lanes_and_feeds() {
    const EACH: u64 = 500;
    let (sink, text) = text_sink::<Numbers>();
    let board = Switchboard::of_numbers(7).unwrap().when_full(sink);
    let (mut ann, mut ben) = (board.seat().unwrap(), board.seat().unwrap());
    let mailbox = ann.mailbox::<u64>().unwrap();
    let channel = ann.channel::<u64>().unwrap();
    let mut feed = board.feed(channel, 64).unwrap();
    let mut lane = board.lane(mailbox, 64).unwrap();
    let number = lane.number();
    thread::scope(|scope| {
        scope.spawn(move || {
            for message in 0..EACH {
                ann.send(mailbox, message).unwrap();
                ann.multicast(channel, message).unwrap();
            }
        });
        scope.spawn(move || {
            for message in EACH..2 * EACH {
                while lane.send(message).is_err() {
                    lane.drain().unwrap();
                }
            }
            lane.close().unwrap();
        });
        let board = &board;
        scope.spawn(move || {
            let mut next = 0;
            while next < EACH {
                feed.pump().unwrap();
                while let Some(message) = feed.recv().unwrap() {
                    assert_eq!(message, next);
                    next += 1;
                }
            }
        });
        scope.spawn(move || {
            let mut sum = 0;
            for _ in 0..2 * EACH {
                let _ = board.drain(number);
                sum += ben.recv(mailbox).unwrap();
            }
            assert_eq!(sum, EACH * (2 * EACH - 1));
        });
    });
    board.keep().unwrap();
    assert_eq!(board.entries(), board.cut_at());
    assert_eq!(entries_of::<Numbers>(&text.lock().unwrap()), board.entries());
}

#[test]
fn a_drain_goes_on_behind_a_full_journal() {
    let (sink, text) = text_sink::<Bytes>();
    let board = Switchboard::new(3).unwrap().when_full(sink);
    let mailbox = board.seat().unwrap().mailbox::<String>().unwrap();
    let mut lane = board.lane(mailbox, 100).unwrap();
    for number in 0..100 {
        lane.send(format!("message {number}")).unwrap();
    }
    assert_eq!(lane.drain(), Ok(100));
    lane.close().unwrap();
    board.keep().unwrap();
    assert_eq!(entries_of::<Bytes>(&text.lock().unwrap()), 101);
}

#[test]
fn a_dropped_lane_moves_what_the_journal_has_room_for_while_nobody_takes_the_entries() {
    let (fills, text) = (Arc::new(AtomicBool::new(false)), Text::default());
    let (is_full, kept) = (fills.clone(), text.clone());
    let board = Switchboard::of_numbers(3).unwrap().when_full(WhenFull::call(move |journal| {
        disk(&is_full)?;
        journal.write_to(&mut *kept.lock().unwrap())
    }));
    let mailbox = board.seat().unwrap().mailbox::<u64>().unwrap();
    let mut lane = board.lane(mailbox, 8).unwrap();
    lane.send(5).unwrap();
    assert_eq!(lane.drain(), Ok(1));
    fills.store(true, Ordering::Relaxed);
    assert_eq!(board.keep(), Err(Error::NotKept));
    for number in 6..10 {
        lane.send(number).unwrap();
    }
    drop(lane);
    assert_eq!((board.lost(), board.owed(mailbox)), (1, Ok(4)));
    fills.store(false, Ordering::Relaxed);
    board.keep().unwrap();
    assert_eq!(entries_of::<Numbers>(&text.lock().unwrap()), 5);
}

#[test]
fn a_sink_that_fails_refuses_calls_and_loses_nothing() {
    let text = Text::default();
    let (kept, calls) = (text.clone(), AtomicU64::new(0));
    let sink = WhenFull::call(move |journal| match calls.fetch_add(1, Ordering::Relaxed) % 3 {
        0 => journal.write_to(&mut *kept.lock().unwrap()),
        1 => Err(ErrorKind::StorageFull.into()),
        _ => Err(io::Error::other("the disk is away")),
    });
    let board = Switchboard::of_numbers(2).unwrap().when_full(sink);
    let mut seat = board.seat().unwrap();
    let mailbox = seat.mailbox::<u64>().unwrap();
    let (mut sent, mut refused) = (0, 0);
    while sent < 50 {
        match seat.send(mailbox, sent) {
            Ok(()) => sent += 1,
            Err(unsent) => {
                assert_eq!((unsent.error, unsent.message), (Error::NotKept, sent));
                assert!(board.keeping_error().is_some());
                refused += 1;
            }
        }
    }
    assert!(refused > 20);
    for number in 0..sent {
        let received = loop {
            match seat.recv_poll(mailbox) {
                Err(Error::NotKept) => {}
                received => break received,
            }
        };
        assert_eq!(received, Ok(Some(number)));
    }
    while board.keep().is_err() {}
    assert_eq!(entries_of::<Numbers>(&text.lock().unwrap()), 101);
}

#[test]
fn a_call_that_waits_is_answered_while_nobody_takes_the_entries() {
    let board = Switchboard::of_numbers(2)
        .unwrap()
        .when_full(WhenFull::call(|_| Err(ErrorKind::StorageFull.into())));
    let (mut ann, mut ben) = (board.seat().unwrap(), board.seat().unwrap());
    let mailbox = ann.mailbox::<u64>().unwrap();
    let mut context = Context::from_waker(Waker::noop());
    let mut received = pin!(ben.recv_async(mailbox));
    assert_eq!(received.as_mut().poll(&mut context), Poll::Pending);
    ann.send(mailbox, 5).unwrap();
    assert_eq!(ann.send(mailbox, 6).unwrap_err().error, Error::NotKept);
    assert_eq!(received.as_mut().poll(&mut context), Poll::Ready(Ok(5)));
    assert_eq!(ann.recv_poll(mailbox), Err(Error::NotKept));
}

#[test]
fn what_one_sink_refused_goes_to_the_next() {
    let board = Switchboard::of_numbers(5)
        .unwrap()
        .when_full(WhenFull::call(|_| Err(ErrorKind::StorageFull.into())));
    board.seat().unwrap().mailbox::<u64>().unwrap();
    assert_eq!(board.keep(), Err(Error::NotKept));
    let (sink, text) = text_sink();
    let board = board.when_full(sink);
    board.seat().unwrap().mailbox::<u64>().unwrap();
    board.keep().unwrap();
    assert_eq!(entries_of::<Numbers>(&text.lock().unwrap()), 2);
}

#[test]
fn a_call_that_waits_fails_with_not_kept_once_the_journal_has_no_room() {
    let fills = Arc::new(AtomicBool::new(false));
    let is_full = fills.clone();
    let board =
        Switchboard::of_numbers(1).unwrap().when_full(WhenFull::call(move |_| disk(&is_full)));
    let (mut ann, mut ben, mut carl) =
        (board.seat().unwrap(), board.seat().unwrap(), board.seat().unwrap());
    let (mailbox, other) = (ann.mailbox::<u64>().unwrap(), ann.mailbox::<u64>().unwrap());
    board.keep().unwrap();
    fills.store(true, Ordering::Relaxed);
    let mut context = Context::from_waker(Waker::noop());
    let (mut received, mut refused) = (pin!(ben.recv_async(mailbox)), pin!(carl.recv_async(other)));
    assert_eq!(received.as_mut().poll(&mut context), Poll::Pending);
    assert_eq!(refused.as_mut().poll(&mut context), Poll::Pending);
    ann.send(mailbox, 5).unwrap();
    assert_eq!(received.as_mut().poll(&mut context), Poll::Ready(Ok(5)));
    assert_eq!(refused.as_mut().poll(&mut context), Poll::Ready(Err(Error::NotKept)));
}

#[test]
fn a_sink_that_panics_loses_nothing() {
    let text = Text::default();
    let (kept, calls) = (text.clone(), AtomicU64::new(0));
    let board = Switchboard::of_numbers(1).unwrap().when_full(WhenFull::call(move |journal| {
        assert!(calls.fetch_add(1, Ordering::Relaxed) != 0, "the first time it panics");
        journal.write_to(&mut *kept.lock().unwrap())
    }));
    let mut seat = board.seat().unwrap();
    let mailbox = seat.mailbox::<u64>().unwrap();
    let panicked = thread::scope(|scope| scope.spawn(|| board.keep()).join().is_err());
    assert!(panicked);
    seat.send(mailbox, 5).unwrap();
    board.keep().unwrap();
    assert_eq!(entries_of::<Numbers>(&text.lock().unwrap()), 2);
}

#[test]
fn a_dropped_lane_is_closed_if_the_sink_panics() {
    let calls = AtomicU64::new(0);
    let board = Switchboard::of_numbers(1).unwrap().when_full(WhenFull::call(move |_| {
        assert_ne!(calls.fetch_add(1, Ordering::Relaxed), 0, "the first time it panics");
        Ok(())
    }));
    let mailbox = board.seat().unwrap().mailbox::<u64>().unwrap();
    let mut lane = board.lane(mailbox, 4).unwrap();
    lane.send(5).unwrap();
    drop(lane);
    assert_eq!((board.lost(), board.owed(mailbox), board.cut()), (0, Ok(1), Ok(())));
}

#[test]
fn a_sink_that_panics_in_a_call_that_waits_hands_on_its_wake() {
    let board = Switchboard::of_numbers(4).unwrap().when_full(WhenFull::call(|_| {
        assert_ne!(thread::current().name(), Some("ben"), "the sink panics in one thread");
        Err(ErrorKind::StorageFull.into())
    }));
    let (mut ann, mut ben, mut carl) =
        (board.seat().unwrap(), board.seat().unwrap(), board.seat().unwrap());
    let mailbox = ann.mailbox::<u64>().unwrap();
    assert_eq!(board.keep(), Err(Error::NotKept));
    let mut context = Context::from_waker(Waker::noop());
    thread::scope(|scope| {
        let waits = thread::Builder::new().name("ben".to_string());
        let waits = waits.spawn_scoped(scope, || {
            let panicked = panic::catch_unwind(AssertUnwindSafe(|| ben.recv(mailbox))).is_err();
            assert!(panicked);
            drop(ben);
        });
        thread::sleep(Duration::from_millis(200));
        let mut received = pin!(carl.recv_async(mailbox));
        assert_eq!(received.as_mut().poll(&mut context), Poll::Pending);
        ann.send(mailbox, 5).unwrap();
        waits.unwrap().join().unwrap();
        assert_eq!(received.as_mut().poll(&mut context), Poll::Ready(Ok(5)));
    });
}

#[test]
fn a_seat_goes_on_behind_a_call_that_waited_and_whose_sink_panicked() {
    let calls = AtomicU64::new(0);
    let board = Switchboard::of_numbers(1).unwrap().when_full(WhenFull::call(move |_| {
        assert_ne!(calls.fetch_add(1, Ordering::Relaxed), 1, "the second time it panics");
        Ok(())
    }));
    let (mut ann, mut ben) = (board.seat().unwrap(), board.seat().unwrap());
    let mailbox = ann.mailbox::<u64>().unwrap();
    board.keep().unwrap();
    thread::scope(|scope| {
        let waits = scope.spawn(move || {
            let panicked = panic::catch_unwind(AssertUnwindSafe(|| ben.recv(mailbox))).is_err();
            (panicked, ben.recv(mailbox))
        });
        thread::sleep(Duration::from_millis(50));
        ann.send(mailbox, 5).unwrap();
        assert_eq!(waits.join().unwrap(), (true, Ok(5)));
    });
}

#[test]
fn a_thread_takes_the_entries() {
    let (sender, journals) = mpsc::channel();
    let taker = WhenFull::give(move |journal| sender.send(journal).map_err(|unsent| unsent.0));
    let board = Switchboard::of_numbers(10).unwrap().when_full(taker);
    let mut seat = board.seat().unwrap();
    let taker = thread::spawn(move || {
        let mut text = Vec::new();
        for journal in journals {
            journal.write_to(&mut text).unwrap();
        }
        text
    });
    let mailbox = seat.mailbox::<u64>().unwrap();
    for number in 0..100 {
        seat.send(mailbox, number).unwrap();
    }
    drop(seat);
    board.keep().unwrap();
    drop(board);
    assert_eq!(entries_of::<Numbers>(&taker.join().unwrap()), 101);
}

#[test]
fn a_switchboard_refuses_again_if_it_is_to() {
    let board =
        Switchboard::of_numbers(1).unwrap().when_full(WhenFull::Drop).when_full(WhenFull::Refuse);
    let mut seat = board.seat().unwrap();
    let mailbox = seat.mailbox::<u64>().unwrap();
    assert_eq!(seat.send(mailbox, 5).unwrap_err().error, Error::JournalFull);
    assert_eq!(board.keep(), Ok(()));
    assert_eq!(board.cut_at(), 0);
}

#[test]
fn a_cut_drops_entries_that_the_sink_refuses() {
    let sink = WhenFull::call(|_| Err(ErrorKind::StorageFull.into()));
    let board = Switchboard::new(2).unwrap().when_full(sink);
    let mut seat = board.seat().unwrap();
    let mailbox = seat.mailbox::<Vec<u8>>().unwrap();
    seat.send(mailbox, vec![0]).unwrap();
    for _ in 0..3 {
        assert_eq!(seat.send(mailbox, vec![1]).unwrap_err().error, Error::NotKept);
    }
    board.cut().unwrap();
    seat.send(mailbox, vec![1]).unwrap();
    assert_eq!((board.owed(mailbox), board.cut_at()), (Ok(2), 2));
}

/// A line of a text has room for a message of this many bytes of any kind.
const MOST: usize = 1_398_000;

#[test]
fn a_message_that_no_sink_could_write_is_refused_as_it_is_sent() {
    let (sink, text) = text_sink::<Bytes>();
    let board = Switchboard::new(2).unwrap().when_full(sink);
    let mut seat = board.seat().unwrap();
    let mailbox = seat.mailbox::<Vec<u8>>().unwrap();
    let mut lane = board.lane(mailbox, 8).unwrap();
    let refused = seat.send(mailbox, vec![0xFF; MOST + 1]).unwrap_err();
    assert_eq!((refused.error, refused.message.len()), (Error::TooLong, MOST + 1));
    let refused = lane.send(refused.message).unwrap_err();
    assert_eq!((refused.error, refused.message.len()), (Error::TooLong, MOST + 1));
    let refused = seat.mvar_init(refused.message).unwrap_err();
    assert_eq!((refused.error, refused.message.len()), (Error::TooLong, MOST + 1));
    assert_eq!((lane.drain(), board.entries()), (Ok(0), 1));
    seat.send(mailbox, vec![0xFF; MOST]).unwrap();
    lane.send(vec![0xFE; MOST]).unwrap();
    lane.close().unwrap();
    board.keep().unwrap();
    let again: Switchboard = Switchboard::restore(&text.lock().unwrap()[..], 10).unwrap();
    let (mut seat, mailbox) = (again.seat().unwrap(), again.mailbox::<Vec<u8>>(0).unwrap());
    assert_eq!(seat.recv(mailbox), Ok(vec![0xFF; MOST]));
    assert_eq!(seat.recv(mailbox), Ok(vec![0xFE; MOST]));
}

#[test]
fn both_messages_of_a_swap_count_for_a_sink() {
    let (taken, journals) = mpsc::channel();
    let taker = WhenFull::give(move |journal| taken.send(journal).map_err(|unsent| unsent.0));
    let board = Switchboard::new(1).unwrap().when_full(taker);
    let (mut ann, mut ben) = (board.seat().unwrap(), board.seat().unwrap());
    let variable = ann.mvar::<Vec<u8>>().unwrap();
    {
        let mut waits = pin!(ann.swap_async(variable, [5].as_slice()));
        let mut context = Context::from_waker(Waker::noop());
        assert!(waits.as_mut().poll(&mut context).is_pending());
        ben.put(variable, vec![0xFF; MOST]).unwrap();
        let Poll::Ready(Err(refused)) = waits.as_mut().poll(&mut context) else {
            panic!("a swap is refused that waited");
        };
        assert_eq!((refused.error, refused.message), (Error::TooLong, [5].as_slice()));
    }
    let refused = ben.swap(variable, [5].as_slice()).unwrap_err();
    assert_eq!((refused.error, refused.message), (Error::TooLong, [5].as_slice()));
    assert_eq!((board.entries(), board.held(variable).unwrap().unwrap().len()), (2, MOST));
    assert_eq!(ann.swap(variable, [].as_slice()).unwrap().len(), MOST);
    assert!(ben.swap(variable, vec![0xFF; MOST]).unwrap().is_empty());
    board.keep().unwrap();
    assert_eq!(journals.try_iter().map(|journal| journal.len()).sum::<usize>(), 4);
}

#[test]
fn without_a_sink_no_text_limits_messages() {
    for when_full in [WhenFull::Drop, WhenFull::Refuse] {
        let board = Switchboard::new(10).unwrap().when_full(when_full);
        let mut seat = board.seat().unwrap();
        let mailbox = seat.mailbox::<Vec<u8>>().unwrap();
        let mut lane = board.lane(mailbox, 8).unwrap();
        seat.send(mailbox, vec![0xFF; MOST + 1]).unwrap();
        lane.send(vec![0xFF; MOST + 1]).unwrap();
        lane.close().unwrap();
        let variable = seat.mvar_init(vec![0xFF; MOST + 1]).unwrap();
        assert_eq!(seat.swap(variable, vec![0xFF; MOST + 1]).unwrap().len(), MOST + 1);
        assert_eq!(board.entries(), 5);
    }
}
