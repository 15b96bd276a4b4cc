//! Lanes and feeds in an exploration.

use crate::programs::{seat, Board};
use seryugo::explore::{self, again, explore, End, Found, Strategy};
use seryugo::{Numbers, OwnedLane};

const MARK: u64 = 99;

/// A program with a bug: every way finds it, its schedule leads there again, and its journal too.
fn found(program: impl Fn(&Board)) -> Found {
    let found = found_again(&program);
    let bad = found.bad().unwrap();
    for _ in 0..20 {
        let reran = bad.rerun(&program).unwrap();
        assert!(reran.is_same(), "{bad}\n{reran}");
    }
    found
}

/// Every way finds it, and its schedule leads there again.
fn found_again(program: impl Fn(&Board)) -> Found {
    let found = explore(Strategy::every(), 10_000, &program);
    println!("{found}");
    assert_eq!(found.beside(), None);
    let bad = found.bad().expect("a bug");
    let once_more = again(bad.schedule(), &program);
    let same = once_more.bad().expect("the same");
    assert_eq!((same.end(), same.journal()), (bad.end(), bad.journal()));
    for way in [
        Strategy::every_plainly(),
        Strategy::random(1),
        Strategy::priorities(1, 3),
    ] {
        let other = explore(way, 10_000, &program);
        assert!(!other.is_clean(), "{other}");
        let end = other.bad().unwrap();
        assert_eq!(again(end.schedule(), &program).bad().expect("the same").end(), end.end());
    }
    found
}

/// It ends by a panic that says this.
fn panics(program: impl Fn(&Board), says: &str) {
    let found = found(program);
    let End::Panicked { message, .. } = found.bad().unwrap().end() else {
        panic!("{found}")
    };
    assert!(message.contains(says), "{message}");
}

/// No order ends badly, and these are the runs of every order, and plainly.
fn clean(program: impl Fn(&Board), runs: u64, plain_runs: u64) {
    let found = explore(Strategy::every(), 100_000, &program);
    println!("{found}");
    assert!(found.is_clean() && found.is_whole() && found.beside().is_none(), "{found}");
    let plainly = explore(Strategy::every_plainly(), 100_000, &program);
    assert!(plainly.is_clean() && plainly.is_whole(), "{plainly}");
    assert_eq!((found.runs(), plainly.runs()), (runs, plain_runs));
    for way in [Strategy::random(3), Strategy::priorities(3, 3)] {
        let some = explore(way, 300, &program);
        assert!(some.is_clean() && !some.is_whole(), "{some}");
    }
}

fn lane(board: &Board, capacity: usize) -> (OwnedLane<Numbers, u64>, seryugo::Mailbox<u64>) {
    let letters = seat(board).mailbox().unwrap();
    (board.lane_owned(letters, capacity).unwrap(), letters)
}

/// The one that sends by a lane says so to another one, which sends the mark. If the lane is still
/// open then, its letters come too late.
fn marks(board: &Board, closes_first: bool) {
    let (mut lane, letters) = lane(board, 4);
    let (mut teller, mut marker, mut reader) = (seat(board), seat(board), seat(board));
    let told = teller.mailbox().unwrap();
    explore::scope(|threads| {
        threads.spawn(move || {
            lane.send(1).unwrap();
            lane.send(2).unwrap();
            if closes_first {
                lane.close().unwrap();
                teller.send(told, 0).unwrap();
            } else {
                teller.send(told, 0).unwrap();
                lane.close().unwrap();
            }
        });
        threads.spawn(move || {
            marker.recv(told).unwrap();
            marker.send(letters, MARK).unwrap();
        });
        let received: Vec<u64> = reader.iter(letters).take(3).collect();
        assert_eq!(received, [1, 2, MARK], "the mark came too early");
    });
}

#[test]
fn a_mark_that_overtakes_a_lane() {
    panics(|board| marks(board, false), "the mark came too early");
}

#[test]
fn a_mark_after_the_lane_is_closed() {
    clean(|board| marks(board, true), 4, 10);
}

/// One sends by a lane, one drains it, and one reads what it was told of. The lane is closed last.
fn drains(board: &Board, tells_after: bool) {
    let (mut lane, letters) = lane(board, 4);
    let number = lane.number();
    let (mut sends, mut drains, mut reads) = (seat(board), seat(board), seat(board));
    let (sent, told) = (sends.mailbox().unwrap(), sends.mailbox().unwrap());
    let sender = &mut lane;
    explore::scope(|threads| {
        threads.spawn(move || {
            sender.send(5).unwrap();
            sends.send(sent, 0).unwrap();
            if !tells_after {
                sends.send(told, 0).unwrap();
            }
        });
        threads.spawn(move || {
            drains.recv(sent).unwrap();
            assert_eq!(board.drain(number), Ok(1));
            if tells_after {
                drains.send(told, 0).unwrap();
            }
        });
        reads.recv(told).unwrap();
        assert_eq!(reads.recv_poll(letters), Ok(Some(5)), "it isn't drained yet");
    });
    lane.close().unwrap();
}

#[test]
fn a_reader_that_counts_on_the_drain_of_another() {
    panics(|board| drains(board, false), "it isn't drained yet");
}

#[test]
fn a_reader_that_hears_of_the_drain() {
    clean(|board| drains(board, true), 1, 1);
}

/// A lane with one slot, which another thread drains.
#[test]
fn a_lane_that_may_be_full() {
    let program = |board: &Board| {
        let (mut lane, _) = lane(board, 1);
        let number = lane.number();
        explore::scope(|threads| {
            threads.spawn(move || {
                lane.send(1).unwrap();
                assert!(lane.send(2).is_ok(), "the lane is full");
            });
            threads.spawn(move || drop(board.drain(number)));
        });
    };
    let found = found_again(program);
    // No entry says that it was full.
    let reran = found.bad().unwrap().rerun(program).unwrap();
    assert!(reran.is_followed() && reran.beside().is_some(), "{reran}");
}

/// A lane that is dropped is drained there.
#[test]
fn a_lane_that_is_dropped() {
    let program = |board: &Board| {
        let (mut lane, letters) = lane(board, 4);
        let mut reads = seat(board);
        explore::scope(|threads| {
            threads.spawn(move || {
                lane.send(1).unwrap();
                drop(lane);
            });
            assert_eq!(reads.recv_poll(letters), Ok(None), "it came early");
        });
        assert_eq!(board.lost(), 0);
    };
    panics(program, "it came early");
}

/// While a lane is open no call fails as stalled.
#[test]
fn an_open_lane_that_hides_a_stall() {
    let program = |board: &Board| {
        let (mut lane, letters) = lane(board, 4);
        lane.send(1).unwrap();
        seat(board).recv(letters).unwrap();
    };
    let found = found(program);
    let End::Stalled {
        fails_as_stalled,
        waits,
        ..
    } = found.bad().unwrap().end()
    else {
        panic!("{found}")
    };
    assert_eq!((*fails_as_stalled, waits.len()), (false, 1), "{found}");
    assert!(found.to_string().contains("a lane is open"), "{found}");
}

/// One multicasts and says so, by a seat or on a lane. The other one pumps.
fn feeds(board: &Board, tells_after: bool) {
    let mut main = seat(board);
    let (channel, told) = (main.channel().unwrap(), main.mailbox().unwrap());
    let mut feed = board.feed_owned(channel, 4).unwrap();
    let mut lane = board.lane_owned(channel, 4).unwrap();
    let mut sends = seat(board);
    explore::scope(|threads| {
        threads.spawn(move || {
            sends.multicast(channel, 1).unwrap();
            lane.send(2).unwrap();
            if tells_after {
                lane.close().unwrap();
                sends.send(told, 0).unwrap();
            } else {
                sends.send(told, 0).unwrap();
                lane.close().unwrap();
            }
        });
        main.recv(told).unwrap();
        assert_eq!(feed.pump(), Ok(2), "it pumps too early");
        assert_eq!((feed.recv(), feed.recv(), feed.recv()), (Ok(Some(1)), Ok(Some(2)), Ok(None)));
    });
}

#[test]
fn a_feed_that_is_pumped_too_early() {
    panics(|board| feeds(board, false), "it pumps too early");
}

#[test]
fn a_feed_that_is_pumped_in_time() {
    clean(|board| feeds(board, true), 1, 1);
}

/// While a feed is open, a call that receives from its port is refused, and doesn't wait.
#[test]
fn a_port_that_a_feed_has() {
    let program = |board: &Board| {
        let mut main = seat(board);
        let channel = main.channel::<u64>().unwrap();
        let feed = board.feed_owned(channel, 4).unwrap();
        let port = feed.port();
        let mut reads = seat(board);
        explore::scope(|threads| {
            threads.spawn(move || drop(feed));
            assert!(reads.recv(port).is_err());
        });
    };
    let found = found(program);
    assert!(matches!(found.bad().unwrap().end(), End::Stalled { .. }), "{found}");
}

#[test]
fn a_loop_that_receives_from_a_feed() {
    let found = explore(Strategy::every(), 10, |board: &Board| {
        let channel = seat(board).channel::<u64>().unwrap();
        let mut feed = board.feed(channel, 4).unwrap();
        while feed.recv().unwrap().is_none() {}
    });
    let End::Endless { last, .. } = found.bad().unwrap().end() else {
        panic!("{found}")
    };
    assert_eq!(last.last().unwrap().to_string(), "thread 0 at feed.recv 0");
}
