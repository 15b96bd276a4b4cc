//! Lanes and feeds in a rerun.

use crate::patience::PATIENCE;
use crate::programs::{seat, Board};
use seryugo::explore::{rerun, Reran, Rerun};
use seryugo::{Error, Lane, Numbers, Switchboard};
use std::sync::Arc;
use std::thread;
use std::time::{Duration, Instant};

const TIMES: usize = 5;
const EACH: u64 = 200;

/// The journal that a run of the program writes is followed, and ends alike.
fn is_followed(program: impl Fn(&Board)) -> Reran {
    let board = Arc::new(Switchboard::of_numbers(1_000_000).unwrap());
    program(&board);
    let rerun = Rerun::of(&board.take_journal_open().unwrap()).unwrap();
    let first = rerun.run(&program);
    assert!(first.is_followed() && first.panics().is_empty(), "{first}");
    for _ in 1..TIMES {
        assert_eq!(rerun.run(&program), first);
    }
    first
}

/// Two send on lanes, which they drain themselves, and a seat sends too.
fn lanes(board: &Board) {
    let mut main = seat(board);
    let letters = main.mailbox().unwrap();
    let mut sends = seat(board);
    let mut lanes = [
        board.lane(letters, 8).unwrap(),
        board.lane(letters, 3).unwrap(),
    ];
    thread::scope(|threads| {
        for lane in &mut lanes {
            threads.spawn(move || {
                for letter in 0..EACH {
                    while lane.send(letter).is_err() {
                        lane.drain().unwrap();
                    }
                }
                lane.drain().unwrap();
            });
        }
        threads.spawn(move || (0..EACH).for_each(|letter| sends.send(letters, letter).unwrap()));
        let sum: u64 = (0..3 * EACH).map(|_| main.recv(letters).unwrap()).sum();
        assert_eq!(sum, 3 * EACH * (EACH - 1) / 2);
    });
    for lane in lanes {
        lane.close().unwrap();
    }
    assert_eq!(main.recv_poll(letters), Ok(None));
}

#[test]
fn lanes_that_their_threads_drain() {
    assert!(is_followed(lanes).stops().is_empty());
}

/// The one that receives drains the lanes of the others. It polls only what is there: each poll of
/// nothing has an entry, and while the others don't run it would fill the journal.
#[test]
fn lanes_that_another_thread_drains() {
    let reran = is_followed(|board| {
        let mut main = seat(board);
        let letters = main.mailbox().unwrap();
        let lanes = [
            board.lane(letters, 8).unwrap(),
            board.lane(letters, 8).unwrap(),
        ];
        let numbers = [0, 1].map(|at: usize| lanes[at].number());
        thread::scope(|threads| {
            for mut lane in lanes {
                threads.spawn(move || {
                    (0..EACH).for_each(|letter| send_once_there_is_room(&mut lane, letter));
                    lane.close().unwrap();
                });
            }
            let mut left = 2 * EACH;
            while left != 0 {
                // A lane may be closed already.
                for number in numbers {
                    drop(board.drain(number));
                }
                while board.owed(letters).unwrap() != 0 {
                    left -= u64::from(main.recv_poll(letters).unwrap().is_some());
                }
                thread::yield_now();
            }
        });
    });
    assert!(reran.stops().is_empty(), "{reran}");
}

/// Another thread drains the lane. If it never does, this panics.
fn send_once_there_is_room(lane: &mut Lane<'_, Numbers, u64>, letter: u64) {
    let begun = Instant::now();
    while lane.send(letter).is_err() {
        assert!(begun.elapsed() < PATIENCE, "nobody drains the lane");
        thread::yield_now();
    }
}

/// A lane that is dropped moves what it has, also in a rerun in which the entries come later.
#[test]
fn lanes_that_are_dropped() {
    let reran = is_followed(|board| {
        let mut main = seat(board);
        let letters = main.mailbox().unwrap();
        let mut lane = board.lane_owned(letters, 8).unwrap();
        let sender = thread::spawn(move || (0..5).for_each(|letter| lane.send(letter).unwrap()));
        sender.join().unwrap();
        assert_eq!((0..5).map(|_| main.recv(letters).unwrap()).sum::<u64>(), 10);
        assert_eq!(board.lost(), 0);
    });
    assert!(reran.stops().is_empty(), "{reran}");
}

/// The thread of the lane makes a seat's call first whose entry comes later.
#[test]
fn a_lane_does_not_wait_for_its_entry() {
    let journal =
        "journal 1\nseat 0 mailbox: made 0\nseat 0 send 0 1: done\nlane 0 send 0 7: done\n\
        lane 0 send 0 8: done\nseat 0 send 0 2: done\nlane 0 send 0 9: done\nend 6\n";
    let rerun = Rerun::<Numbers>::read(journal.as_bytes()).unwrap();
    let reran = rerun.run(|board| {
        let mut seat = seat(board);
        let letters = seat.mailbox().unwrap();
        let mut lane = board.lane(letters, 1).unwrap();
        (7..10).for_each(|letter| lane.send(letter).unwrap());
        seat.send(letters, 1).unwrap();
        seat.send(letters, 2).unwrap();
        assert_eq!(lane.drain(), Ok(3));
        assert_eq!(board.owed(letters), Ok(5));
        lane.send(10).unwrap();
        let unclosed = lane.close().unwrap_err();
        assert_eq!(unclosed.error(), Error::RerunEnded);
    });
    assert!(reran.is_followed() && reran.panics().is_empty(), "{reran}");
    assert_eq!(reran.stops()[0].to_string(), "lane 0 at send");
}

#[test]
fn a_lane_goes_on_freely() {
    let journal = "journal 1\nseat 0 mailbox: made 0\nlane 0 send 0 7: done\nend 2\n";
    let rerun = Rerun::<Numbers>::read(journal.as_bytes()).unwrap().goes_on();
    let reran = rerun.run(|board| {
        let mut seat = seat(board);
        let letters = seat.mailbox().unwrap();
        let mut lane = board.lane(letters, 1).unwrap();
        lane.send(7).unwrap();
        lane.send(8).unwrap();
        assert_eq!(lane.send(9).unwrap_err().error, Error::Full);
        assert_eq!(lane.drain(), Ok(2));
        lane.send(9).unwrap();
        lane.close().unwrap();
        let received: Vec<u64> = seat.try_iter(letters).collect();
        assert_eq!(received, [7, 8, 9]);
    });
    assert!(reran.is_followed() && reran.panics().is_empty(), "{reran}");
}

#[test]
fn lanes_that_diverge() {
    let journal = "journal 1\nseat 0 mailbox: made 0\nlane 0 send 0 7: done\n\
        lane 0 send 0 8: done\nseat 0 send 0 1: done\nend 4\n";
    for (sent, position, found) in [
        (&[7, 9][..], 2, "lane 0 send 0 9: done"),
        (&[7], 2, "lane 0 leaves"),
    ] {
        let reran = rerun(journal.as_bytes(), |board: &Board| {
            let mut seat = seat(board);
            let letters = seat.mailbox().unwrap();
            let mut lane = board.lane(letters, 8).unwrap();
            let ends: Vec<_> = sent.iter().map(|letter| lane.send(*letter).is_ok()).collect();
            assert!(ends[0]);
            drop(lane);
            let sent = seat.send(letters, 1).map_err(Error::from);
            assert!(matches!(sent, Err(Error::Diverged(_))), "{sent:?}");
        });
        let reran = reran.unwrap();
        let diverged = reran.diverged().unwrap_or_else(|| panic!("{reran}"));
        assert_eq!((diverged.position, &*diverged.found), (position, found));
        assert!(reran.panics().is_empty(), "{reran}");
    }
}

/// One multicasts, and two receive by feeds, of which one has no lane and no seat.
#[test]
fn feeds() {
    let reran = is_followed(|board| {
        let mut main = seat(board);
        let channel = main.channel::<u64>().unwrap();
        let feeds = [
            board.feed(channel, 4).unwrap(),
            board.feed(channel, 300).unwrap(),
        ];
        let mut lane = board.lane(channel, 8).unwrap();
        thread::scope(|threads| {
            for mut feed in feeds {
                threads.spawn(move || {
                    let mut left = 2 * EACH;
                    while left != 0 {
                        if feed.pump().unwrap() == 0 {
                            // Or it may keep the others from the processor, as under valgrind.
                            thread::sleep(Duration::from_micros(100));
                        }
                        while feed.recv().unwrap().is_some() {
                            left -= 1;
                        }
                    }
                });
            }
            threads.spawn(move || {
                for letter in 0..EACH {
                    lane.send(letter).unwrap();
                    lane.drain().unwrap();
                }
                lane.close().unwrap();
            });
            (0..EACH).for_each(|letter| main.multicast(channel, letter).unwrap());
        });
    });
    assert!(reran.stops().is_empty(), "{reran}");
}

/// The thread has a seat too: its pumps of nothing have no entries.
#[test]
fn a_feed_and_a_seat_of_one_thread() {
    let program = |board: &Board| {
        let mut main = seat(board);
        let channel = main.channel::<u64>().unwrap();
        let mut feed = board.feed(channel, 4).unwrap();
        for letter in 0..3 {
            assert_eq!(feed.pump(), Ok(0));
            main.multicast(channel, letter).unwrap();
            main.multicast(channel, letter).unwrap();
            assert_eq!(feed.pump(), Ok(2));
            assert_eq!((feed.recv(), feed.recv()), (Ok(Some(letter)), Ok(Some(letter))));
        }
    };
    let board = Arc::new(Switchboard::of_numbers(1_000).unwrap());
    program(&board);
    let rerun = Rerun::of(&board.take_journal_open().unwrap()).unwrap();
    let reran = rerun.patience(Duration::from_secs(1)).run(program);
    assert!(reran.is_followed() && reran.panics().is_empty(), "{reran}");
}

#[test]
fn a_feed_that_diverges() {
    let journal = "journal 1\nseat 0 channel: made 0\nfeed 0 port 0: made 1\n\
        seat 0 multicast 0 5: done\nfeed 0 recv 1: 5\nend 4\n";
    let reran = rerun(journal.as_bytes(), |board: &Board| {
        let mut main = seat(board);
        let channel = main.channel::<u64>().unwrap();
        let feed = board.feed(channel, 4).unwrap();
        drop(feed);
        assert!(main.multicast(channel, 5).is_err());
    });
    let reran = reran.unwrap();
    let diverged = reran.diverged().unwrap_or_else(|| panic!("{reran}"));
    assert_eq!((diverged.position, &*diverged.found), (3, "feed 0 leaves"));
    let reran = rerun(journal.as_bytes(), |board: &Board| {
        let mut main = seat(board);
        let channel = main.channel::<u64>().unwrap();
        let mut feed = board.feed(channel, 4).unwrap();
        main.multicast(channel, 5).unwrap();
        assert_eq!(feed.pump(), Ok(1));
        assert_eq!(feed.pump(), Err(Error::RerunEnded));
    });
    let reran = reran.unwrap();
    assert!(reran.is_followed() && reran.panics().is_empty(), "{reran}");
    assert_eq!(reran.stops()[0].to_string(), "feed 0 at recv");
}
