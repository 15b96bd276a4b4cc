//! Each code of the library at each call that can return it to safe code.
//!
//! `Gone`, `Unseen` and the codes of wrong handles are for programs in C: here the types keep each
//! rule that they tell of.

mod common;

use common::calls::{self, at_once, blocking, past, readers, refusal, timed, Names};
use common::calls::{A_MILLISECOND, CHANNEL, IVAR, MAILBOX, MVAR, PORT};
use common::{block_on, Board, Mailbox};
use seryugo::{Error, Kind, Misfit, Missing, Numbers, Object, RestoreError, Switchboard};
use std::process::Command;
use std::time::Duration;

/// How many objects each switchboard here has.
const OBJECTS: u64 = 5;

/// A switchboard with an object of each kind.
fn board_of_each(limit: u64) -> Board {
    let board = Switchboard::of_numbers(limit).unwrap();
    let mut seat = board.seat().unwrap();
    seat.mailbox().unwrap();
    let channel = seat.channel().unwrap();
    seat.port(channel).unwrap();
    seat.ivar().unwrap();
    seat.mvar().unwrap();
    drop(seat);
    board
}

type Row = calls::Row<Numbers>;

/// The calls that the journal has no room for if it is full.
fn written() -> Vec<Row> {
    let making: [Row; 2] = [
        ("port", |_, seat, names| seat.port(names.channel).map(drop)),
        ("feed", |board, _, names| board.feed(names.channel, 1).map(drop)),
    ];
    making.into_iter().chain(at_once()).chain(timed()).chain(blocking()).collect()
}

/// The calls that write no entry.
fn unwritten() -> Vec<Row> {
    let lanes: [Row; 2] = [
        ("lane", |board, _, names| board.lane(names.mailbox, 1).map(drop)),
        ("lane to a channel", |board, _, names| board.lane(names.channel, 1).map(drop)),
    ];
    lanes.into_iter().chain(readers()).collect()
}

/// A name belongs to its switchboard, also if another one has an object of the same number and
/// kind.
#[test]
fn objects_of_other_boards_are_refused() {
    let other = board_of_each(100);
    let names = Names::of(&other);
    for (call, make) in written().into_iter().chain(unwritten()) {
        for board in [board_of_each(100), Switchboard::of_numbers(100).unwrap()] {
            let mut seat = board.seat().unwrap();
            let entries = board.entries();
            let refused = make(&board, &mut seat, &names).unwrap_err();
            let is_elsewhere = matches!(refused, Error::NoSuch(Missing::Elsewhere(..)));
            assert!(is_elsewhere, "{call}: {refused:?}");
            assert_eq!(board.entries(), entries, "{call}");
        }
    }
    assert_eq!(other.entries(), OBJECTS);
}

/// A restored switchboard is another one, though it has the same objects.
#[test]
fn names_end_with_their_switchboard() {
    let mut text = Vec::new();
    let before = board_of_each(100);
    let names = Names::of(&before);
    before.take_journal().unwrap().write_to(&mut text).unwrap();
    drop(before);
    let board = Board::restore(&text[..], 100).unwrap();
    let mut seat = board.seat().unwrap();
    let elsewhere = Missing::Elsewhere(Kind::Mailbox, MAILBOX);
    assert_eq!(refusal(seat.send(names.mailbox, 7)), Err(Error::NoSuch(elsewhere)));
    assert_ne!(board.mailbox(MAILBOX), Ok(names.mailbox));
    assert_eq!(refusal(seat.send(board.mailbox(MAILBOX).unwrap(), 7)), Ok(()));
}

/// Finds an object of one kind by its number.
type Find = fn(&Board, u64) -> Result<(), Error>;

#[test]
fn objects_are_found_by_number_and_kind() {
    let board = board_of_each(100);
    let finds: [(Kind, Find); 5] = [
        (Kind::Mailbox, |board, number| board.mailbox(number).map(drop)),
        (Kind::Channel, |board, number| board.channel(number).map(drop)),
        (Kind::Port, |board, number| board.port(number).map(drop)),
        (Kind::IVar, |board, number| board.ivar(number).map(drop)),
        (Kind::MVar, |board, number| board.mvar(number).map(drop)),
    ];
    let kinds = finds.map(|(kind, _)| kind);
    for (wanted, find) in finds {
        for (number, is) in (0..OBJECTS).zip(kinds) {
            let expected = match is == wanted {
                true => Ok(()),
                false => Err(Error::WrongKind(Misfit::Kind { number, is, wanted })),
            };
            assert_eq!((find(&board, number), board.kind(number)), (expected, Ok(is)));
        }
        for number in [OBJECTS, u64::MAX] {
            let missing = Error::NoSuch(Missing::Object(number));
            assert_eq!(find(&board, number), Err(missing.clone()));
            assert_eq!(board.kind(number), Err(missing));
        }
    }
}

/// Of these two readers not each object has the count.
#[test]
fn a_count_that_an_object_has_not_is_named() {
    let board = board_of_each(100);
    let names = Names::of(&board);
    let count = |kind, number| Err(Error::NoSuch(Missing::Count(kind, number)));
    assert_eq!(board.got(names.channel), count(Kind::Channel, CHANNEL));
    assert_eq!(board.owed(names.channel), count(Kind::Channel, CHANNEL));
    assert_eq!(board.got(names.ivar), count(Kind::IVar, IVAR));
    assert_eq!(board.owed(names.mvar), count(Kind::MVar, MVAR));
    board.seat().unwrap().close(names.port).unwrap();
    assert_eq!(board.got(names.port), Ok(0));
    assert_eq!(board.owed(names.port), count(Kind::Port, PORT));
}

/// After a cut the call is answered, or would wait.
#[test]
fn a_full_journal_refuses_each_call_that_it_would_have() {
    for (call, make) in written() {
        let board = board_of_each(OBJECTS).open_waits_stall();
        let names = Names::of(&board);
        let mut seat = board.seat().unwrap();
        assert_eq!(make(&board, &mut seat, &names), Err(Error::JournalFull), "{call}");
        assert_eq!(board.entries(), OBJECTS, "{call}");
        board.cut().unwrap();
        assert!(matches!(make(&board, &mut seat, &names), Ok(()) | Err(Error::Stalled)), "{call}");
    }
    for (call, make) in unwritten() {
        let board = board_of_each(OBJECTS);
        let names = Names::of(&board);
        assert_eq!(make(&board, &mut board.seat().unwrap(), &names), Ok(()), "{call}");
    }
}

#[test]
fn a_full_journal_takes_no_new_object() {
    let board = Switchboard::of_numbers(1).unwrap();
    let mut seat = board.seat().unwrap();
    seat.mailbox().unwrap();
    assert_eq!(seat.mailbox(), Err(Error::JournalFull));
    assert_eq!(seat.channel(), Err(Error::JournalFull));
    assert_eq!(seat.ivar(), Err(Error::JournalFull));
    assert_eq!(seat.mvar(), Err(Error::JournalFull));
    assert_eq!(refusal(seat.mvar_init(7)), Err(Error::JournalFull));
}

#[test]
fn each_call_that_waits_alone_is_stalled() {
    let board = board_of_each(100).open_waits_stall();
    let mut seat = board.seat().unwrap();
    let (mailbox, port, ivar, mvar) = (
        board.mailbox(MAILBOX).unwrap(),
        board.port(PORT).unwrap(),
        board.ivar(IVAR).unwrap(),
        board.mvar(MVAR).unwrap(),
    );
    assert_eq!(seat.recv(mailbox), Err(Error::Stalled));
    assert_eq!(seat.recv_timeout(mailbox, Duration::MAX), Err(Error::Stalled));
    assert_eq!(seat.recv_deadline(port, past()), Err(Error::Stalled));
    assert_eq!(block_on(seat.recv_async(port)), Err(Error::Stalled));
    assert_eq!(seat.get(ivar), Err(Error::Stalled));
    assert_eq!(seat.get_timeout(mvar, A_MILLISECOND), Err(Error::Stalled));
    assert_eq!(block_on(seat.get_async(ivar)), Err(Error::Stalled));
    assert_eq!(seat.take(mvar), Err(Error::Stalled));
    assert_eq!(seat.take_timeout(mvar, A_MILLISECOND), Err(Error::Stalled));
    assert_eq!(block_on(seat.take_async(mvar)), Err(Error::Stalled));
    assert_eq!(refusal(seat.swap(mvar, 7)), Err(Error::Stalled));
    assert_eq!(refusal(seat.swap_timeout(mvar, 7, A_MILLISECOND)), Err(Error::Stalled));
    assert_eq!(refusal(block_on(seat.swap_async(mvar, 7))), Err(Error::Stalled));
    assert_eq!(board.entries(), OBJECTS);
}

#[test]
fn nothing_put_and_closed_are_answers() {
    let board = board_of_each(100);
    let mut seat = board.seat().unwrap();
    let (mailbox, port, ivar, mvar) = (
        board.mailbox(MAILBOX).unwrap(),
        board.port(PORT).unwrap(),
        board.ivar(IVAR).unwrap(),
        board.mvar(MVAR).unwrap(),
    );
    assert_eq!((seat.recv_poll(mailbox), seat.recv_poll(port)), (Ok(None), Ok(None)));
    assert_eq!(
        (seat.get_poll(ivar), seat.get_poll(mvar), seat.take_poll(mvar)),
        (Ok(None), Ok(None), Ok(None))
    );
    assert_eq!((board.held(ivar), board.held(mvar)), (Ok(None), Ok(None)));
    assert_eq!(
        (seat.put(ivar, 1), seat.put(ivar, 2), seat.get(ivar)),
        (Ok(true), Ok(false), Ok(1))
    );
    assert_eq!(
        (seat.put(mvar, 3), seat.put(mvar, 4), seat.take(mvar)),
        (Ok(true), Ok(false), Ok(3))
    );
    assert_eq!((seat.close(port), seat.close(port)), (Ok(true), Ok(false)));
    assert_eq!(
        (seat.recv(port), seat.recv_poll(port), seat.copy(port)),
        (Ok(None), Ok(None), Ok(None))
    );
    assert_eq!(
        (seat.recv_timeout(port, Duration::ZERO), block_on(seat.recv_async(port))),
        (Ok(None), Ok(None))
    );
    assert_eq!((board.is_open(port), board.owed(port).err()), (Ok(false), board.owed(port).err()));
}

#[test]
fn limits_and_capacities_have_bounds() {
    for limit in [0, (1 << 32) + 1, u64::MAX] {
        assert_eq!(Switchboard::of_numbers(limit).err(), Some(Error::OutOfBounds));
        assert!(matches!(
            Board::restore(&b"journal 1\nend 0\n"[..], limit),
            Err(RestoreError::OutOfBounds)
        ));
    }
    let board = board_of_each(100);
    let (mailbox, channel) = (board.mailbox(MAILBOX).unwrap(), board.channel(CHANNEL).unwrap());
    for capacity in [0, 1_025, usize::MAX] {
        assert_eq!(board.lane(mailbox, capacity).err(), Some(Error::OutOfBounds));
        assert_eq!(board.feed(channel, capacity).err(), Some(Error::OutOfBounds));
    }
    assert!(board.lane(mailbox, 1_024).is_ok() && board.feed(channel, 1_024).is_ok());
}

#[test]
fn the_port_of_an_open_feed_is_the_feeds_alone() {
    let board = board_of_each(100);
    let mut seat = board.seat().unwrap();
    let channel = board.channel(CHANNEL).unwrap();
    let mut feed = board.feed(channel, 1).unwrap();
    let port = feed.port();
    let misfit = Error::WrongKind(Misfit::Feed(port.number()));
    assert_eq!(seat.recv(port), Err(misfit.clone()));
    assert_eq!(seat.recv_poll(port), Err(misfit.clone()));
    assert_eq!(seat.recv_timeout(port, A_MILLISECOND), Err(misfit.clone()));
    assert_eq!(block_on(seat.recv_async(port)), Err(misfit.clone()));
    assert_eq!(seat.iter(port).error(), None);
    assert_eq!(seat.close(port), Err(misfit));
    assert_eq!((feed.recv(), feed.pump()), (Ok(None), Ok(0)));
    assert_eq!((board.cut(), board.take_journal().err()), (Err(Error::Busy), Some(Error::Busy)));
    drop(feed);
    assert_eq!((seat.close(port), board.cut()), (Ok(true), Ok(())));
}

#[test]
fn a_pump_stops_where_the_journal_is_full() {
    let board = board_of_each(OBJECTS + 4);
    let mut seat = board.seat().unwrap();
    let channel = board.channel(CHANNEL).unwrap();
    let mut feed = board.feed(channel, 8).unwrap();
    seat.multicast(channel, 1).unwrap();
    seat.multicast(channel, 2).unwrap();
    assert_eq!((feed.pump(), feed.pump()), (Ok(1), Err(Error::JournalFull)));
    assert_eq!((feed.recv(), feed.recv()), (Ok(Some(1)), Ok(None)));
}

#[test]
fn a_lane_may_be_full_and_the_journal_too() {
    let board = board_of_each(OBJECTS + 2);
    let mailbox = board.mailbox(MAILBOX).unwrap();
    let mut lane = board.lane(mailbox, 3).unwrap();
    (1..=3).for_each(|message| lane.send(message).unwrap());
    assert_eq!(refusal(lane.send(7)), Err(Error::Full));
    assert_eq!(board.cut(), Err(Error::Busy));
    assert_eq!((lane.drain(), lane.drain()), (Ok(2), Err(Error::JournalFull)));
    assert_eq!(board.drain(lane.number()), Err(Error::JournalFull));
    assert_eq!(board.drain(9), Err(Error::NoSuch(Missing::Lane(9))));
    let number = lane.number();
    let unclosed = lane.close().unwrap_err();
    assert_eq!((unclosed.error(), unclosed.number()), (Error::JournalFull, number));
    let unclosed = unclosed.close().unwrap_err();
    assert_eq!((board.cut(), board.lost()), (Err(Error::Busy), 0));
    assert_eq!(unclosed.abandon(), 1);
    assert_eq!((board.cut(), board.lost()), (Ok(()), 1));
    assert_eq!(board.drain(number), Err(Error::NoSuch(Missing::Lane(number))));
    assert_eq!(board.owed(mailbox), Ok(2));
}

/// An open cut makes room, also for a lane that couldn't be closed. Nothing that it sent is lost.
#[test]
fn a_lane_is_closed_behind_an_open_cut() {
    let board = board_of_each(OBJECTS + 2);
    let mailbox = board.mailbox(MAILBOX).unwrap();
    let channel = board.channel(CHANNEL).unwrap();
    let mut seat = board.seat().unwrap();
    let mut lane = board.lane(mailbox, 8).unwrap();
    (1..=3).for_each(|message| lane.send(message).unwrap());
    let unclosed = lane.close().unwrap_err();
    assert_eq!((unclosed.error(), board.cut()), (Error::JournalFull, Err(Error::Busy)));
    let taken = board.take_journal_open().unwrap();
    assert_eq!((taken.first(), taken.len() as u64), (0, OBJECTS + 2));
    assert!(unclosed.close().is_ok());
    assert_eq!((board.owed(mailbox), board.lost()), (Ok(3), 0));
    let mut feed = board.feed(channel, 8).unwrap();
    seat.multicast(channel, 4).unwrap();
    assert_eq!((feed.pump(), board.cut_open()), (Ok(1), Ok(())));
    seat.multicast(channel, 5).unwrap();
    assert_eq!((feed.pump(), board.cut_at()), (Ok(1), OBJECTS + 6));
    assert_eq!((feed.recv(), feed.recv(), feed.recv()), (Ok(Some(4)), Ok(Some(5)), Ok(None)));
    assert_eq!((1..=3).map(|_| seat.recv(mailbox).unwrap()).collect::<Vec<_>>(), [1, 2, 3]);
}

/// However a lane with messages ends while the journal is full, those that it loses are counted.
#[test]
fn lost_messages_are_counted() {
    fn by_question_mark(board: &Board, mailbox: Mailbox) -> Result<(), Error> {
        let mut lane = board.lane(mailbox, 8)?;
        (0..4).for_each(|message| lane.send(message).unwrap());
        lane.close()?;
        Ok(())
    }

    let board = board_of_each(OBJECTS + 3);
    let mailbox = board.mailbox(MAILBOX).unwrap();
    let mut lane = board.lane(mailbox, 8).unwrap();
    lane.send(0).unwrap();
    drop(lane);
    assert_eq!((board.owed(mailbox), board.lost()), (Ok(1), 0), "there was room for it");
    assert_eq!(by_question_mark(&board, mailbox), Err(Error::JournalFull));
    assert_eq!((board.owed(mailbox), board.lost()), (Ok(3), 2));
    let mut lane = board.lane(mailbox, 8).unwrap();
    (0..5).for_each(|message| lane.send(message).unwrap());
    assert_eq!(board.drain(lane.number()), Err(Error::JournalFull));
    drop(lane);
    assert_eq!((board.owed(mailbox), board.lost()), (Ok(3), 7));
    board.cut().unwrap();
    let mut lane = board.lane(mailbox, 16).unwrap();
    (0..11).for_each(|message| lane.send(message).unwrap());
    assert_eq!(board.drain(lane.number()), Ok(8));
    drop(lane);
    assert_eq!((board.owed(mailbox), board.lost()), (Ok(11), 10), "eight were drained before");
}

#[test]
fn there_is_no_memory_for_so_much() {
    let board = board_of_each(1 << 32);
    for entries in [usize::MAX, usize::MAX / 8, 1 << 50] {
        assert_eq!(board.reserve(entries), Err(Error::NoMemory));
    }
    assert_eq!(board.reserve(1_000), Ok(()));
}

/// Runs the next test in a process with little memory.
#[test]
#[cfg(target_os = "linux")]
fn memory_may_run_out() {
    let this = std::env::current_exe().unwrap();
    let script = format!(
        "ulimit -v 400000 && exec '{}' --ignored --exact --test-threads=1 runs_out_of_memory",
        this.display()
    );
    let ended = Command::new("sh").args(["-c", &script]).output().unwrap();
    assert!(ended.status.success(), "{}", String::from_utf8_lossy(&ended.stdout));
}

/// Takes most of the memory that is left.
fn take_memory() -> Vec<Vec<u8>> {
    const PART: usize = 256 << 10;

    let mut taken = Vec::with_capacity(10_000);
    while taken.len() < taken.capacity() {
        let mut part = Vec::new();
        if part.try_reserve_exact(PART).is_err() {
            break;
        }
        taken.push(part);
    }
    taken
}

#[test]
#[ignore = "memory_may_run_out runs it in its own process"]
fn runs_out_of_memory() {
    let board = board_of_each(1 << 32);
    let mut seat = board.seat().unwrap();
    let mailbox = board.mailbox(MAILBOX).unwrap();
    let mut lane = board.lane(mailbox, 8).unwrap();
    lane.send(1).unwrap();
    let taken = take_memory();
    let refused = loop {
        if let Err(error) = refusal(seat.send(mailbox, 7)) {
            break error;
        }
    };
    assert_eq!(refused, Error::NoMemory);
    let sent = board.sent(mailbox).unwrap();
    assert_eq!(board.entries(), OBJECTS + sent, "what was refused changed nothing");
    let unclosed = lane.close().unwrap_err();
    assert_eq!(unclosed.error(), Error::NoMemory);
    drop(taken);
    unclosed.close().unwrap();
    assert_eq!(
        (seat.send(mailbox, 0), board.sent(mailbox), board.lost()),
        (Ok(()), Ok(sent + 2), 0)
    );
}
