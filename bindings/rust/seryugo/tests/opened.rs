//! Switchboards whose journal is kept in a file.

mod common;

use common::{asking, block_on, path_given, poll_once, run_apart, Random, Scratch};
use seryugo::{
    Error, JournalFile, Kind, Message, Misfit, Missing, Numbers, Object, Request, Switchboard,
};
use std::error::Error as _;
use std::fs;
use std::io::{self, ErrorKind};
use std::sync::{Arc, Barrier};
use std::task::Poll;
use std::thread;
use std::time::{Duration, Instant};

#[derive(Debug, PartialEq)]
struct Order {
    apples: u64,
    to: String,
}

impl Message for Order {
    fn write_to(&self, bytes: &mut Vec<u8>) {
        self.apples.write_to(bytes);
        self.to.write_to(bytes);
    }

    fn from_bytes(bytes: &[u8]) -> Option<Order> {
        let (apples, to) = bytes.split_first_chunk()?;
        let to = String::from_bytes(to)?;
        Some(Order {
            apples: u64::from_le_bytes(*apples),
            to,
        })
    }
}

fn order(apples: u64) -> Order {
    let to = "Ann\n %\0".to_string();
    Order { apples, to }
}

#[test]
fn messages_and_objects_are_there_again() {
    let scratch = Scratch::new("again");
    for run in 0..3 {
        let board = Switchboard::open(scratch.path()).unwrap();
        let found = board.recovered().unwrap().clone();
        assert_eq!((found.is_new, found.cut_off, found.saved), (run == 0, 0, None));
        assert_eq!(found.entries, board.entries());
        let mut seat = board.seat().unwrap();
        let orders = seat.mailbox_again::<Order>(0).unwrap();
        let names = seat.channel_again::<String>(1).unwrap();
        let first = seat.ivar_again::<u64>(2).unwrap();
        let last = seat.mvar_again::<String>(3).unwrap();
        assert_eq!(board.owed(orders), Ok(run));
        seat.send(orders, order(run)).unwrap();
        seat.multicast(names, "Ben").unwrap();
        assert_eq!(board.sent(names), Ok(run + 1));
        assert_eq!(seat.put(first, run), Ok(run == 0));
        assert_eq!(seat.get(first), Ok(0));
        let before = seat.take_poll(last).unwrap();
        assert_eq!(before, (run > 0).then(|| format!("run {run}")));
        seat.put(last, format!("run {}", run + 1)).unwrap();
        drop(seat);
        board.close().unwrap();
    }
    let board = Switchboard::open(scratch.path()).unwrap();
    let mut seat = board.seat().unwrap();
    let orders = board.mailbox(0).unwrap();
    assert_eq!([0, 1, 2].map(order), [(); 3].map(|()| seat.recv(orders).unwrap()));
}

#[test]
fn numbers_are_there_again() {
    let scratch = Scratch::new("numbers");
    let options = JournalFile::new().sync_by_hand().grow_by(4096);
    for run in 0..3 {
        let board = options.open_numbers(scratch.path()).unwrap();
        let mut seat = board.seat().unwrap();
        let mailbox = seat.mailbox_again(0).unwrap();
        assert_eq!(board.owed(mailbox), Ok(400 * run));
        (0..400).for_each(|number| seat.send(mailbox, number).unwrap());
        board.sync().unwrap();
        // A drop keeps it all, too.
    }
    assert!(scratch.text().starts_with("journal 1\nseat 0 mailbox: made 0\n"));
    let board = Switchboard::<Numbers>::restore_torn(scratch.text().as_bytes(), 9).unwrap().0;
    assert_eq!(board.entries(), 1201);
}

/// The room takes 65,536 entries between two cuts.
#[test]
fn a_journal_longer_than_its_limit_refuses_no_call() {
    let scratch = Scratch::new("limit");
    let board = Switchboard::open_numbers(scratch.path()).unwrap();
    let mut seat = board.seat().unwrap();
    let mailbox = seat.mailbox_again(0).unwrap();
    for _ in 0..66_000 {
        assert_eq!(seat.recv_poll(mailbox), Ok(None));
    }
    assert_eq!(board.entries(), 66_001);
    drop(seat);
    board.close().unwrap();
    let board = Switchboard::open_numbers(scratch.path()).unwrap();
    assert_eq!(board.recovered().unwrap().entries, 66_001);
}

#[test]
fn an_object_is_found_or_made_by_its_number() {
    let board = Switchboard::new(9).unwrap();
    let mut seat = board.seat().unwrap();
    let missing = |number| Some(Error::NoSuch(Missing::Object(number)));
    assert_eq!(seat.mailbox_again::<u64>(1).err(), missing(0));
    assert_eq!(seat.mvar_again::<u64>(u64::MAX).err(), missing(u64::MAX - 1));
    let mailbox = seat.mailbox_again::<u64>(0).unwrap();
    assert_eq!((seat.mailbox_again(0), board.mailbox(0)), (Ok(mailbox), Ok(mailbox)));
    let channel = seat.channel_again::<u64>(1).unwrap();
    let ivar = seat.ivar_again::<u64>(2).unwrap();
    let mvar = seat.mvar_again::<u64>(3).unwrap();
    assert_eq!((board.channel(1), board.ivar(2), board.mvar(3)), (Ok(channel), Ok(ivar), Ok(mvar)));
    assert_eq!(board.entries(), 4);
    let misfit = |number, is, wanted| Some(Error::WrongKind(Misfit::Kind { number, is, wanted }));
    assert_eq!(seat.mailbox_again::<u64>(3).err(), misfit(3, Kind::MVar, Kind::Mailbox));
    assert_eq!(seat.channel_again::<u64>(0).err(), misfit(0, Kind::Mailbox, Kind::Channel));
    assert_eq!(seat.ivar_again::<u64>(1).err(), misfit(1, Kind::Channel, Kind::IVar));
    assert_eq!(seat.mvar_again::<u64>(2).err(), misfit(2, Kind::IVar, Kind::MVar));
    assert_eq!(board.entries(), 4);
}

#[test]
fn threads_that_make_an_object_at_the_same_time_get_one() {
    const THREADS: usize = 8;

    let scratch = Scratch::new("race");
    for board in [Switchboard::new(100), Switchboard::open(scratch.path())] {
        let (board, barrier) = (board.unwrap(), Barrier::new(THREADS));
        let names: Vec<_> = thread::scope(|scope| {
            let find = || {
                let mut seat = board.seat().unwrap();
                barrier.wait();
                [0, 1, 2].map(|number| seat.mailbox_again::<u64>(number).unwrap().number())
            };
            let threads: Vec<_> = (0..THREADS).map(|_| scope.spawn(find)).collect();
            threads.into_iter().map(|thread| thread.join().unwrap()).collect()
        });
        assert_eq!(names, [[0, 1, 2]; THREADS]);
        assert_eq!(board.entries(), 3);
    }
}

/// A text, and why no switchboard of bytes goes on from it.
fn refused_texts() -> Vec<(&'static str, Error)> {
    vec![
        ("{\"precious\": 1}", Error::NoJournal),
        ("\x7fELF\x02\x01\x01\0\0\0", Error::NoJournal),
        ("a letter\n", Error::NoJournal),
        ("journal 9\nseat 0 mailbox: made 0\n", Error::OtherVersion),
        ("journal 1\nseat 0 mailbox: made 0\n", Error::OtherMessages),
        ("journal 2\nfrom 5\nseat 0 mailbox: made 0\n", Error::BeginsLater),
        ("journal 2\nseat 0 mailbox: made 0\nseat 0 sand 0 =a: done\n", Error::Fault(3)),
        ("journal 2\nseat 0 mailbox: made 0\nseat 0 recv 0: =a\n", Error::Unlawful(1)),
    ]
}

#[test]
fn a_file_that_is_refused_is_left_as_it_was() {
    let scratch = Scratch::new("refused");
    for (text, why) in refused_texts() {
        fs::write(scratch.path(), text).unwrap();
        assert_eq!(Switchboard::open(scratch.path()).err(), Some(why), "{text}");
        assert_eq!(fs::read(scratch.path()).unwrap(), text.as_bytes());
    }
    let text = "journal 2\nseat 0 mailbox: made 0\n";
    fs::write(scratch.path(), text).unwrap();
    assert_eq!(Switchboard::open_numbers(scratch.path()).err(), Some(Error::OtherMessages));
    assert_eq!(scratch.text(), text);
    assert_eq!(fs::read_dir(&scratch.0).unwrap().count(), 1, "nothing lies beside it");
    assert_eq!(Switchboard::open(&scratch.0).err(), Some(Error::NoJournal), "a folder");
    let nowhere = Switchboard::open(scratch.0.join("none/x.journal")).unwrap_err();
    let cause = nowhere.source().unwrap().downcast_ref::<io::Error>().unwrap();
    assert_eq!((cause.kind(), cause.raw_os_error()), (ErrorKind::NotFound, Some(2)), "{nowhere:?}");
    assert!(matches!(nowhere, Error::FileFailed(_)), "{nowhere:?}");
    let unnamed = Switchboard::open("a\0b").unwrap_err().to_string();
    assert_eq!(unnamed, "the system refused the journal's file: the path has a byte 0");
}

#[test]
fn a_line_that_a_kill_cut_short_is_cut_off() {
    let scratch = Scratch::new("torn");
    let whole = "journal 2\nseat 0 mailbox: made 0\n";
    fs::write(scratch.path(), format!("{whole}seat 0 send 0 =a: do\0\0\0")).unwrap();
    let board = Switchboard::open(scratch.path()).unwrap();
    let found = board.recovered().unwrap().clone();
    assert_eq!((found.entries, found.lines), (1, 2));
    assert_eq!((found.kept, found.cut_off, found.is_new), (whole.len() as u64, 20, false));
    board.close().unwrap();
    assert_eq!(scratch.text(), whole);
}

/// A journal of three objects, as text with sums or without, from a switchboard without a file.
fn ended(is_sealed: bool) -> Vec<u8> {
    let board = Switchboard::new(100).unwrap();
    let mut seat = board.seat().unwrap();
    let letters = seat.mailbox::<String>().unwrap();
    let names = seat.channel::<String>().unwrap();
    let runs = seat.mvar_init(7_u64).unwrap();
    for letter in ["Dear Ann", "Dear Ben"] {
        seat.send(letters, letter).unwrap();
        seat.multicast(names, letter).unwrap();
        assert_eq!(seat.swap(runs, 7), Ok(7));
    }
    assert_eq!(seat.recv(letters).unwrap(), "Dear Ann");
    drop(seat);
    let (journal, mut text) = (board.take_journal().unwrap(), Vec::new());
    if is_sealed {
        journal.write_sealed_to(None, &mut text).unwrap();
    } else {
        journal.write_to(&mut text).unwrap();
    }
    text
}

#[test]
fn an_old_file_is_exchanged_for_a_short_one() {
    let scratch = Scratch::new("old");
    for is_sealed in [false, true] {
        let text = ended(is_sealed);
        fs::write(scratch.path(), &text).unwrap();
        let board = Switchboard::open(scratch.path()).unwrap();
        let found = board.recovered().unwrap().clone();
        assert_eq!((found.is_shortened, found.not_shortened), (true, None));
        assert_eq!((found.entries, found.kept), (10, text.len() as u64));
        let mut seat = board.seat().unwrap();
        let letters = seat.mailbox_again::<String>(0).unwrap();
        let names = seat.channel_again::<String>(1).unwrap();
        let runs = seat.mvar_again::<u64>(2).unwrap();
        assert_eq!((board.entries(), board.owed(letters), board.sent(names)), (5, Ok(1), Ok(0)));
        assert_eq!((seat.recv(letters).unwrap(), seat.get(runs)), ("Dear Ben".to_string(), Ok(7)));
        drop(seat);
        board.close().unwrap();
        assert_eq!(scratch.text().lines().count(), 8);
        assert!(scratch.text().starts_with("journal 2\nseat 0 mailbox: made 0\n"));
        assert_eq!(fs::read_dir(&scratch.0).unwrap().count(), 1, "nothing lies beside it");
    }
}

#[test]
fn a_file_that_is_in_the_way_keeps_the_old_one_as_it_is() {
    let scratch = Scratch::new("way");
    let text = ended(false);
    fs::write(scratch.path(), &text).unwrap();
    fs::write(scratch.0.join("x.journal.new"), "precious").unwrap();
    let board = Switchboard::open(scratch.path()).unwrap();
    let found = board.recovered().unwrap();
    let why = found.not_shortened.as_deref().unwrap();
    assert!(!found.is_shortened && why.contains("in the way"), "{why}");
    assert_eq!((found.entries, board.entries()), (10, 10));
    board.close().unwrap();
    let after = [&text[..], b"journal 2\nfrom 10\n"].concat();
    assert_eq!(fs::read(scratch.path()).unwrap(), after);
    assert_eq!(fs::read(scratch.0.join("x.journal.new")).unwrap(), b"precious");
}

#[test]
fn a_program_that_starts_again_and_again_keeps_a_short_file() {
    let scratch = Scratch::new("short");
    let options = JournalFile::new().sync_by_hand().short_from(3_000);
    let (mut shortened, mut waiting) = (0, 0);
    for _ in 0..20 {
        let board = options.open(scratch.path()).unwrap();
        shortened += u32::from(board.recovered().unwrap().is_shortened);
        let mut seat = board.seat().unwrap();
        let orders = seat.mailbox_again::<Order>(0).unwrap();
        assert_eq!(board.owed(orders), Ok(waiting));
        for number in 0..20 {
            seat.send(orders, order(number)).unwrap();
            assert!(number % 20 == 0 || seat.recv(orders).is_ok());
        }
        waiting += 1;
        drop(seat);
        board.close().unwrap();
        assert!(fs::metadata(scratch.path()).unwrap().len() < 10_000);
    }
    assert!(shortened > 2, "{shortened}");
}

#[test]
fn a_file_has_one_switchboard_at_a_time() {
    let scratch = Scratch::new("busy");
    let board = Switchboard::open(scratch.path()).unwrap();
    assert_eq!(Switchboard::open(scratch.path()).err(), Some(Error::FileBusy));
    assert!(Error::FileBusy.is_retryable());
    let other = run_apart("finds_a_busy_file", "", &scratch.path());
    assert!(other.status.success(), "{other:?}");
    drop(board);
    assert!(Switchboard::open(scratch.path()).is_ok());
}

#[test]
#[ignore = "another test runs it in its own process"]
fn finds_a_busy_file() {
    assert_eq!(Switchboard::open(path_given()).err(), Some(Error::FileBusy));
}

#[test]
fn only_the_file_cuts_its_journal() {
    let scratch = Scratch::new("cuts");
    let board = Switchboard::open(scratch.path()).unwrap();
    board.seat().unwrap().mailbox_again::<u64>(0).unwrap();
    assert_eq!((board.cut(), board.cut_open()), (Err(Error::HasFile), Err(Error::HasFile)));
    assert_eq!(board.take_journal().err(), Some(Error::HasFile));
    assert_eq!(board.take_journal_open().err(), Some(Error::HasFile));
    assert_eq!(board.compact_and_cut().err(), Some(Error::HasFile));
    assert_eq!(board.keep(), Err(Error::HasFile));
    let refused = board.compact_with(|_| Ok(())).unwrap_err();
    assert_eq!(refused.to_string(), Error::HasFile.to_string());
    assert_eq!((board.cut_at(), board.compact().unwrap().len()), (0, 1));
    assert!(board.keeping_error().is_none());
}

#[test]
#[should_panic(expected = "a file keeps the journal, and is never full")]
fn a_file_takes_no_policy_for_a_full_journal() {
    let scratch = Scratch::new("policy");
    let board = Switchboard::open(scratch.path()).unwrap();
    let _ = board.when_full(seryugo::WhenFull::Drop);
}

#[test]
fn what_lanes_and_feeds_moved_is_kept() {
    let scratch = Scratch::new("rings");
    let board = Switchboard::open_numbers(scratch.path()).unwrap();
    let mut seat = board.seat().unwrap();
    let (mailbox, channel) = (seat.mailbox_again(0).unwrap(), seat.channel_again(1).unwrap());
    let mut feed = board.feed(channel, 8).unwrap();
    let [mut drained, mut closed, mut dropped, mut lost] =
        [(); 4].map(|()| board.lane(mailbox, 8).unwrap());
    for (number, lane) in (0..).zip([&mut drained, &mut closed, &mut dropped, &mut lost]) {
        (0..3).for_each(|at| lane.send(10 * number + at).unwrap());
    }
    assert_eq!(drained.drain(), Ok(3));
    closed.close().unwrap();
    drop(dropped);
    (0..3).for_each(|number| seat.multicast(channel, number).unwrap());
    assert_eq!((feed.pump(), feed.recv()), (Ok(3), Ok(Some(0))));
    seat.multicast(channel, 3).unwrap();
    let (port, text) = (feed.port().number(), scratch.text());
    assert!(!text.contains("send 0 30"), "{text}");
    fs::write(scratch.0.join("y.journal"), text).unwrap();
    let board = Switchboard::open_numbers(scratch.0.join("y.journal")).unwrap();
    let mut seat = board.seat().unwrap();
    let (mailbox, port) = (board.mailbox(0).unwrap(), board.port(port).unwrap());
    assert_eq!(seat.try_iter(mailbox).collect::<Vec<_>>(), [0, 1, 2, 10, 11, 12, 20, 21, 22]);
    assert_eq!(seat.try_iter(port).collect::<Vec<_>>(), [3]);
}

#[test]
fn calls_that_wait_are_kept_once_they_are_answered() {
    let scratch = Scratch::new("waits");
    let board = Arc::new(Switchboard::open(scratch.path()).unwrap());
    let (mut seat, mut other) = (board.seat_owned().unwrap(), board.seat_owned().unwrap());
    let mailbox = seat.mailbox_again::<u64>(0).unwrap();
    let variable = seat.mvar_again::<String>(1).unwrap();
    let at_once = Duration::ZERO;
    assert_eq!(seat.recv_timeout(mailbox, at_once), Err(Error::TimedOut));
    assert_eq!(
        seat.swap_deadline(variable, "a", Instant::now()).err().unwrap().error,
        Error::TimedOut
    );
    let received = thread::spawn(move || (other.recv(mailbox), other));
    seat.send(mailbox, 5).unwrap();
    let (answer, mut other) = received.join().unwrap();
    assert_eq!(answer, Ok(5));
    let mut asked = asking(seat.recv_async(mailbox));
    other.send(mailbox, 6).unwrap();
    assert_eq!(poll_once(asked.as_mut()), Poll::Ready(Ok(6)));
    drop(asked);
    drop(asking(seat.swap_async(variable, "b")));
    other.put(variable, "c").unwrap();
    assert_eq!(block_on(seat.swap_async(variable, "d")), Ok("c".to_string()));
    drop(other);
    assert_eq!(seat.recv(mailbox), Err(Error::Stalled));
    // The last owner's drop closes the file.
    drop(board);
    assert_eq!(Switchboard::open(scratch.path()).err(), Some(Error::FileBusy));
    drop(seat);
    let board = Switchboard::open(scratch.path()).unwrap();
    assert_eq!((board.sent(mailbox_of(&board)), board.owed(mailbox_of(&board))), (Ok(2), Ok(0)));
    assert_eq!(board.held(board.mvar::<String>(1).unwrap()), Ok(Some("d".to_string())));
}

fn mailbox_of(board: &Switchboard) -> seryugo::Mailbox<u64> {
    board.mailbox(0).unwrap()
}

#[test]
fn a_question_outlives_its_program() {
    let scratch = Scratch::new("questions");
    let board = Switchboard::open(scratch.path()).unwrap();
    let (mut client, mut server) = (board.seat().unwrap(), board.seat().unwrap());
    let doubles = server.mailbox_again::<Request<u64, u64>>(0).unwrap();
    let mut asked = asking(client.request_async(doubles, 4));
    server.recv(doubles).unwrap().answer_with(&mut server, |question| 2 * question).unwrap();
    assert_eq!(poll_once(asked.as_mut()), Poll::Ready(Ok(8)));
    drop(asked);
    drop(asking(client.request_async(doubles, 5)));
    drop((client, server));
    board.close().unwrap();
    let board = Switchboard::open(scratch.path()).unwrap();
    let mut server = board.seat().unwrap();
    let doubles = server.mailbox_again::<Request<u64, u64>>(0).unwrap();
    assert_eq!(server.recv(doubles).unwrap().question, 5);
}

#[test]
fn a_message_that_is_too_long_is_refused_before_it_is_sent() {
    const MOST: usize = 1_398_000;

    let scratch = Scratch::new("long");
    let board = Switchboard::open(scratch.path()).unwrap();
    let mut seat = board.seat().unwrap();
    let mailbox = seat.mailbox_again::<Vec<u8>>(0).unwrap();
    let variable = seat.mvar_again::<Vec<u8>>(1).unwrap();
    seat.put(variable, vec![0xFF; MOST / 2]).unwrap();
    let mut lane = board.lane(mailbox, 8).unwrap();
    let (most, more) = (vec![0xFF; MOST], vec![0xFF; MOST + 1]);
    assert_eq!(seat.send(mailbox, &more).unwrap_err().error, Error::TooLong);
    assert_eq!(lane.send(&more).unwrap_err().error, Error::TooLong);
    assert_eq!(seat.mvar_init(more.clone()).unwrap_err().error, Error::TooLong);
    assert_eq!(seat.swap(variable, &most).unwrap_err().error, Error::TooLong);
    assert_eq!(board.entries(), 3);
    lane.send(&most).unwrap();
    lane.close().unwrap();
    assert_eq!(seat.swap(variable, vec![0xFF; MOST / 2]).unwrap().len(), MOST / 2);
    drop(seat);
    board.close().unwrap();
    let board = Switchboard::open(scratch.path()).unwrap();
    assert_eq!(board.seat().unwrap().recv(board.mailbox::<Vec<u8>>(0).unwrap()), Ok(most));
}

#[test]
fn threads_lose_nothing_on_their_way() {
    const THREADS: u64 = 4;

    let scratch = Scratch::new("threads");
    for run in 0..3 {
        let board = JournalFile::new().grow_by(4096).open(scratch.path()).unwrap();
        let board = Arc::new(board);
        let seats = [(); THREADS as usize].map(|()| board.seat_owned().unwrap());
        let threads: Vec<_> = (0..)
            .zip(seats)
            .map(|(own, mut seat)| {
                thread::spawn(move || {
                    let mut random = Random::new(run * THREADS + own);
                    let mailboxes =
                        [0, 1, 2].map(|number| seat.mailbox_again::<u64>(number).unwrap());
                    for _ in 0..200 {
                        let mailbox = mailboxes[random.below(3) as usize];
                        seat.send(mailbox, own).unwrap();
                        seat.recv(mailbox).unwrap();
                    }
                })
            })
            .collect();
        drop(board);
        for thread in threads {
            thread.join().unwrap();
        }
    }
    let board = Switchboard::open(scratch.path()).unwrap();
    assert_eq!(board.entries(), 3 + 3 * 2 * 200 * THREADS);
    let owed = |number| board.owed(board.mailbox::<u64>(number).unwrap());
    assert_eq!([0, 1, 2].map(owed), [Ok(0), Ok(0), Ok(0)]);
}
