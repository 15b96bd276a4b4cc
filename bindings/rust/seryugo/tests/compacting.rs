//! Short journals of a switchboard that is in use.

mod common;

use common::{let_them_wait, without_a_hang, Board, Channel, MVar, Mailbox, Port, Scratch};
use seryugo::{
    Checker, Error, Journal, JournalFile, MessageKind, Numbers, Object, Sum, Switchboard, WhenFull,
};
use std::fs;
use std::future::Future;
use std::io::{self, ErrorKind};
use std::os::unix::fs::MetadataExt;
use std::panic::{catch_unwind, AssertUnwindSafe};
use std::pin::pin;
use std::sync::atomic::{AtomicBool, AtomicU64, Ordering};
use std::sync::mpsc::{channel, Receiver};
use std::sync::{Arc, Mutex};
use std::task::{Context, Poll, Waker};
use std::thread;

const LIMIT: u64 = 1_000;

/// How many times threads begin, and how many calls of each kind they make each time.
const ROUNDS: u64 = 20;
const EACH: u64 = 100;

/// How many messages of the channel the port isn't to receive each time.
const LEFT: u64 = 5;

fn text_of<R: MessageKind>(journal: &Journal<R>) -> Vec<u8> {
    let mut text = Vec::new();
    journal.write_to(&mut text).unwrap();
    text
}

/// How many entries a text has, which is whole and lawful.
fn lawful(text: &[u8]) -> u64 {
    let mut checker = Checker::of_numbers().unwrap();
    checker.read(text).unwrap();
    assert!(checker.is_whole());
    checker.entries()
}

/// A text leaves what the switchboard has: a short journal of the one is a short journal of the
/// other.
fn leaves_the_same(text: &[u8], board: &Board) {
    let mut checker = Checker::of_numbers().unwrap();
    checker.read(text).unwrap();
    let of_text = text_of(&checker.compact().unwrap());
    assert_eq!(
        String::from_utf8(of_text).unwrap(),
        String::from_utf8(text_of(&board.compact().unwrap())).unwrap()
    );
}

#[test]
fn the_journal_stays_or_is_cut() {
    let board = Board::of_numbers(LIMIT).unwrap();
    let mut seat = board.seat().unwrap();
    let mailbox = seat.mailbox().unwrap();
    for number in 0..100 {
        seat.send(mailbox, number).unwrap();
        seat.recv(mailbox).unwrap();
    }
    seat.send(mailbox, 7).unwrap();
    let short = board.compact().unwrap();
    assert_eq!((short.first(), short.len(), board.entries(), board.cut_at()), (0, 2, 202, 0));
    let cut = board.compact_and_cut().unwrap();
    assert_eq!((cut.first(), board.entries(), board.cut_at()), (0, 202, 202));
    assert_eq!(text_of(&cut), text_of(&short));
    assert_eq!(board.entry(201), None);
    seat.recv(mailbox).unwrap();
    assert!(board.entry(202).is_some());
    let next = board.take_journal().unwrap();
    assert_eq!((next.first(), next.len()), (2, 1));
    assert_eq!(lawful(&[text_of(&cut), text_of(&next)].concat()), 3);
    assert_eq!(
        text_of(&Board::of_numbers(1).unwrap().compact_and_cut().unwrap()),
        b"journal 1\nend 0\n"
    );
}

#[test]
fn it_follows_from_a_journal_that_was_gone_on_from() {
    let board = Board::of_numbers(LIMIT).unwrap();
    let mut seat = board.seat().unwrap();
    let mailbox = seat.mailbox().unwrap();
    (0..10).for_each(|number| seat.send(mailbox, number).unwrap());
    let board = Board::restore(&text_of(&board.take_journal().unwrap())[..], LIMIT).unwrap();
    let mut seat = board.seat().unwrap();
    let mailbox = board.mailbox(0).unwrap();
    for number in 0..4 {
        assert_eq!(seat.recv(mailbox), Ok(number));
    }
    let mut text = text_of(&board.compact_and_cut().unwrap());
    assert_eq!(seat.recv(mailbox), Ok(4));
    text.extend(text_of(&board.take_journal().unwrap()));
    assert_eq!(lawful(&text), 8);
    leaves_the_same(&text, &board);
}

#[test]
fn rings_stay_open_and_what_is_in_them_comes_later() {
    let board = Board::of_numbers(LIMIT).unwrap();
    let mut seat = board.seat().unwrap();
    let (mailbox, channel) = (seat.mailbox().unwrap(), seat.channel().unwrap());
    let mut lane = board.lane(mailbox, 8).unwrap();
    let mut feed = board.feed(channel, 8).unwrap();
    let port = feed.port();
    (0..4).for_each(|number| lane.send(number).unwrap());
    assert_eq!(lane.drain(), Ok(4));
    (4..8).for_each(|number| lane.send(number).unwrap());
    (0..4).for_each(|number| seat.multicast(channel, number).unwrap());
    assert_eq!(feed.pump(), Ok(4));
    (4..8).for_each(|number| seat.multicast(channel, number).unwrap());
    let mut text = text_of(&board.compact_and_cut().unwrap());
    assert_eq!(board.cut(), Err(Error::Busy));
    let restored = Board::restore(&text[..], LIMIT).unwrap();
    assert_eq!(restored.owed(restored.mailbox(0).unwrap()), Ok(4));
    // What is in the feed's ring was received.
    assert_eq!(restored.owed(restored.port(port.number()).unwrap()), Ok(4));
    lane.close().unwrap();
    while feed.pump().unwrap() > 0 {}
    assert_eq!(
        std::iter::from_fn(|| feed.recv().unwrap()).collect::<Vec<u64>>(),
        (0..8).collect::<Vec<u64>>()
    );
    drop(feed);
    text.extend(text_of(&board.take_journal().unwrap()));
    lawful(&text);
    leaves_the_same(&text, &board);
    for number in 0..8 {
        assert_eq!(seat.recv(mailbox), Ok(number));
    }
}

#[test]
fn a_call_that_waits_is_answered_after_it() {
    let board = Board::of_numbers(LIMIT).unwrap();
    let (mut ann, mut ben) = (board.seat().unwrap(), board.seat().unwrap());
    let mailbox: Mailbox = ann.mailbox().unwrap();
    let mut context = Context::from_waker(Waker::noop());
    let mut received = pin!(ben.recv_async(mailbox));
    assert_eq!(received.as_mut().poll(&mut context), Poll::Pending);
    let mut text = text_of(&board.compact_and_cut().unwrap());
    ann.send(mailbox, 5).unwrap();
    assert_eq!(received.as_mut().poll(&mut context), Poll::Ready(Ok(5)));
    text.extend(text_of(&board.take_journal().unwrap()));
    assert_eq!(lawful(&text), 3);
}

#[test]
fn it_stands_for_entries_that_no_sink_took() {
    let fills = Arc::new(AtomicBool::new(true));
    let (is_full, (sender, pieces)) = (fills.clone(), channel());
    let board =
        Board::of_numbers(2).unwrap().when_full(WhenFull::give(move |journal| {
            match is_full.load(Ordering::Relaxed) {
                true => Err(journal),
                false => sender.send(journal).map_err(|refused| refused.0),
            }
        }));
    let mut seat = board.seat().unwrap();
    let mailbox = seat.mailbox().unwrap();
    seat.send(mailbox, 5).unwrap();
    assert_eq!(seat.send(mailbox, 6).unwrap_err().error, Error::NotKept);
    assert_eq!(board.take_journal().map(drop), Err(Error::NotKept));
    let mut text = text_of(&board.compact_and_cut().unwrap());
    fills.store(false, Ordering::Relaxed);
    seat.send(mailbox, 6).unwrap();
    board.keep().unwrap();
    let next: Vec<Journal<Numbers>> = pieces.try_iter().collect();
    assert_eq!(next.iter().map(|piece| (piece.first(), piece.len())).collect::<Vec<_>>(), [(2, 1)]);
    text.extend(text_of(&next[0]));
    leaves_the_same(&text, &board);
}

#[test]
fn a_sink_that_fails_behind_it_loses_nothing() {
    let (calls, (sender, pieces)) = (AtomicU64::new(0), channel());
    let board = Switchboard::new(2).unwrap().when_full(WhenFull::call(move |journal: &Journal| {
        match calls.fetch_add(1, Ordering::Relaxed) % 2 {
            0 => Err(ErrorKind::StorageFull.into()),
            _ => sender
                .send((journal.first(), text_of(journal)))
                .map_err(|_| ErrorKind::BrokenPipe.into()),
        }
    }));
    let mut seat = board.seat().unwrap();
    let mailbox = seat.mailbox::<String>().unwrap();
    let mut text = text_of(&board.compact_and_cut().unwrap());
    for number in 0..20 {
        while let Err(refused) = seat.send(mailbox, number.to_string()) {
            assert_eq!(refused.error, Error::NotKept);
        }
    }
    while board.keep().is_err() {}
    let mut end = 1;
    for (first, piece) in pieces.try_iter() {
        assert_eq!(first, end);
        end += 2;
        text.extend(piece);
    }
    assert_eq!(Switchboard::<seryugo::Bytes>::restore(&text[..], LIMIT).unwrap().entries(), 21);
}

#[test]
fn nothing_is_cut_if_the_short_journal_is_not_kept() {
    let (sender, pieces) = channel();
    let board = Board::of_numbers(LIMIT).unwrap().when_full(WhenFull::give(move |journal| {
        match sender.send(journal) {
            Ok(()) => Ok(()),
            Err(refused) => Err(refused.0),
        }
    }));
    let mut seat = board.seat().unwrap();
    let mailbox = seat.mailbox().unwrap();
    seat.send(mailbox, 5).unwrap();
    seat.recv(mailbox).unwrap();
    let kept = board.compact_with(|short| -> io::Result<()> {
        assert_eq!((short.first(), short.len()), (0, 1));
        Err(ErrorKind::StorageFull.into())
    });
    assert_eq!(kept.unwrap_err().kind(), ErrorKind::StorageFull);
    let panicked = catch_unwind(AssertUnwindSafe(|| {
        board.compact_with(|_| -> io::Result<()> { panic!("a test") })
    }));
    assert!(panicked.is_err());
    assert_eq!(board.cut_at(), 0);
    board.keep().unwrap();
    seat.send(mailbox, 6).unwrap();
    let text = board.compact_with(|short| Ok(text_of(short))).unwrap();
    assert_eq!(board.cut_at(), 4);
    seat.send(mailbox, 7).unwrap();
    board.keep().unwrap();
    let pieces: Vec<Journal<Numbers>> = pieces.try_iter().collect();
    assert_eq!(
        pieces.iter().map(|piece| (piece.first(), piece.len())).collect::<Vec<_>>(),
        [(0, 3), (2, 1)]
    );
    leaves_the_same(&[text, text_of(&pieces[1])].concat(), &board);
}

/// A sink is handed nothing between a short journal and the cut, so that it needs no position to
/// know what a piece follows.
#[test]
fn a_sink_follows_each_short_journal_while_threads_call() {
    type Kept = (Vec<u8>, Option<Sum>);
    without_a_hang(|| {
        let kept = Arc::new(Mutex::new(Kept::default()));
        let by_sink = kept.clone();
        let board = Board::of_numbers(3).unwrap().when_full(WhenFull::call(move |journal| {
            let (text, sum) = &mut *by_sink.lock().unwrap();
            *sum = Some(journal.write_sealed_to(*sum, text)?);
            Ok(())
        }));
        let mut seats = common::seats(&board, 4);
        let mailboxes: Vec<Mailbox> =
            seats.iter_mut().map(|seat| seat.mailbox().unwrap()).collect();
        thread::scope(|scope| {
            let mut running = Vec::new();
            for (number, mut seat) in seats.into_iter().enumerate() {
                let (to, from) = (mailboxes[(number + 1) % 4], mailboxes[number]);
                running.push(scope.spawn(move || {
                    for message in 0..20 * EACH {
                        seat.send(to, message).unwrap();
                        assert_eq!(seat.recv(from), Ok(message));
                    }
                }));
            }
            while running.iter().any(|thread| !thread.is_finished()) {
                let shortened = board.compact_with(|short| {
                    let mut text = Vec::new();
                    let sum = short.write_sealed_to(None, &mut text)?;
                    *kept.lock().unwrap() = (text, Some(sum));
                    Ok(())
                });
                shortened.unwrap();
                lawful(&kept.lock().unwrap().0);
                let_them_wait();
            }
        });
        board.keep().unwrap();
        leaves_the_same(&kept.lock().unwrap().0, &board);
    });
}

/// A text to which pieces are added as a sink gives them.
struct Text {
    pieces: Receiver<Journal<Numbers>>,
    text: Vec<u8>,
    end: u64,
    short: u64,
}

impl Text {
    fn add(&mut self, piece: &Journal<Numbers>) {
        assert_eq!(piece.first(), self.end);
        self.text.extend(text_of(piece));
        self.end += piece.len() as u64;
    }

    fn add_all(&mut self) {
        while let Ok(piece) = self.pieces.try_recv() {
            self.add(&piece);
        }
    }

    /// Begins anew with a short journal, if it is shorter than the text: then the pieces tell by
    /// their positions whether they came before the cut or after it. Meanwhile no round's calls add
    /// more to a short journal than these.
    fn shorten(&mut self, board: &Board) {
        self.add_all();
        if self.end < board.compact().unwrap().len() as u64 + 4 * EACH {
            return;
        }
        let short = board.compact_and_cut().unwrap();
        assert!((short.len() as u64) < self.end);
        let mut pieces = self.pieces.try_iter().collect::<Vec<_>>().into_iter().peekable();
        while let Some(piece) = pieces.next_if(|piece| piece.first() == self.end) {
            self.end += piece.len() as u64;
        }
        (self.text, self.end) = (text_of(&short), short.len() as u64);
        lawful(&self.text);
        pieces.for_each(|piece| self.add(&piece));
        self.short += 1;
    }
}

/// What the threads call.
#[derive(Clone, Copy)]
struct Objects {
    mailbox: Mailbox,
    channel: Channel,
    port: Port,
    mvar: MVar,
}

#[test]
fn several_threads_call_while_one_compacts_in_a_loop() {
    without_a_hang(|| {
        let (sender, pieces) = channel();
        let sink = WhenFull::give(move |journal| sender.send(journal).map_err(|refused| refused.0));
        let board = Board::of_numbers(7).unwrap().when_full(sink);
        let mut seats = common::seats(&board, 4);
        let last = &mut seats[3];
        let (mailbox, channel) = (last.mailbox().unwrap(), last.channel().unwrap());
        let (port, mvar) = (last.port(channel).unwrap(), last.mvar_init(0).unwrap());
        let objects = Objects {
            mailbox,
            channel,
            port,
            mvar,
        };
        let mut text = Text {
            pieces,
            text: Vec::new(),
            end: 0,
            short: 0,
        };
        for _ in 0..ROUNDS {
            round(&board, &mut seats, objects, &mut text);
            board.keep().unwrap();
            text.add_all();
            assert_eq!(lawful(&text.text), text.end);
            leaves_the_same(&text.text, &board);
            let restored = Board::restore(&text.text[..], LIMIT).unwrap();
            assert_eq!(
                restored.owed(restored.mailbox(mailbox.number()).unwrap()),
                board.owed(mailbox)
            );
            assert_eq!(restored.owed(restored.port(port.number()).unwrap()), board.owed(port));
            assert_eq!(restored.held(restored.mvar(mvar.number()).unwrap()), board.held(mvar));
        }
        assert_eq!((board.owed(mailbox), board.owed(port)), (Ok(0), Ok(ROUNDS * LEFT)));
        assert!(text.short >= ROUNDS / 2);
    });
}

/// Threads make their calls, while this one makes the journal short again and again.
fn round(board: &Board, seats: &mut [common::Seat<'_>], objects: Objects, text: &mut Text) {
    let Objects {
        mailbox,
        channel,
        port,
        mvar,
    } = objects;
    let [ann, ben, carl, dan] = seats else {
        panic!("there are four seats")
    };
    let mut lane = board.lane(mailbox, 8).unwrap();
    let mut feed = board.feed(channel, 8).unwrap();
    let fed = feed.port();
    thread::scope(|scope| {
        let mut running = vec![scope.spawn(move || {
            for number in 0..EACH {
                while lane.send(number).is_err() {
                    lane.drain().unwrap();
                }
            }
            lane.close().unwrap();
        })];
        running.push(scope.spawn(move || {
            for number in 0..EACH {
                ann.send(mailbox, EACH + number).unwrap();
                ann.swap(mvar, number).unwrap();
            }
        }));
        running.push(scope.spawn(move || {
            let sum: u64 = (0..2 * EACH).map(|_| ben.recv(mailbox).unwrap()).sum();
            assert_eq!(sum, EACH * (2 * EACH - 1));
        }));
        running.push(scope.spawn(move || {
            (0..EACH).for_each(|number| carl.multicast(channel, number).unwrap());
        }));
        running
            .push(scope.spawn(move || (LEFT..EACH).for_each(|_| assert!(dan.recv(port).is_ok()))));
        running.push(scope.spawn(move || {
            let mut next = 0;
            while next < EACH {
                feed.pump().unwrap();
                while let Some(number) = feed.recv().unwrap() {
                    assert_eq!(number, next);
                    next += 1;
                }
            }
        }));
        while running.iter().any(|thread| !thread.is_finished()) {
            board.keep().unwrap();
            text.shorten(board);
            let_them_wait();
        }
    });
    seats[0].close(fed).unwrap();
}

/// Each short file is another one. Only a hang would take so many rounds.
#[test]
fn a_file_stays_short_while_it_is_open() {
    let scratch = Scratch::new("stays_short");
    let options = JournalFile::new().sync_by_hand().short_from(3_000).grow_by(4_096);
    let board = options.open_numbers(scratch.path()).unwrap();
    let mut seat = board.seat().unwrap();
    let numbers = seat.mailbox_again(0).unwrap();
    let inode = || fs::metadata(scratch.path()).unwrap().ino();
    let (mut files, mut file, mut last) = (0, inode(), 0);
    while files < 5 && last < 10_000_000 {
        last += 1;
        seat.send(numbers, last).unwrap();
        assert!(last == 1 || seat.recv(numbers) == Ok(last - 1));
        let now = inode();
        files += u32::from(now != file);
        file = now;
    }
    assert_eq!((files, board.owed(numbers)), (5, Ok(1)));
    drop(seat);
    board.close().unwrap();
    let board = Switchboard::open_numbers(scratch.path()).unwrap();
    assert!(board.recovered().unwrap().entries < last);
    let mut seat = board.seat().unwrap();
    let numbers = seat.mailbox_again(0).unwrap();
    assert_eq!(seat.recv(numbers), Ok(last));
    assert_eq!(board.owed(numbers), Ok(0));
}
