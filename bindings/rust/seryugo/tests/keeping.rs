//! Journals that leave the process: written, checked, and gone on from.

mod common;

use common::Board;
use seryugo::{
    Call, CheckError, Checker, Error, Kind, MessageKind, Missing, Numbers, Reply, RestoreError,
    Switchboard, Who,
};
use std::io::{self, BufReader, Read};
use std::thread;

const LIMIT: u64 = 1_000;

/// A journal with objects of each kind, in three pieces, of which one has no entry.
fn three_pieces() -> Vec<u8> {
    let board = Switchboard::of_numbers(LIMIT).unwrap();
    let (mut ann, mut ben) = (board.seat().unwrap(), board.seat().unwrap());
    let mailbox = ann.mailbox().unwrap();
    let channel = ann.channel().unwrap();
    let port = ben.port(channel).unwrap();
    let mut text = Vec::new();
    let mut keep = || board.take_journal().unwrap().write_to(&mut text).unwrap();
    keep();
    keep();
    let ivar = ann.ivar().unwrap();
    let mvar = ann.mvar_init(9).unwrap();
    let copy = ben.copy(port).unwrap().unwrap();
    ann.put(ivar, u64::MAX).unwrap();
    ben.swap(mvar, 8).unwrap();
    ann.send(mailbox, 5).unwrap();
    ann.send(mailbox, 6).unwrap();
    ben.recv(mailbox).unwrap();
    ann.multicast(channel, 7).unwrap();
    ben.recv(port).unwrap();
    ben.close(copy).unwrap();
    let mut lane = board.lane(mailbox, 4).unwrap();
    lane.send(10).unwrap();
    lane.drain().unwrap();
    drop(lane);
    drop(board.feed(channel, 4).unwrap());
    keep();
    text
}

fn checked(text: &[u8]) -> Result<Checker<Numbers>, CheckError> {
    let mut checker = Checker::of_numbers()?;
    checker.read(text)?;
    Ok(checker)
}

#[test]
fn a_board_goes_on_where_another_ended() {
    let mut text = three_pieces();
    let board = Board::restore(&text[..], LIMIT).unwrap();
    assert_eq!((board.entries(), board.cut_at()), (16, 16));
    let (mailbox, channel, port) =
        (board.mailbox(0).unwrap(), board.channel(1).unwrap(), board.port(2).unwrap());
    let (ivar, mvar, copy) =
        (board.ivar(3).unwrap(), board.mvar(4).unwrap(), board.port(5).unwrap());
    assert_eq!(
        (board.sent(mailbox), board.got(mailbox), board.owed(mailbox)),
        (Ok(3), Ok(1), Ok(2))
    );
    assert_eq!((board.sent(channel), board.got(port), board.owed(port)), (Ok(1), Ok(1), Ok(0)));
    assert_eq!((board.held(ivar), board.held(mvar)), (Ok(Some(u64::MAX)), Ok(Some(8))));
    assert_eq!((board.is_open(port), board.is_open(copy)), (Ok(true), Ok(false)));
    assert_eq!(
        (board.kind(1), board.kind(3), board.ivar(7)),
        (Ok(Kind::Channel), Ok(Kind::IVar), Err(Error::NoSuch(Missing::Object(7))))
    );

    let mut seat = board.seat().unwrap();
    let mut lane = board.lane(mailbox, 4).unwrap();
    let feed = board.feed(channel, 4).unwrap();
    assert_eq!((seat.number(), lane.number(), feed.number()), (2, 1, 1));
    lane.send(11).unwrap();
    lane.drain().unwrap();
    assert_eq!(
        (seat.recv(mailbox), seat.recv(mailbox), seat.recv(mailbox)),
        (Ok(6), Ok(10), Ok(11))
    );
    lane.close().unwrap();
    drop(feed);

    let journal = board.take_journal().unwrap();
    assert_eq!(journal.first(), 16);
    let sent = journal.iter().find(|entry| entry.who == Who::Lane(1)).unwrap();
    assert_eq!((sent.call, sent.reply), (Call::Send(0, 11), Reply::Done));
    journal.write_to(&mut text).unwrap();
    let checker = checked(&text).unwrap();
    assert_eq!((checker.entries(), checker.is_whole()), (16 + journal.len() as u64, true));
}

/// What a board has that a later call sees, of each object of `three_pieces`.
fn left(board: &Board) -> String {
    let (mailbox, channel, port) =
        (board.mailbox(0).unwrap(), board.channel(1).unwrap(), board.port(2).unwrap());
    let (ivar, mvar, copy) =
        (board.ivar(3).unwrap(), board.mvar(4).unwrap(), board.port(5).unwrap());
    let fed = board.port(6).unwrap();
    let owed = [
        board.owed(mailbox),
        board.owed(port),
        board.owed(fed),
        board.owed(copy),
    ];
    let open = [board.is_open(port), board.is_open(fed), board.is_open(copy)];
    let channels = [
        board.channel_of(port),
        board.channel_of(fed),
        board.channel_of(copy),
    ];
    assert!(channels.iter().all(|of| *of == Ok(channel)));
    assert_eq!(board.mailbox(7), Err(Error::NoSuch(Missing::Object(7))));
    let mut seat = board.seat().unwrap();
    let waiting: Vec<u64> = seat.try_iter(mailbox).collect();
    format!(
        "{owed:?} {open:?} {:?} {:?} {waiting:?} {}",
        board.held(ivar),
        board.held(mvar),
        seat.number()
    )
}

/// A short journal leaves what the long one leaves, and the piece that goes on after the long one
/// follows it.
#[test]
fn a_short_journal_stands_for_a_long_one() {
    let long = three_pieces();
    let journal = checked(&long).unwrap().compact().unwrap();
    assert_eq!(journal.first(), 0);
    assert!(journal.iter().all(|entry| entry.who == Who::Seat(1)));
    let mut short = Vec::new();
    journal.write_to(&mut short).unwrap();
    let (short_board, long_board) =
        (Board::restore(&short[..], LIMIT).unwrap(), Board::restore(&long[..], LIMIT).unwrap());
    assert_eq!(short_board.entries(), journal.len() as u64);
    assert_eq!(left(&short_board), left(&long_board));

    // Both boards made the same calls since. Only the positions of their entries differ.
    let (mut after_short, mut after_long) = (short.clone(), long.clone());
    let (since_short, since_long) =
        (short_board.take_journal().unwrap(), long_board.take_journal().unwrap());
    assert!(since_short.iter().eq(since_long.iter()));
    since_short.write_to(&mut after_short).unwrap();
    since_long.write_to(&mut after_long).unwrap();
    let (mut once, mut again) = (Vec::new(), Vec::new());
    checked(&after_short).unwrap().compact().unwrap().write_to(&mut once).unwrap();
    checked(&after_long).unwrap().compact().unwrap().write_to(&mut again).unwrap();
    assert_eq!(once, again);
}

#[test]
fn a_reading_that_has_stopped_is_not_compacted() {
    let mut checker = Checker::of_numbers().unwrap();
    checker.read(&b"journal 1\nseat 0 mailbox: made 0\nseat 0 recv 0: 5\n"[..]).unwrap_err();
    assert!(matches!(checker.compact(), Err(CheckError::Unlawful(1))));
    let mut checker = Checker::of_numbers().unwrap();
    checker.read(&b"journal 1\nwhat\n"[..]).unwrap_err();
    assert!(matches!(checker.compact(), Err(CheckError::Fault(2, _))));
    // Up to the last whole line.
    let mut torn = Checker::of_numbers().unwrap();
    torn.read(&b"journal 1\nseat 7 mailbox: made 0\nseat 0 se"[..]).unwrap();
    let journal = torn.compact().unwrap();
    assert_eq!(journal.iter().map(|entry| entry.who).collect::<Vec<_>>(), [Who::Seat(7)]);
    assert_eq!(Checker::new().unwrap().compact().unwrap().len(), 0);
}

/// How many bytes of a torn text are kept: its whole lines, but no piece's first line alone.
fn kept_of(torn: &[u8]) -> usize {
    let whole = torn.iter().rposition(|byte| *byte == b'\n').map_or(0, |at| at + 1);
    let last = torn[..whole].split_inclusive(|byte| *byte == b'\n').next_back().unwrap_or_default();
    whole
        - if last.starts_with(b"journal") {
            last.len()
        } else {
            0
        }
}

/// Each text that ends early is taken up to its last whole line. With its ending after these it is
/// a whole journal.
#[test]
fn a_text_may_end_anywhere() {
    let text = three_pieces();
    for end in 0..=text.len() {
        let torn = &text[..end];
        // The parts that are read end at other places each time.
        let (board, kept) =
            Board::restore_torn(BufReader::with_capacity(1 + end % 40, torn), LIMIT).unwrap();
        let whole = kept_of(torn);
        assert_eq!(kept.bytes, whole as u64);
        let lines = torn[..whole].split(|byte| *byte == b'\n');
        assert_eq!(kept.entries, lines.filter(|line| line.contains(&b':')).count() as u64);
        assert_eq!((board.entries(), board.cut_at()), (kept.entries, kept.entries));

        let mut mended = torn[..whole].to_vec();
        mended.extend_from_slice(kept.ending.as_bytes());
        board.seat().unwrap().mailbox().unwrap();
        board.take_journal().unwrap().write_to(&mut mended).unwrap();
        let checker = checked(&mended).unwrap();
        assert_eq!(
            (checker.entries(), checker.is_whole()),
            (kept.entries + 1, true),
            "the first {end} bytes"
        );
        match Board::restore(torn, LIMIT) {
            Ok(_) => assert!(kept.ending.is_empty() && whole == end),
            Err(RestoreError::Open(told)) => assert_eq!((told, torn.last()), (kept, Some(&b'\n'))),
            Err(RestoreError::Torn(told)) => {
                assert_eq!(told, kept);
                assert_ne!(torn.last(), Some(&b'\n'));
            }
            Err(error) => panic!("{error}"),
        }
    }
}

/// A text that no journal begins with is refused, also where a torn one would be taken. What is
/// behind a byte 0 isn't read.
#[test]
fn other_text_is_no_journal() {
    for other in [
        &b"{\"precious\": 1}"[..],
        b"journals",
        b"journal 10",
        b"\x7fELF",
    ] {
        let restored = Board::restore_torn(other, LIMIT);
        assert!(matches!(restored, Err(RestoreError::Check(CheckError::NoJournal))));
        let restored = Board::restore(other, LIMIT);
        assert!(matches!(restored, Err(RestoreError::Check(CheckError::NoJournal))));
    }
    let text = b"journal 1\nseat 0 mailbox: made 0\n\0\0what\nend 7\n";
    let (_, kept) = Board::restore_torn(&text[..], LIMIT).unwrap();
    assert_eq!((kept.entries, kept.bytes, kept.ending.as_str()), (1, 33, "end 1\n"));
    for (torn, has_more) in [(&text[..], true), (&text[..36], true), (&text[..35], false)] {
        for length in [1, 10, 34, 35] {
            let parts = BufReader::with_capacity(length, torn);
            let (_, kept) = Board::restore_torn(parts, LIMIT).unwrap();
            assert_eq!((kept.bytes, kept.has_more), (33, has_more));
        }
    }
}

#[test]
fn what_is_wrong_is_told() {
    let fault = |text: &str| match checked(text.as_bytes()) {
        Err(CheckError::Fault(line, what)) => (line, what),
        Err(error) => panic!("{error}"),
        Ok(_) => (0, ""),
    };
    assert_eq!(fault("what\n"), (1, "no header"));
    assert_eq!(fault("journal 1\nfrom 5\n"), (2, "begins after a cut"));
    assert_eq!(fault("journal 1\nseat 0 mailbox: made 0\nwhat\n"), (3, "too few words"));
    assert_eq!(fault("journal 1\nend 0\njournal 1\nfrom 1\n"), (4, "gap"));
    let wrong = &b"journal 1\nseat 0 mailbox: made 0\nend 2\n"[..];
    let said = "line 3 of the journal has a fault: wrong end";
    assert_eq!(Board::restore(wrong, LIMIT).err().unwrap().to_string(), said);
    assert_eq!(Board::restore_torn(wrong, LIMIT).err().unwrap().to_string(), said);

    let mut checker = Checker::of_numbers().unwrap();
    checker.read(&b"journal 1\nseat 0 mailbox: made 0\n"[..]).unwrap();
    for _ in 0..2 {
        let read = checker.read(&b"seat 0 recv 0: 5\nend 2\n"[..]);
        assert!(matches!(read, Err(CheckError::Unlawful(1))), "{read:?}");
        assert_eq!((checker.entries(), checker.is_whole()), (1, false));
    }
    let restored = Board::restore(&b"journal 1\nseat 0 poll 0: none\nend 1\n"[..], LIMIT);
    assert!(matches!(restored, Err(RestoreError::Check(CheckError::Unlawful(0)))));
    // A number of which there is none after it.
    for who in ["seat", "lane", "feed"] {
        let text = format!("journal 1\n{who} {} mailbox: made 0\nend 1\n", u64::MAX);
        let restored = Board::restore(text.as_bytes(), LIMIT);
        assert!(matches!(restored, Err(RestoreError::Check(CheckError::NoMemory))));
    }
    for limit in [0, (1 << 32) + 1] {
        let restored = Board::restore(&b"journal 1\nend 0\n"[..], limit);
        assert!(matches!(restored, Err(RestoreError::OutOfBounds)));
    }
    assert!(Board::restore(&b"journal 1\nend 0\n"[..], 1 << 32).is_ok());
}

/// First lines of texts, and how a checker of numbers and one of bytes refuse them.
const OTHERS: [(&str, &str, &str); 14] = [
    ("journal 1", "none", "OtherMessages"),
    ("journal 2", "OtherMessages", "none"),
    ("journal 3", "none", "OtherMessages"),
    ("journal 4", "OtherMessages", "none"),
    ("journal 2 x", "OtherMessages", "Fault(1)"),
    ("journal 3 x", "Fault(1)", "OtherMessages"),
    ("journal 0", "OtherVersion(0)", "OtherVersion(0)"),
    ("journal 5 x", "OtherVersion(5)", "OtherVersion(5)"),
    ("journal 18446744073709551616", "Fault(1)", "Fault(1)"),
    ("journal 02", "Fault(1)", "Fault(1)"),
    ("journal +2", "Fault(1)", "Fault(1)"),
    ("journal 2\r", "Fault(1)", "Fault(1)"),
    ("journal", "Fault(1)", "Fault(1)"),
    ("what\njournal 2", "Fault(1)", "Fault(1)"),
];

/// How a text is refused: by a checker, also if it goes on or makes a short journal, and by a
/// switchboard.
fn refused<R: MessageKind>(mut checker: Checker<R>, text: &str, at_once: usize) -> Vec<String> {
    let reader = || BufReader::with_capacity(at_once, text.as_bytes());
    let told = |error: Option<CheckError>| match error {
        None => "none".to_string(),
        Some(CheckError::Fault(line, _)) => format!("Fault({line})"),
        Some(error) => format!("{error:?}"),
    };
    let mut refused = vec![told(checker.read(reader()).err())];
    let restored = Switchboard::<R>::restore_torn(reader(), LIMIT);
    refused.push(told(restored.err().map(|error| match error {
        RestoreError::Check(error) => error,
        error => panic!("{error}"),
    })));
    if refused[0] != "none" {
        refused.push(told(checker.read(&b"journal 2\njournal 1\n"[..]).err()));
        refused.push(told(checker.compact().err()));
    }
    refused
}

#[test]
fn a_journal_of_another_type_or_version_is_told_as_such() {
    for (line, of_numbers, of_bytes) in OTHERS {
        let text = format!("{line}\nseat 0 mailbox: made 0\n");
        for at_once in 1..=text.len() {
            let numbers = refused(Checker::of_numbers().unwrap(), &text, at_once);
            assert!(numbers.iter().all(|error| error == of_numbers), "{text}{numbers:?}");
            let bytes = refused(Checker::new().unwrap(), &text, at_once);
            assert!(bytes.iter().all(|error| error == of_bytes), "{text}{bytes:?}");
        }
    }
    // No header is so long, and no later line is one of another text.
    let long = format!("journal 2 {}\n", "x".repeat(100));
    assert!(matches!(checked(long.as_bytes()), Err(CheckError::Fault(1, _))));
    let later = checked(b"journal 1\nend 0\njournal 2\n");
    assert!(matches!(later, Err(CheckError::Fault(3, _))));
    let restored = Board::restore(&b"journal 4\n"[..], LIMIT).err().unwrap();
    let other = "the journal's messages are those of the other kind of switchboard";
    assert_eq!(restored.to_string(), other);
    let later = checked(b"journal 9\n").err().unwrap();
    assert_eq!(later.to_string(), "the journal's text has version 9, and not 1 to 4");
}

/// Fails at every other read, and gives little at each.
struct Fickle<'a> {
    text: &'a [u8],
    reads: usize,
    error: io::ErrorKind,
}

impl Read for Fickle<'_> {
    fn read(&mut self, to: &mut [u8]) -> io::Result<usize> {
        self.reads += 1;
        if self.reads % 2 == 1 {
            return Err(self.error.into());
        }
        let most = to.len().min(7);
        self.text.read(&mut to[..most])
    }
}

#[test]
fn readers_and_writers_may_fail() {
    let text = three_pieces();
    let fickle = |error| {
        BufReader::new(Fickle {
            text: &text,
            reads: 0,
            error,
        })
    };
    let mut checker = Checker::of_numbers().unwrap();
    checker.read(fickle(io::ErrorKind::Interrupted)).unwrap();
    assert_eq!((checker.entries(), checker.is_whole()), (16, true));

    let mut checker = Checker::of_numbers().unwrap();
    let mut reader = fickle(io::ErrorKind::TimedOut);
    let mut failed = 0;
    while let Err(CheckError::Io(error)) = checker.read(&mut reader) {
        assert_eq!(error.kind(), io::ErrorKind::TimedOut);
        failed += 1;
    }
    assert_eq!((checker.entries(), checker.is_whole()), (16, true));
    assert!(failed > text.len() / 7);

    let board = Switchboard::of_numbers(LIMIT).unwrap();
    let mut room = [0; 5];
    let written = board.take_journal().unwrap().write_to(&mut room.as_mut_slice());
    assert_eq!(written.map_err(|error| error.kind()), Err(io::ErrorKind::WriteZero));
    assert_eq!(&room, b"journ");
}

/// A journal with a line that no reader takes isn't written. A message of three bytes a byte may
/// have 1,398,000.
#[test]
fn no_journal_is_written_that_is_not_read() {
    for (length, is_short) in [(1_398_000, true), (1_398_300, false)] {
        let board = Switchboard::new(LIMIT).unwrap();
        let mut seat = board.seat().unwrap();
        let mailbox = seat.mailbox::<Vec<u8>>().unwrap();
        seat.send(mailbox, vec![0xFF; length]).unwrap();
        let mut text = Vec::new();
        match board.take_journal().unwrap().write_to(&mut text) {
            Ok(()) => assert!(is_short),
            Err(error) => {
                assert_eq!(
                    (is_short, error.kind(), text.len()),
                    (false, io::ErrorKind::InvalidData, 0)
                );
                assert_eq!(error.into_inner().unwrap().downcast_ref(), Some(&Error::TooLong));
                continue;
            }
        }
        let again: Switchboard = Switchboard::restore(&text[..], LIMIT).unwrap();
        let mailbox = again.mailbox::<Vec<u8>>(0).unwrap();
        assert_eq!(again.seat().unwrap().recv(mailbox).unwrap().len(), length);
    }
}

/// What a journal's numbers cost doesn't go by how high they are.
#[test]
fn a_huge_number_costs_nothing() {
    let last = (1_u64 << 63) - 2;
    for who in ["seat", "lane", "feed"] {
        let text = format!("journal 1\n{who} {last} mailbox: made 0\nend 1\n");
        let board = Board::restore(text.as_bytes(), LIMIT).unwrap();
        let seat = board.seat().map(|seat| seat.number());
        assert_eq!(
            seat,
            if who == "seat" {
                Err(Error::NoMemory)
            } else {
                Ok(0)
            }
        );
    }
}

/// The threads of a restored board wait and are woken, by the numbers that follow those of the
/// journal.
#[test]
fn threads_wait_on_a_restored_board() {
    let board = Board::restore(
        &b"journal 1\nseat 40 mailbox: made 0\nseat 7 mailbox: made 1\nend 2\n"[..],
        1 << 32,
    )
    .unwrap();
    let (there, back) = (board.mailbox(0).unwrap(), board.mailbox(1).unwrap());
    let (mut ann, mut ben) = (board.seat().unwrap(), board.seat().unwrap());
    assert_eq!((ann.number(), ben.number()), (41, 42));
    thread::scope(|scope| {
        scope.spawn(move || {
            while let Ok(message) = ben.recv(there) {
                ben.send(back, message + 1).unwrap();
            }
        });
        for message in 0..1_000 {
            ann.send(there, message).unwrap();
            assert_eq!(ann.recv(back), Ok(message + 1));
        }
        // No thread could go on. Once this seat leaves, the other thread's call fails too.
        assert_eq!(ann.recv(back), Err(Error::Stalled));
        drop(ann);
    });
}
