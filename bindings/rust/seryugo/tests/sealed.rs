//! Journals with sums: each damage is seen, and torn ones are gone on from.

mod common;

use common::Scratch;
use seryugo::{
    Bytes, CheckError, Checker, Error, Journal, JournalFile, MessageKind, RestoreError, Switchboard,
};
use std::fs;
use std::io::{BufReader, ErrorKind, Write};

const LIMIT: u64 = 1_000;

/// Pieces of a journal of bytes, of which one has no entry.
fn pieces() -> Vec<Journal> {
    let board = Switchboard::new(LIMIT).unwrap();
    let (mut ann, mut ben) = (board.seat().unwrap(), board.seat().unwrap());
    let take = || board.take_journal().unwrap();
    let mailbox = ann.mailbox::<String>().unwrap();
    let channel = ann.channel::<String>().unwrap();
    let port = ben.port(channel).unwrap();
    let first = take();
    let empty = take();
    for number in 0..5 {
        ann.send(mailbox, format!("letter {number}")).unwrap();
        ann.multicast(channel, format!("{}%", "\u{fc}".repeat(number))).unwrap();
        ben.recv(port).unwrap();
    }
    let third = take();
    for _ in 0..4 {
        ben.recv(mailbox).unwrap();
    }
    let ivar = ben.ivar::<u64>().unwrap();
    ben.put(ivar, 7).unwrap();
    vec![first, empty, third, take()]
}

/// The text of each piece, with sums.
fn texts(pieces: &[Journal]) -> Vec<Vec<u8>> {
    let mut last = None;
    let write = |piece: &Journal| {
        let mut text = Vec::new();
        last = Some(piece.write_sealed_to(last, &mut text).unwrap());
        text
    };
    pieces.iter().map(write).collect()
}

fn checked<R: MessageKind>(mut checker: Checker<R>, text: &[u8]) -> Result<Checker<R>, CheckError> {
    checker.read(text)?;
    Ok(checker)
}

fn check(text: &[u8]) -> Result<Checker, CheckError> {
    checked(Checker::new()?, text)
}

/// Whether it is read as a whole journal.
fn is_whole(text: &[u8]) -> bool {
    check(text).is_ok_and(|checker| checker.is_whole())
}

fn is_fault(text: &[u8]) -> bool {
    matches!(check(text), Err(CheckError::Fault(..)))
}

#[test]
fn a_sealed_text_is_read_back() {
    let texts = texts(&pieces());
    let text = texts.concat();
    let checker = check(&text).unwrap();
    assert!(checker.is_whole() && checker.entries() == 24);
    let line = text.strip_suffix(b"\n").unwrap().rsplit(|byte| *byte == b'\n').next().unwrap();
    assert_eq!(line, format!("end 24 {}", checker.sum().unwrap()).as_bytes());
    let mut plain = Vec::new();
    for piece in pieces() {
        piece.write_to(&mut plain).unwrap();
    }
    assert_eq!(check(&plain).unwrap().sum(), None);
    // All pieces have sums, or none has.
    assert!(
        is_fault(&[&texts[0][..], &plain].concat()) && is_fault(&[&plain[..], &texts[0]].concat())
    );
}

#[test]
fn each_changed_byte_is_seen() {
    let text = texts(&pieces()).concat();
    assert!(text.split(|byte| *byte == b'\n').count() > 35 && is_whole(&text));
    for at in 0..text.len() {
        for changed in [text[at] ^ 1, text[at] ^ 0x20] {
            let mut text = text.clone();
            if changed != std::mem::replace(&mut text[at], changed) {
                let read = check(&text);
                let is_seen = match read {
                    Err(CheckError::Fault(..) | CheckError::Unlawful(_)) => true,
                    // The first line's version.
                    Err(CheckError::OtherVersion(_)) => at == "journal ".len(),
                    _ => false,
                };
                // The text ends before a byte 0, and its last byte ends its last piece: without it
                // the text has no end.
                let ends_early = changed == 0 || at + 1 == text.len();
                assert!(
                    is_seen || (ends_early && !is_whole(&text)),
                    "byte {at}, {changed}: {read:?}"
                );
            }
        }
    }
}

#[test]
fn a_piece_that_is_left_out_doubled_or_exchanged_is_seen() {
    let texts = texts(&pieces());
    for at in 0..texts.len() {
        let mut without = texts.clone();
        without.remove(at);
        // Without its last piece a text is an earlier one. Only the sum that somebody kept says so.
        let is_last = at + 1 == texts.len();
        assert_eq!(is_fault(&without.concat()), !is_last);
        let mut doubled = texts.clone();
        doubled.insert(at, texts[at].clone());
        assert!(is_fault(&doubled.concat()));
        for other in at + 1..texts.len() {
            let mut exchanged = texts.clone();
            exchanged.swap(at, other);
            assert!(is_fault(&exchanged.concat()));
        }
    }
    let last = |texts: &[Vec<u8>]| check(&texts.concat()).unwrap().sum();
    assert_ne!(last(&texts), last(&texts[..3]));
    assert_ne!(last(&texts[..1]), last(&texts[..2]));
}

/// Each text that ends early is gone on from, and stays one whose damage is seen.
#[test]
fn a_sealed_text_may_end_anywhere() {
    let text = texts(&pieces())[..3].concat();
    for end in 0..=text.len() {
        let torn = &text[..end];
        let reader = BufReader::with_capacity(1 + end % 90, torn);
        let (board, kept): (Switchboard, _) = Switchboard::restore_torn(reader, LIMIT).unwrap();
        let mut mended = torn[..kept.bytes as usize].to_vec();
        mended.write_all(kept.ending.as_bytes()).unwrap();
        let checker = check(&mended).unwrap();
        assert_eq!(
            (checker.sum(), checker.is_whole()),
            (kept.sum, !mended.is_empty()),
            "the first {end} bytes"
        );
        board.seat().unwrap().mailbox::<u64>().unwrap();
        let sum = board.take_journal().unwrap().write_sealed_to(kept.sum, &mut mended).unwrap();
        let checker = check(&mended).unwrap();
        assert_eq!(
            (checker.entries(), checker.is_whole(), checker.sum()),
            (kept.entries + 1, true, Some(sum)),
            "the first {end} bytes"
        );
        match Switchboard::<Bytes>::restore(torn, LIMIT) {
            Ok(_) => assert!(kept.ending.is_empty() && kept.bytes == end as u64),
            Err(RestoreError::Open(told) | RestoreError::Torn(told)) => assert_eq!(told, kept),
            Err(error) => panic!("{error}"),
        }
    }
}

#[test]
fn a_reading_that_has_stopped_has_no_sum() {
    let text = texts(&pieces()).concat();
    let mut checker = check(&text).unwrap();
    assert!(checker.sum().is_some());
    checker.read(&b"what\n"[..]).unwrap_err();
    assert_eq!(checker.sum(), None);
    let mut checker = Checker::of_numbers().unwrap();
    assert_eq!(checker.sum(), None);
    checker.read(&b"journal 3\nseat 0 mailbox: made 0\nseat 0 recv 0: 5\n"[..]).unwrap_err();
    assert_eq!(checker.sum(), None);
}

#[test]
fn a_piece_is_written_at_another_position() {
    let pieces = pieces();
    let (mut plain, mut sealed) = (Vec::new(), Vec::new());
    pieces[0].write_at(0, &mut plain).unwrap();
    pieces[2].write_at(3, &mut plain).unwrap();
    assert!(is_whole(&plain));
    let sum = pieces[0].write_sealed_to(None, &mut sealed).unwrap();
    pieces[2].write_sealed_at(3, Some(sum), &mut sealed).unwrap();
    assert!(is_whole(&sealed));
    let end = u64::MAX - pieces[0].len() as u64;
    assert!(pieces[0].write_at(end, &mut Vec::new()).is_ok());
    let refused = pieces[0].write_at(end + 1, &mut Vec::new()).unwrap_err();
    assert_eq!(refused.kind(), ErrorKind::InvalidInput);
    let refused = pieces[0].write_sealed_at(end + 1, None, &mut Vec::new()).unwrap_err();
    assert_eq!(refused.into_inner().unwrap().downcast_ref(), Some(&Error::OutOfBounds));
}

#[test]
fn a_piece_that_is_not_written_leaves_the_sum() {
    let board = Switchboard::new(LIMIT).unwrap();
    let mut seat = board.seat().unwrap();
    let mailbox = seat.mailbox::<Vec<u8>>().unwrap();
    seat.send(mailbox, vec![0xFF; 1_398_300]).unwrap();
    let mut text = Vec::new();
    let refused = board.take_journal().unwrap().write_sealed_to(None, &mut text).unwrap_err();
    assert_eq!((refused.kind(), text.len()), (ErrorKind::InvalidData, 0));
}

#[test]
fn a_file_with_sums_shows_a_changed_byte() {
    let scratch = Scratch::new("sums");
    let options = JournalFile::new().sync_by_hand().sealed();
    for run in 0..3 {
        let board = options.open(scratch.path()).unwrap();
        let found = board.recovered().unwrap().clone();
        assert_eq!(
            (found.entries, found.is_shortened),
            (if run == 0 { 0 } else { run + 1 }, false)
        );
        let mut seat = board.seat().unwrap();
        let letters = seat.mailbox_again::<String>(0).unwrap();
        seat.send(letters, "Dear Ben").unwrap();
        drop(seat);
        board.close().unwrap();
    }
    let text = fs::read(scratch.path()).unwrap();
    let checker = check(&text).unwrap();
    assert!(checker.is_whole() && checker.sum().is_some());
    assert_eq!(scratch.text().matches("\nend ").count(), 3);
    for place in (10..text.len()).filter(|place| text[*place] != b'\n') {
        let mut changed = text.clone();
        changed[place] ^= 1;
        fs::write(scratch.path(), &changed).unwrap();
        let refused = options.open(scratch.path()).unwrap_err();
        assert!(matches!(refused, Error::Fault(_) | Error::Unlawful(_)), "{place}: {refused}");
        assert_eq!(fs::read(scratch.path()).unwrap(), changed);
    }
}

#[test]
fn a_file_gets_sums_or_loses_them_as_asked_for() {
    let scratch = Scratch::new("asked");
    for (run, options) in [
        JournalFile::new(),
        JournalFile::new().sealed(),
        JournalFile::new(),
    ]
    .iter()
    .enumerate()
    {
        let board = options.open(scratch.path()).unwrap();
        assert_eq!(board.recovered().unwrap().is_shortened, run > 0);
        let mut seat = board.seat().unwrap();
        let letters = seat.mailbox_again::<u64>(0).unwrap();
        assert_eq!(board.owed(letters), Ok(run as u64));
        seat.send(letters, 5).unwrap();
        drop(seat);
        board.close().unwrap();
        let version = if run == 1 {
            "journal 4\n"
        } else {
            "journal 2\n"
        };
        assert!(scratch.text().starts_with(version));
    }
}
