//! What a journal's text costs: `cargo run --release --example journals -- 1000000` prints
//! nanoseconds an entry.

use seryugo::{Checker, Error, Journal, Numbers, Switchboard};
use std::error::Error as AnyError;
use std::time::Instant;
use std::{env, hint};

/// How many entries the journal has between two cuts.
const PIECE: u64 = 10_000;

fn main() -> Result<(), Box<dyn AnyError>> {
    let entries = env::args().nth(1).map_or(Ok(1_000_000), |word| word.parse::<u64>())?;
    let mut text = Vec::with_capacity(entries as usize * 30);
    let start = Instant::now();
    let board = Switchboard::of_numbers(PIECE)?;
    let mut writing = 0;
    send_and_receive(&board, entries, |journal| {
        let start = Instant::now();
        journal.write_to(&mut text)?;
        writing += start.elapsed().as_nanos();
        Ok(())
    })?;
    let all = start.elapsed().as_nanos();
    print("to make", all - writing, entries);
    print("to write", writing, entries);

    let start = Instant::now();
    let mut checker = Checker::of_numbers()?;
    checker.read(&text[..])?;
    print("to check", start.elapsed().as_nanos(), entries);
    assert!(checker.is_whole() && checker.entries() == entries);

    let start = Instant::now();
    hint::black_box(Switchboard::<Numbers>::restore(&text[..], PIECE)?);
    print("to restore", start.elapsed().as_nanos(), entries);
    Ok(())
}

/// One seat sends to a mailbox and receives from it, and the journal is taken where it is full.
fn send_and_receive(
    board: &Switchboard<Numbers>,
    entries: u64,
    mut keep: impl FnMut(&Journal<Numbers>) -> Result<(), Box<dyn AnyError>>,
) -> Result<(), Box<dyn AnyError>> {
    let mut seat = board.seat()?;
    let mailbox = seat.mailbox()?;
    let mut call = |made: u64| match made % 2 {
        1 => seat.send(mailbox, made).map_err(Error::from),
        _ => seat.recv(mailbox).map(drop),
    };
    for made in 1..entries {
        if call(made) == Err(Error::JournalFull) {
            keep(&board.take_journal()?)?;
            call(made)?;
        }
    }
    keep(&board.take_journal()?)
}

fn print(what: &str, nanoseconds: u128, entries: u64) {
    println!("{what:<10} {:>6} ns an entry", nanoseconds / u128::from(entries.max(1)));
}
