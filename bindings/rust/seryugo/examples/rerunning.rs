//! How long a rerun takes beside the run that wrote its journal:
//! `cargo run --release --example rerunning -- 1000000`, with how many entries there are about.

use seryugo::explore::Rerun;
use seryugo::{Error, MVar, Mailbox, Numbers, OwnedSeat, Switchboard};
use std::sync::Arc;
use std::thread;
use std::time::{Duration, Instant};

type Board = Arc<Switchboard<Numbers>>;

const THREADS: usize = 4;
const ROUNDS: usize = 3;

/// What the threads share.
#[derive(Clone, Copy)]
struct Objects {
    letters: [Mailbox<u64>; THREADS],
    lock: MVar<u64>,
}

/// What the thread of this number does in a run of about this many entries.
type Work = fn(usize, u64, Objects, OwnedSeat<Numbers>) -> Result<(), Error>;

/// Each sends to the next one, and receives its own.
fn ring(
    number: usize,
    entries: u64,
    objects: Objects,
    mut seat: OwnedSeat<Numbers>,
) -> Result<(), Error> {
    for letter in 0..entries / 8 {
        seat.send(objects.letters[(number + 1) % THREADS], letter)?;
        seat.recv(objects.letters[number])?;
    }
    Ok(())
}

/// Three send to the first one.
fn three_to_one(
    number: usize,
    entries: u64,
    objects: Objects,
    mut seat: OwnedSeat<Numbers>,
) -> Result<(), Error> {
    let each = entries / 6;
    match number {
        0 => (0..3 * each).try_for_each(|_| seat.recv(objects.letters[0]).map(drop)),
        _ => (0..each)
            .try_for_each(|letter| seat.send(objects.letters[0], letter).map_err(Error::from)),
    }
}

/// Each takes what the variable holds, and puts it back.
fn lock(
    _number: usize,
    entries: u64,
    objects: Objects,
    mut seat: OwnedSeat<Numbers>,
) -> Result<(), Error> {
    for _ in 0..entries / 8 {
        let held = seat.take(objects.lock)?;
        seat.put(objects.lock, held + 1)?;
    }
    Ok(())
}

/// How long four threads take.
fn run(board: &Board, entries: u64, work: Work) -> Result<Duration, Error> {
    let mut seats = Vec::new();
    for _ in 0..THREADS {
        seats.push(board.seat_owned()?);
    }
    let mut main = board.seat()?;
    let objects = Objects {
        letters: [
            main.mailbox()?,
            main.mailbox()?,
            main.mailbox()?,
            main.mailbox()?,
        ],
        lock: main.mvar_init(0)?,
    };
    let start = Instant::now();
    thread::scope(|threads| {
        let started = seats.into_iter().enumerate();
        let started = started
            .map(|(number, seat)| threads.spawn(move || work(number, entries, objects, seat)));
        let started: Vec<_> = started.collect();
        started.into_iter().try_for_each(|thread| thread.join().expect("no panic"))
    })?;
    Ok(start.elapsed())
}

fn main() -> Result<(), Box<dyn std::error::Error>> {
    let entries = std::env::args().nth(1).map_or(Ok(1_000_000), |word| word.parse())?;
    let works: [(&str, Work); 3] = [
        ("a ring", ring),
        ("three send to one", three_to_one),
        ("a lock", lock),
    ];
    for (name, work) in works {
        for _ in 0..ROUNDS {
            measure(name, entries, work)?;
        }
    }
    Ok(())
}

fn measure(name: &str, entries: u64, work: Work) -> Result<(), Box<dyn std::error::Error>> {
    let board = Arc::new(Switchboard::of_numbers(2 * entries + 100)?);
    let first = run(&board, entries, work)?;
    let journal = board.take_journal()?;
    let makers: Vec<_> = journal.iter().map(|entry| entry.who).collect();
    let changes = makers.windows(2).filter(|pair| pair[0] != pair[1]).count();
    let start = Instant::now();
    let rerun = Rerun::of(&journal)?;
    let loaded = start.elapsed();
    let mut again = Ok(Duration::ZERO);
    let reran = rerun.run(|board| again = run(board, entries, work));
    assert!(reran.is_followed(), "{reran}");
    let again = again?;
    println!(
        "{name}: {} entries, {changes} changes of seat; {first:?}, again {again:?}: {:.1} times; \
         loaded in {loaded:?}",
        journal.len(),
        again.as_secs_f64() / first.as_secs_f64()
    );
    Ok(())
}
