//! Four threads pass messages, and their journal is kept in a file. Kill the process whenever you like: the next one goes on from
//! the file, and no call that returned is lost.
//!
//!     keep_journal [--tell] FOLDER [MESSAGES]
//!     keep_journal --rerun FOLDER MESSAGES
//!
//! Thread k sends to mailbox k + 1 and receives from mailbox k. Its n-th message is n. FOLDER/journal has the journal. With MESSAGES
//! each thread ends after this many messages. With --tell a line on standard output tells each call once it has returned: `sent 2
//! 17`, and `got 2 17`. With --rerun the threads go in the order of the journal in FOLDER, which one process has written that ended
//! by itself: run that under a debugger. `tests/programs/keep_journal.sh` kills the program at random moments.
//!
//! While a process has the journal, another one changes nothing in FOLDER. It says so, and ends with status 1, as each that fails.

use seryugo::explore::Rerun;
use seryugo::{Error, Mailbox, Numbers, Object, Seat, Switchboard};
use std::error::Error as AnyError;
use std::fs::File;
use std::io::BufReader;
use std::path::Path;
use std::process::ExitCode;
use std::{env, thread};

const THREADS: u64 = 4;

/// How many messages a thread sends before it receives.
const AT_ONCE: u64 = 16;

const USAGE: &str = "usage: keep_journal [--tell] FOLDER [MESSAGES], or keep_journal --rerun FOLDER MESSAGES";

fn main() -> ExitCode {
    match run() {
        Ok(()) => ExitCode::SUCCESS,
        Err(error) => {
            eprintln!("keep_journal: {error}");
            ExitCode::FAILURE
        }
    }
}

fn run() -> Result<(), Box<dyn AnyError>> {
    let mut words = env::args().skip(1).peekable();
    let is_rerun = words.next_if(|word| word == "--rerun").is_some();
    let tells = words.next_if(|word| word == "--tell").is_some();
    let path = Path::new(&words.next().ok_or(USAGE)?).join("journal");
    let messages = words.next().map(|word| word.parse()).transpose()?;
    match messages {
        Some(messages) if is_rerun => rerun(&path, messages),
        None if is_rerun => Err(USAGE.into()),
        _ => {
            keep(&path, messages.unwrap_or(u64::MAX), tells).map_err(|error| format!("{}: {error}", path.display()).into())
        }
    }
}

/// Has the threads pass messages in the order of the journal.
fn rerun(path: &Path, messages: u64) -> Result<(), Box<dyn AnyError>> {
    let journal = BufReader::new(File::open(path)?);
    // If a call isn't the journal's, `reran` says which.
    let reran = Rerun::<Numbers>::read(journal)?.run(|board| drop(pass_all(board, messages, false)));
    println!("{reran}");
    if reran.is_followed() && reran.stops().is_empty() {
        return Ok(());
    }
    Err("the journal is not that of such a run".into())
}

/// Passes messages, and keeps the journal.
fn keep(path: &Path, messages: u64, tells: bool) -> Result<(), Error> {
    let board = Switchboard::open_numbers(path)?;
    println!("goes on after {} entries", board.entries());
    pass_all(&board, messages, tells)?;
    board.close()
}

/// Has each thread pass this many messages.
fn pass_all(board: &Switchboard<Numbers>, messages: u64, tells: bool) -> Result<(), Error> {
    let mut seats = (0..THREADS).map(|_| board.seat()).collect::<Result<Vec<_>, _>>()?;
    // The first process makes them. If it was killed before it made all, this one makes the others.
    let find = |number| seats[0].mailbox_again(number);
    let mailboxes = (0..THREADS).map(find).collect::<Result<Vec<_>, _>>()?;
    thread::scope(|scope| {
        let passing: Vec<_> = (0..)
            .zip(seats)
            .map(|(k, seat)| {
                let (from, to) = (mailboxes[k], mailboxes[(k + 1) % mailboxes.len()]);
                scope.spawn(move || pass(board, seat, to, from, messages, tells))
            })
            .collect();
        passing.into_iter().try_for_each(|thread| thread.join().expect("a thread panicked"))
    })
}

/// One thread: it sends some messages, receives as many, and so on.
fn pass(
    board: &Switchboard<Numbers>,
    mut seat: Seat<'_, Numbers>,
    to: Mailbox<u64>,
    from: Mailbox<u64>,
    messages: u64,
    tells: bool,
) -> Result<(), Error> {
    let tell = |word, mailbox: Mailbox<u64>, message| match tells {
        true => println!("{word} {} {message}", mailbox.number()),
        false => (),
    };
    let (mut sent, mut received) = (board.sent(to)?, board.got(from)?);
    let mut left = messages;
    while left > 0 {
        let some = left.min(AT_ONCE);
        for _ in 0..some {
            seat.send(to, sent)?;
            tell("sent", to, sent);
            sent += 1;
        }
        for _ in 0..some {
            assert_eq!(seat.recv(from)?, received, "a message is lost or doubled");
            tell("got", from, received);
            received += 1;
        }
        left -= some;
    }
    Ok(())
}
