//! The journal's file is opened, and what an earlier server left is found in it.

use crate::failure::Failure;
use crate::recovery::{Foreign, Left};
use seryugo::{JournalFile, Recovered, Switchboard};
use std::fs::File;
use std::io::{self, BufReader, Write};
use std::path::Path;

/// How many entries a copy of the switchboard takes: those by which a room of an earlier server gets its witness.
const COPY_LIMIT: u64 = 1 << 32;

/// Opens the switchboard that the file keeps. Returns it with what an earlier server left.
pub fn open(path: &Path, compact_from: u64) -> Result<(Switchboard, Left), Failure> {
    refuse_foreign(path)?;
    let board = options(compact_from).open(path).map_err(|error| Failure::of_opening(path, error))?;
    board.recovered().into_iter().for_each(|found| tell(path, found));
    let left = Left::on(&board).map_err(|why| unread(path, &board, why))?;
    Ok((board, left))
}

/// The file has sums. It is made short if it has at least `compact_from` bytes, and four times those of its short form.
fn options(compact_from: u64) -> JournalFile {
    JournalFile::new().short_from(compact_from).sealed()
}

/// Refuses the journal of another program before it is opened, which may change it. What else is wrong with a file, its opening
/// says.
fn refuse_foreign(path: &Path) -> Result<(), Failure> {
    // To open a pipe could wait for ever.
    let file = if path.is_file() { File::open(path).ok() } else { None };
    let copy = file.and_then(|file| Switchboard::restore_torn(BufReader::new(file), COPY_LIMIT).ok());
    copy.map_or(Ok(()), |(board, _)| match Left::on(&board) {
        Ok(_) => Ok(()),
        Err(why) => Err(unread(path, &board, why)),
    })
}

/// Why a switchboard that this file keeps isn't read as one of a chat server.
fn unread(path: &Path, board: &Switchboard, why: Foreign) -> Failure {
    match why {
        Foreign::Failed(error) => Failure::of_call(path, board, error),
        why => Failure::NoJournal(path.to_owned(), why.to_string()),
    }
}

/// Says on standard error what may surprise about the file. If that can't be written, the server goes on all the same.
fn tell(path: &Path, found: &Recovered) {
    let (path, mut errors) = (path.display(), io::stderr());
    if let Some(saved) = &found.saved {
        let _ = writeln!(errors, "chat_server: {path}: what came after its last whole line is in {}", saved.display());
    }
    if let Some(why) = &found.not_shortened {
        let _ = writeln!(errors, "chat_server: {path}: it can't be made short, and goes on: {why}");
    }
}
