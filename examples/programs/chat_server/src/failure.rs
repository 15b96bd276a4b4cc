//! Why the server ends, and with which status.

use crate::arguments::BadArguments;
use seryugo::{Error, Switchboard};
use std::fmt;
use std::io::{self, Write};
use std::path::{Path, PathBuf};
use std::process;

/// What ends the server.
#[derive(Debug)]
pub enum Failure {
    Library(Error),
    Words(BadArguments),
    Listen(io::Error),
    File(PathBuf, String),
    NoJournal(PathBuf, String),
    InUse(PathBuf),
}

impl Failure {
    /// Why this file wasn't opened.
    pub fn of_opening(path: &Path, error: Error) -> Failure {
        let path = path.to_owned();
        match error {
            Error::FileBusy => Failure::InUse(path),
            Error::FileFailed(why) => Failure::File(path, why.to_string()),
            Error::NoJournal | Error::OtherVersion | Error::OtherMessages | Error::BeginsLater => {
                Failure::NoJournal(path, error.to_string())
            }
            Error::Fault(_) | Error::Unlawful(_) => Failure::NoJournal(path, error.to_string()),
            error => Failure::Library(error),
        }
    }

    /// Why a call of a switchboard failed that this file keeps.
    pub fn of_call(path: &Path, board: &Switchboard, error: Error) -> Failure {
        match (&error, board.keeping_error()) {
            (Error::FileFull(_) | Error::FileLost(_), Some(why)) => Failure::File(path.to_owned(), why.to_string()),
            _ => Failure::Library(error),
        }
    }

    /// The exit status.
    pub fn status(&self) -> u8 {
        match self {
            Failure::Library(_) => 1,
            Failure::Words(_) => 2,
            Failure::Listen(_) => 3,
            Failure::File(..) => 4,
            Failure::NoJournal(..) => 5,
            Failure::InUse(_) => 6,
        }
    }

    /// Ends the process at once. All that was acknowledged is on the disk, so nothing has to be saved.
    pub fn end(&self) -> ! {
        self.tell();
        process::exit(self.status().into())
    }

    /// Writes it to standard error. If that can't be written, there is nothing left to write to.
    pub fn tell(&self) {
        let _ = writeln!(io::stderr(), "chat_server: {self}");
    }
}

impl fmt::Display for Failure {
    fn fmt(&self, f: &mut fmt::Formatter<'_>) -> fmt::Result {
        match self {
            Failure::Library(error) => write!(f, "a call failed: {error}"),
            Failure::Words(error) => write!(f, "{error}; see chat_server --help"),
            Failure::Listen(error) => write!(f, "can't listen: {error}"),
            Failure::File(path, error) => write!(f, "{}: {error}", path.display()),
            Failure::NoJournal(path, why) => write!(f, "{} is no journal of a chat server: {why}", path.display()),
            Failure::InUse(path) => write!(f, "{}: another server has the file", path.display()),
        }
    }
}
