//! A switchboard that goes on from a journal's text.

use crate::error::Error;
use crate::journal::checker::{CheckError, Checker, TextEnd};
use crate::journal::prefix::ValidPrefix;
use crate::message::carries::MessageKind;
use crate::switchboard::Switchboard;
use std::fmt;
use std::io::BufRead;

/// Why no switchboard goes on from a journal.
///
/// ```
/// use seryugo::{Numbers, RestoreError, Switchboard};
///
/// let restored = Switchboard::<Numbers>::restore(&b"journal 1\nseat 0 mail"[..], 1_000);
/// assert!(matches!(restored, Err(RestoreError::Torn(kept)) if kept.entries == 0));
/// ```
#[derive(Debug)]
pub enum RestoreError {
    /// The journal was read no further.
    Check(CheckError),
    /// The text's lines are whole, and its last piece has no end: a program still writes it, or was
    /// stopped. This is what it has. [`Switchboard::restore_torn`] goes on from there.
    Open(ValidPrefix),
    /// The text ends within a line, or is empty: this is what it has in whole lines.
    /// [`Switchboard::restore_torn`] goes on from there.
    Torn(ValidPrefix),
    /// The limit isn't from 1 to 2^32.
    OutOfBounds,
}

impl fmt::Display for RestoreError {
    fn fmt(&self, f: &mut fmt::Formatter<'_>) -> fmt::Result {
        match self {
            RestoreError::Check(error) => error.fmt(f),
            RestoreError::Open(kept) => {
                write!(f, "the journal's last piece has no end, after {} entries", kept.entries)
            }
            RestoreError::Torn(kept) => {
                write!(f, "the journal ends within a line, after {} entries", kept.entries)
            }
            RestoreError::OutOfBounds => Error::OutOfBounds.fmt(f),
        }
    }
}

impl std::error::Error for RestoreError {
    fn source(&self) -> Option<&(dyn std::error::Error + 'static)> {
        match self {
            RestoreError::Check(error) => Some(error),
            _ => None,
        }
    }
}

impl From<CheckError> for RestoreError {
    fn from(error: CheckError) -> RestoreError {
        RestoreError::Check(error)
    }
}

impl<R: MessageKind> Switchboard<R> {
    /// Reads a journal to its end, and returns a switchboard that goes on from there: with the
    /// objects that the journal made, and what they held after its last entry. Its journal is cut,
    /// and takes `limit` entries between two cuts.
    ///
    /// Find the objects again by their numbers ([`mailbox`](Switchboard::mailbox) and so on). The
    /// seats, lanes and feeds of the journal are gone. New ones have numbers that the journal
    /// doesn't have.
    ///
    /// If the journal has sums, the next piece needs the last one: call
    /// [`restore_torn`](Switchboard::restore_torn), which returns it.
    ///
    /// ```
    /// use seryugo::{Numbers, Switchboard};
    ///
    /// # fn main() -> Result<(), Box<dyn std::error::Error>> {
    /// let mut file = Vec::new();
    /// let before = Switchboard::of_numbers(1_000)?;
    /// let mut seat = before.seat()?;
    /// let mailbox = seat.mailbox::<u64>()?;
    /// seat.send(mailbox, 5)?;
    /// before.take_journal()?.write_to(&mut file)?;
    ///
    /// let board = Switchboard::<Numbers>::restore(&file[..], 1_000)?;
    /// let mailbox = board.mailbox(0)?;
    /// let mut seat = board.seat()?;
    /// assert_eq!(seat.number(), 1);
    /// assert_eq!(seat.recv(mailbox)?, 5);
    /// board.take_journal()?.write_to(&mut file)?;
    /// assert!(file.ends_with(b"from 2\nseat 1 recv 0: 5\nend 3\n"));
    /// # Ok(())
    /// # }
    /// ```
    ///
    /// # Errors
    ///
    /// The text isn't lawful, has a fault, is of another type or version, is no journal, or has no
    /// end.
    pub fn restore(journal: impl BufRead, limit: u64) -> Result<Switchboard<R>, RestoreError> {
        let checker = checked(journal)?;
        let unended = match checker.text_end()? {
            TextEnd::Whole => return restored(checker, limit),
            TextEnd::Open => RestoreError::Open,
            TextEnd::Torn => RestoreError::Torn,
        };
        Err(unended(checker.valid_prefix().map_err(CheckError::from)?))
    }

    /// Reads a journal whose text may have no end, as after a crash, and returns a switchboard that
    /// goes on from the last whole line.
    ///
    /// For a journal in a file use [`open`](Switchboard::open), which does the rest too. Otherwise
    /// see that [`ValidPrefix::has_more`] is `false`. Then, before you write the next piece, cut the
    /// text to the bytes that were kept, and write their ending. If the text has sums, write the next piece by
    /// [`Journal::write_sealed_to`](crate::Journal::write_sealed_to) after [`ValidPrefix::sum`]. This
    /// holds of a whole text too. A piece without its end has no sum yet: a change among its lines
    /// that leaves a lawful journal isn't seen.
    ///
    /// ```
    /// use seryugo::{Numbers, Switchboard};
    ///
    /// # fn main() -> Result<(), Box<dyn std::error::Error>> {
    /// let mut file = b"journal 1\nseat 0 mailbox: made 0\n".to_vec();
    /// file.extend_from_slice(b"seat 0 send 0 5: done\nseat 0 recv 0");
    /// let (board, kept) = Switchboard::<Numbers>::restore_torn(&file[..], 1_000)?;
    /// assert_eq!((kept.entries, kept.bytes), (2, 55));
    /// assert_eq!(board.owed(board.mailbox(0)?)?, 1);
    /// file.truncate(55);
    /// file.extend_from_slice(kept.ending.as_bytes());
    /// assert!(Switchboard::<Numbers>::restore(&file[..], 1_000).is_ok());
    /// # Ok(())
    /// # }
    /// ```
    ///
    /// # Errors
    ///
    /// The text isn't lawful, has a fault, is of another type or version, or is no journal.
    pub fn restore_torn(
        journal: impl BufRead,
        limit: u64,
    ) -> Result<(Switchboard<R>, ValidPrefix), RestoreError> {
        let checker = checked(journal)?;
        checker.text_end()?;
        let kept = checker.valid_prefix().map_err(CheckError::from)?;
        Ok((restored(checker, limit)?, kept))
    }
}

fn checked<R: MessageKind>(journal: impl BufRead) -> Result<Checker<R>, CheckError> {
    let mut checker = Checker::open()?;
    checker.read(journal)?;
    Ok(checker)
}

fn restored<R: MessageKind>(
    checker: Checker<R>,
    limit: u64,
) -> Result<Switchboard<R>, RestoreError> {
    match checker.into_room(limit) {
        Ok(room) => Ok(Switchboard::over(room, limit)),
        Err(Error::OutOfBounds) => Err(RestoreError::OutOfBounds),
        Err(error) => Err(RestoreError::Check(error.into())),
    }
}
