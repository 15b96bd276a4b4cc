//! A journal that was taken.

pub(crate) mod checker;
pub(crate) mod entry;
pub(crate) mod file;
pub(crate) mod full;
pub(crate) mod keep;
pub(crate) mod prefix;
pub(crate) mod recovered;
pub(crate) mod restore;
pub(crate) mod sum;

use crate::error::Error;
use crate::journal::entry::{found, Entry};
use crate::journal::sum::Sum;
use crate::message::carries::{Bytes, MessageKind};
use crate::message::received::Received;
use crate::raw::{EntrySource, Handle};
use std::cell::RefCell;
use std::fmt;
use std::io::{self, ErrorKind, Write};
use std::marker::PhantomData;
use std::ops::Range;

/// The entries that a switchboard's journal had when it was taken, oldest first. They are their
/// owner's own, and may go to another thread, to be read there without the switchboard's lock.
///
/// ```
/// use seryugo::{Call, Error, Switchboard};
///
/// # fn main() -> Result<(), Error> {
/// let board = Switchboard::of_numbers(1_000)?;
/// let mut seat = board.seat()?;
/// let mailbox = seat.mailbox::<u64>()?;
/// seat.send(mailbox, 5)?;
/// let journal = board.take_journal()?;
/// let sent = journal.iter().filter(|entry| matches!(entry.call, Call::Send(_, 5)));
/// assert_eq!(sent.count(), 1);
/// assert_eq!((journal.len(), board.cut_at()), (2, 2));
/// # Ok(())
/// # }
/// ```
///
/// Two threads can't share it:
///
/// ```compile_fail,E0277
/// fn shared<T: Sync>() {}
/// shared::<seryugo::Journal>();
/// ```
pub struct Journal<R: MessageKind = Bytes> {
    // Calls on a handle are one at a time, also those that change nothing.
    handle: RefCell<Handle>,
    first: u64,
    len: usize,
    kind: PhantomData<fn() -> R>,
}

impl<R: MessageKind> Journal<R> {
    pub(crate) fn new(handle: Handle, first: u64, len: usize) -> Journal<R> {
        Journal {
            handle: RefCell::new(handle),
            first,
            len,
            kind: PhantomData,
        }
    }

    /// The position of its first entry: how many entries the switchboard had before, since it was
    /// made or made short by [`compact_and_cut`](crate::Switchboard::compact_and_cut).
    ///
    /// ```
    /// # fn main() -> Result<(), seryugo::Error> {
    /// let board = seryugo::Switchboard::of_numbers(1_000)?;
    /// let mut seat = board.seat()?;
    /// seat.mailbox::<u64>()?;
    /// assert_eq!(board.take_journal()?.first(), 0);
    /// seat.mailbox::<u64>()?;
    /// assert_eq!(board.take_journal()?.first(), 1);
    /// # Ok(())
    /// # }
    /// ```
    pub fn first(&self) -> u64 {
        self.first
    }

    /// How many entries there are.
    ///
    /// ```
    /// # let board = seryugo::Switchboard::of_numbers(1_000)?;
    /// # let mut seat = board.seat()?;
    /// seat.mailbox::<u64>()?;
    /// let journal = board.take_journal()?;
    /// assert_eq!(journal.len(), 1);
    /// # Ok::<(), seryugo::Error>(())
    /// ```
    pub fn len(&self) -> usize {
        self.len
    }

    /// Whether there is none.
    ///
    /// ```
    /// # let board = seryugo::Switchboard::of_numbers(1_000)?;
    /// assert!(board.take_journal()?.is_empty());
    /// # Ok::<(), seryugo::Error>(())
    /// ```
    pub fn is_empty(&self) -> bool {
        self.len == 0
    }

    /// The entry of this place, counted from 0 for the oldest. It has copies of the messages. If
    /// there is no memory for them, the program aborts, as if a `Vec` found none.
    ///
    /// ```
    /// # let board = seryugo::Switchboard::of_numbers(1_000)?;
    /// # let mut seat = board.seat()?;
    /// seat.mailbox::<u64>()?;
    /// let journal = board.take_journal()?;
    /// assert_eq!(journal.entry(0).map(|entry| entry.call), Some(seryugo::Call::NewMailbox));
    /// assert_eq!(journal.entry(1), None);
    /// # Ok::<(), seryugo::Error>(())
    /// ```
    pub fn entry(&self, place: usize) -> Option<Entry<R>> {
        found(R::entry(&mut self.handle.borrow_mut(), EntrySource::Journal, place as u64))
    }

    /// Writes the entries as text: one piece, as `docs/FORMATS.md` says under "Journals". Write the
    /// pieces of a switchboard one after the other, and [`Checker`](crate::Checker) and
    /// [`Switchboard::restore`](crate::Switchboard::restore) read them. It flushes nothing.
    ///
    /// Not all damage of such a text is seen. That of a [sealed](Journal::write_sealed_to) one is.
    ///
    /// ```
    /// # fn main() -> Result<(), Box<dyn std::error::Error>> {
    /// let board = seryugo::Switchboard::of_numbers(1_000)?;
    /// let mut seat = board.seat()?;
    /// let mailbox = seat.mailbox::<u64>()?;
    /// seat.send(mailbox, 5)?;
    /// let mut file = Vec::new();
    /// board.take_journal()?.write_to(&mut file)?;
    /// assert_eq!(file, b"journal 1\nseat 0 mailbox: made 0\nseat 0 send 0 5: done\nend 2\n");
    /// # Ok(())
    /// # }
    /// ```
    ///
    /// # Errors
    ///
    /// - `InvalidData`, with [`Error::TooLong`] inside, if a message is so long that no reader would
    ///   take its line. Then nothing is written.
    /// - `OutOfMemory` if there is no memory for the text, or if it would have 2^32 bytes or more.
    /// - What `to` fails with.
    pub fn write_to(&self, to: &mut impl Write) -> io::Result<()> {
        self.write_at(self.first, to)
    }

    /// Writes the piece as [`write_to`](Journal::write_to) does, with its first entry at this
    /// position of the text, in place of [`first`](Journal::first).
    ///
    /// ```
    /// # fn main() -> Result<(), Box<dyn std::error::Error>> {
    /// # let board = seryugo::Switchboard::of_numbers(1_000)?;
    /// board.seat()?.mailbox::<u64>()?;
    /// let mut text = Vec::new();
    /// board.take_journal()?.write_at(7, &mut text)?;
    /// assert_eq!(text, b"journal 1\nfrom 7\nseat 0 mailbox: made 0\nend 8\n");
    /// # Ok(())
    /// # }
    /// ```
    ///
    /// # Errors
    ///
    /// Those of `write_to`; and `InvalidInput` if the position after the last entry would be 2^64
    /// or more.
    pub fn write_at(&self, position: u64, to: &mut impl Write) -> io::Result<()> {
        let text = Received::text_of(&mut self.handle.borrow_mut(), position).map_err(unwritten)?;
        to.write_all(text.as_slice())
    }

    /// Writes the entries as a piece with a sum, which shows damage. `after` is the sum of the
    /// piece before, and `None` for the first piece of a text. Returns the sum of this piece.
    ///
    /// All pieces of a text have sums, or none has. If a reader finds a byte changed, or a piece
    /// left out, doubled or exchanged, it has a fault. The last sum names the whole text: keep it
    /// elsewhere, and nobody can write another text in its place unseen.
    ///
    /// ```
    /// use seryugo::{Numbers, Switchboard};
    ///
    /// # fn main() -> Result<(), Box<dyn std::error::Error>> {
    /// let board = Switchboard::of_numbers(1_000)?;
    /// let mut seat = board.seat()?;
    /// let mailbox = seat.mailbox::<u64>()?;
    /// let mut text = Vec::new();
    /// let sum = board.take_journal()?.write_sealed_to(None, &mut text)?;
    /// assert!(text.ends_with(format!("end 1 {sum}\n").as_bytes()));
    /// seat.send(mailbox, 5)?;
    /// board.take_journal()?.write_sealed_to(Some(sum), &mut text)?;
    /// assert!(Switchboard::<Numbers>::restore(&text[..], 1_000).is_ok());
    /// text[30] ^= 1;
    /// assert!(Switchboard::<Numbers>::restore(&text[..], 1_000).is_err());
    /// # Ok(())
    /// # }
    /// ```
    ///
    /// # Errors
    ///
    /// Those of [`write_to`](Journal::write_to). After one the piece isn't written: the next one
    /// follows `after`.
    pub fn write_sealed_to(&self, after: Option<Sum>, to: &mut impl Write) -> io::Result<Sum> {
        self.write_sealed_at(self.first, after, to)
    }

    /// Writes the piece as [`write_sealed_to`](Journal::write_sealed_to) does, with its first entry
    /// at this position of the text, in place of [`first`](Journal::first).
    ///
    /// ```
    /// # fn main() -> Result<(), Box<dyn std::error::Error>> {
    /// # let board = seryugo::Switchboard::of_numbers(1_000)?;
    /// board.seat()?.mailbox::<u64>()?;
    /// let mut text = Vec::new();
    /// let sum = board.take_journal()?.write_sealed_at(7, Some([9; 32].into()), &mut text)?;
    /// let header = format!("journal 3 {}\n", "09".repeat(32));
    /// let entry = "seat 0 mailbox: made 0";
    /// assert_eq!(text, format!("{header}from 7\n{entry}\nend 8 {sum}\n").as_bytes());
    /// # Ok(())
    /// # }
    /// ```
    ///
    /// # Errors
    ///
    /// Those of [`write_at`](Journal::write_at).
    pub fn write_sealed_at(
        &self,
        position: u64,
        after: Option<Sum>,
        to: &mut impl Write,
    ) -> io::Result<Sum> {
        let (text, sum) = Received::sealed_text_of(&mut self.handle.borrow_mut(), position, after)
            .map_err(unwritten)?;
        to.write_all(text.as_slice())?;
        Ok(sum)
    }

    /// Each entry, oldest first.
    ///
    /// ```
    /// # let board = seryugo::Switchboard::of_numbers(1_000)?;
    /// # let mut seat = board.seat()?;
    /// seat.mailbox::<u64>()?;
    /// let journal = board.take_journal()?;
    /// assert!(journal.iter().all(|entry| entry.call == seryugo::Call::NewMailbox));
    /// # Ok::<(), seryugo::Error>(())
    /// ```
    pub fn iter(&self) -> Entries<'_, R> {
        Entries {
            journal: self,
            places: 0..self.len,
        }
    }
}

/// Why there is no text.
fn unwritten(error: Error) -> io::Error {
    match error {
        Error::TooLong => io::Error::new(ErrorKind::InvalidData, error),
        Error::OutOfBounds => io::Error::new(ErrorKind::InvalidInput, error),
        _ => ErrorKind::OutOfMemory.into(),
    }
}

/// The entries of a [`Journal`], oldest first.
///
/// ```
/// # let board = seryugo::Switchboard::of_numbers(1_000)?;
/// # let mut seat = board.seat()?;
/// seat.mailbox::<u64>()?;
/// let journal = board.take_journal()?;
/// let mut entries = journal.iter();
/// assert_eq!(entries.len(), 1);
/// assert!(entries.next().is_some() && entries.next().is_none());
/// # Ok::<(), seryugo::Error>(())
/// ```
#[must_use = "an iterator reads nothing before it is asked"]
pub struct Entries<'a, R: MessageKind = Bytes> {
    journal: &'a Journal<R>,
    places: Range<usize>,
}

impl<R: MessageKind> Iterator for Entries<'_, R> {
    type Item = Entry<R>;

    fn next(&mut self) -> Option<Entry<R>> {
        self.journal.entry(self.places.next()?)
    }

    fn size_hint(&self) -> (usize, Option<usize>) {
        self.places.size_hint()
    }
}

impl<R: MessageKind> ExactSizeIterator for Entries<'_, R> {}

impl<'a, R: MessageKind> IntoIterator for &'a Journal<R> {
    type Item = Entry<R>;
    type IntoIter = Entries<'a, R>;

    fn into_iter(self) -> Entries<'a, R> {
        self.iter()
    }
}

impl<R: MessageKind> fmt::Debug for Journal<R> {
    fn fmt(&self, f: &mut fmt::Formatter<'_>) -> fmt::Result {
        f.debug_struct("Journal")
            .field("first", &self.first)
            .field("len", &self.len)
            .finish_non_exhaustive()
    }
}

impl<R: MessageKind> fmt::Debug for Entries<'_, R> {
    fn fmt(&self, f: &mut fmt::Formatter<'_>) -> fmt::Result {
        f.debug_struct("Entries").field("places", &self.places).finish_non_exhaustive()
    }
}
