//! A journal's text, checked as it is read.

use crate::error::Error;
use crate::journal::prefix::{Lines, ValidPrefix};
use crate::journal::sum::{RawSum, Sum};
use crate::journal::Journal;
use crate::message::carries::{Bytes, MessageKind, Numbers};
use crate::raw::{self, code, written, Handle, ReadingState};
use crate::version;
use std::alloc::{handle_alloc_error, Layout};
use std::cell::RefCell;
use std::fmt;
use std::io::{self, BufRead, ErrorKind};
use std::marker::PhantomData;

/// Reads a journal's text from its first piece on, and checks that its entries are a lawful history
/// of one thread.
///
/// It needs memory for the objects, for what waits in them, and for one line, however long the
/// journal is.
///
/// ```
/// use seryugo::{CheckError, Checker};
///
/// # fn main() -> Result<(), CheckError> {
/// let mut checker = Checker::of_numbers()?;
/// checker.read(&b"journal 1\nseat 0 mailbox: made 0\nend 1\n"[..])?;
/// assert_eq!(checker.entries(), 1);
/// assert!(checker.is_whole());
/// # Ok(())
/// # }
/// ```
pub struct Checker<R: MessageKind = Bytes> {
    // Calls on a handle are one at a time, also those that change nothing.
    handle: RefCell<Handle>,
    lines: Lines,
    kind: PhantomData<fn() -> R>,
}

/// Why a journal was read no further.
///
/// ```
/// use seryugo::{CheckError, Checker};
///
/// let read = Checker::of_numbers()?.read(&b"journal 1\nwhat\n"[..]);
/// assert!(matches!(read, Err(CheckError::Fault(2, "too few words"))));
/// # Ok::<(), CheckError>(())
/// ```
#[derive(Debug)]
#[non_exhaustive]
pub enum CheckError {
    /// The entry at this position, counted from 0, is the first that isn't lawful.
    Unlawful(u64),
    /// This line, counted from 1, has this fault, in the words of `cml check`; or it says that the
    /// journal begins after a cut.
    Fault(u64, &'static str),
    /// The text has no whole line, and no journal begins so.
    NoJournal,
    /// The messages are numbers by the text's first line, and the checker or the switchboard is one
    /// of bytes; or the other way round.
    OtherMessages,
    /// By its first line the text has this version, which the linked library doesn't read.
    OtherVersion(u64),
    /// The reader failed. What it gave before is read: read the rest by another reader.
    Io(io::Error),
    /// There is no memory. Read the journal again by another checker.
    NoMemory,
    /// The linked library isn't the one that this crate wants.
    Library(Error),
}

impl fmt::Display for CheckError {
    fn fmt(&self, f: &mut fmt::Formatter<'_>) -> fmt::Result {
        match self {
            CheckError::Unlawful(at) => write!(f, "the entry at position {at} isn't lawful"),
            CheckError::Fault(line, what) => {
                write!(f, "line {line} of the journal has a fault: {what}")
            }
            CheckError::NoJournal => f.write_str("the text is no journal"),
            CheckError::OtherMessages => {
                f.write_str("the journal's messages are those of the other kind of switchboard")
            }
            CheckError::OtherVersion(version) => {
                write!(f, "the journal's text has version {version}, and not 1 to 4")
            }
            CheckError::Io(error) => error.fmt(f),
            CheckError::NoMemory => f.write_str("there is no memory to read the journal"),
            CheckError::Library(error) => error.fmt(f),
        }
    }
}

impl std::error::Error for CheckError {
    fn source(&self) -> Option<&(dyn std::error::Error + 'static)> {
        match self {
            CheckError::Io(error) => Some(error),
            CheckError::Library(error) => Some(error),
            _ => None,
        }
    }
}

impl From<Error> for CheckError {
    fn from(error: Error) -> CheckError {
        match error {
            Error::NoMemory => CheckError::NoMemory,
            error => CheckError::Library(error),
        }
    }
}

/// Why the library doesn't read the text that begins with this line, if the line says so. The
/// library refuses it too, but says only that the line has a fault.
pub(crate) fn refused<R: MessageKind>(line: &[u8]) -> Option<CheckError> {
    let is_printed = line.iter().all(|byte| matches!(byte, b' '..=b'~'));
    let words = std::str::from_utf8(line).ok()?.strip_prefix("journal ")?;
    let word = words.split(' ').next()?;
    let version: u64 = word.parse().ok()?;
    match version {
        _ if !is_printed || version.to_string() != word => None,
        _ if R::OTHER_VERSIONS.contains(&word) => Some(CheckError::OtherMessages),
        1..=4 => None,
        version => Some(CheckError::OtherVersion(version)),
    }
}

/// How a journal's text ends.
pub(crate) enum TextEnd {
    /// Its last piece has its end.
    Whole,
    /// Its lines are whole, and its last piece has no end.
    Open,
    /// It ends within a line, or is empty.
    Torn,
}

impl Checker {
    /// A checker of a journal of bytes, that has read nothing.
    ///
    /// ```
    /// let checker = seryugo::Checker::new()?;
    /// assert_eq!(checker.entries(), 0);
    /// assert!(!checker.is_whole());
    /// # Ok::<(), seryugo::CheckError>(())
    /// ```
    ///
    /// # Errors
    ///
    /// `NoMemory`, and `Library` if the linked library isn't of this crate's version.
    pub fn new() -> Result<Checker, CheckError> {
        Checker::open()
    }
}

impl Checker<Numbers> {
    /// A checker of a journal of numbers, that has read nothing. See [`new`](Checker::new).
    ///
    /// ```
    /// let mut checker = seryugo::Checker::of_numbers()?;
    /// checker.read(&b"journal 1\nseat 0 mailbox: made 0\nseat 0 send 0 5: done\nend 2\n"[..])?;
    /// assert_eq!(checker.entries(), 2);
    /// # Ok::<(), seryugo::CheckError>(())
    /// ```
    ///
    /// # Errors
    ///
    /// As [`new`](Checker::new).
    pub fn of_numbers() -> Result<Checker<Numbers>, CheckError> {
        Checker::open()
    }
}

impl<R: MessageKind> Checker<R> {
    pub(crate) fn open() -> Result<Checker<R>, CheckError> {
        version::check()?;
        Ok(Checker {
            handle: RefCell::new(Handle::opened(|reading| {
                raw::seryugo_open_reading(R::MESSAGES, reading)
            })?),
            lines: Lines::default(),
            kind: PhantomData,
        })
    }

    /// Reads up to the reader's end. A later call reads on, where this one ended: also in the
    /// middle of a line.
    ///
    /// ```
    /// use seryugo::{CheckError, Checker};
    ///
    /// # fn main() -> Result<(), CheckError> {
    /// let mut checker = Checker::of_numbers()?;
    /// checker.read(&b"journal 1\nseat 0 mail"[..])?;
    /// checker.read(&b"box: made 0\n"[..])?;
    /// let read = checker.read(&b"seat 0 recv 0: 5\n"[..]);
    /// assert!(matches!(read, Err(CheckError::Unlawful(1))));
    /// # Ok(())
    /// # }
    /// ```
    ///
    /// # Errors
    ///
    /// The first entry that isn't lawful, or the first fault, whichever comes first. Then each
    /// later call fails so too.
    pub fn read(&mut self, mut from: impl BufRead) -> Result<(), CheckError> {
        loop {
            let part = match from.fill_buf() {
                Ok(part) => part,
                Err(error) if error.kind() == ErrorKind::Interrupted => continue,
                Err(error) => return Err(CheckError::Io(error)),
            };
            if part.is_empty() {
                return Ok(());
            }
            self.take(part)?;
            let length = part.len();
            from.consume(length);
        }
    }

    fn take(&mut self, part: &[u8]) -> Result<(), CheckError> {
        let reading = self.handle.get_mut();
        // SAFETY: the part is good for the call, which keeps a copy of what it needs.
        match unsafe { raw::seryugo_reading_take_from(reading, part.as_ptr(), part.len()) } {
            code::DONE => {
                self.lines.note(part);
                Ok(())
            }
            code => {
                self.lines.stop(part);
                Err(self.stopped(code))
            }
        }
    }

    /// Why the reading has stopped, by the code of a call that isn't done.
    fn stopped(&self, code: u32) -> CheckError {
        match code {
            code::UNLAWFUL => CheckError::Unlawful(self.entries()),
            code::FAULT => self.fault(),
            code => Error::of_code(code).into(),
        }
    }

    /// The fault in the line after the whole ones.
    fn fault(&self) -> CheckError {
        let refused = match self.whole_lines() {
            0 => self.lines.first().and_then(refused::<R>),
            _ => None,
        };
        let line = self.whole_lines().saturating_add(1);
        refused.unwrap_or_else(|| {
            let fault = written(|fault| self.state(ReadingState::Fault, fault));
            let unknown = "the linked library doesn't say which";
            CheckError::Fault(line, fault.map_or(unknown, |fault| raw::fault_text(fault, line)))
        })
    }

    /// How many entries were read, each of which is lawful.
    ///
    /// ```
    /// let mut checker = seryugo::Checker::of_numbers()?;
    /// checker.read(&b"journal 1\nseat 0 mailbox: made 0\nseat 0 send 0"[..])?;
    /// assert_eq!(checker.entries(), 1);
    /// # Ok::<(), seryugo::CheckError>(())
    /// ```
    pub fn entries(&self) -> u64 {
        self.count(ReadingState::Entries)
    }

    /// Returns how the text ends, if it has no fault.
    pub(crate) fn text_end(&self) -> Result<TextEnd, CheckError> {
        match self.end() {
            code::DONE => Ok(TextEnd::Whole),
            code::TEXT_OPEN => Ok(TextEnd::Open),
            code::NO_JOURNAL => Err(CheckError::NoJournal),
            _ => Ok(TextEnd::Torn),
        }
    }

    /// Whether what was read is a whole journal, all of whose entries are lawful: its last piece
    /// has its end.
    ///
    /// ```
    /// let mut checker = seryugo::Checker::of_numbers()?;
    /// checker.read(&b"journal 1\nseat 0 mailbox: made 0\n"[..])?;
    /// assert!(!checker.is_whole());
    /// checker.read(&b"end 1\n"[..])?;
    /// assert!(checker.is_whole());
    /// # Ok::<(), seryugo::CheckError>(())
    /// ```
    pub fn is_whole(&self) -> bool {
        self.end() == code::DONE
    }

    /// The sum to go on from, if what was read has sums: pass it to [`Journal::write_sealed_to`]
    /// for the next piece. It is the sum of the last piece. If that has no end yet, it is the sum
    /// to end it with, as [`ValidPrefix::sum`] is.
    ///
    /// It is `None` if nothing was read yet, if the text has no sums, or if the reading has
    /// stopped. If there is no memory, the program aborts, as if a `Vec` found none.
    ///
    /// ```
    /// let mut checker = seryugo::Checker::of_numbers()?;
    /// let sum = "1b2989a040b7f442f39d194b93ae01cb1209205f96808f609e2e7f01432a2f2d";
    /// checker.read(&b"journal 3\nseat 0 mailbox: made 0\nseat 1 send 0 5: done\n"[..])?;
    /// checker.read(format!("end 2 {sum}\n").as_bytes())?;
    /// assert_eq!(checker.sum(), sum.parse().ok());
    /// # Ok::<(), seryugo::CheckError>(())
    /// ```
    pub fn sum(&self) -> Option<Sum> {
        match self.end() {
            code::UNLAWFUL | code::FAULT | code::NO_MEMORY => return None,
            _ => {}
        }
        match self.valid_prefix() {
            Ok(kept) => kept.sum,
            Err(_) => handle_alloc_error(Layout::new::<Sum>()),
        }
    }

    /// A short journal that leaves what the journal leaves which was read: the same objects, with
    /// the same messages still to be received. Whatever may follow the long journal may follow the
    /// short one, with the same replies, and nothing else.
    ///
    /// It begins at position 0. The seat with the highest number of the long journal made all of
    /// its entries, so new seats have the numbers that they would have after the long one. Lanes
    /// and feeds begin at 0 again. A text that ends in the middle is taken up to its last whole
    /// line: ask [`is_whole`](Checker::is_whole) before.
    ///
    /// ```
    /// use seryugo::Checker;
    ///
    /// # fn main() -> Result<(), Box<dyn std::error::Error>> {
    /// let mut checker = Checker::of_numbers()?;
    /// checker.read(&b"journal 1\nseat 0 mailbox: made 0\nseat 1 send 0 5: done\n"[..])?;
    /// checker.read(&b"seat 1 send 0 6: done\nseat 0 recv 0: 5\nend 4\n"[..])?;
    /// let short = checker.compact()?;
    /// assert_eq!((short.first(), short.len()), (0, 2));
    /// let mut text = Vec::new();
    /// short.write_to(&mut text)?;
    /// assert_eq!(text, b"journal 1\nseat 1 mailbox: made 0\nseat 1 send 0 6: done\nend 2\n");
    /// # Ok(())
    /// # }
    /// ```
    ///
    /// # Errors
    ///
    /// What stopped the reading, if it has stopped, and `NoMemory`.
    pub fn compact(self) -> Result<Journal<R>, CheckError> {
        let (mut code, mut count) = (code::DONE, 0);
        let opened = Handle::opened(|journal| {
            code = raw::seryugo_reading_compact(&mut self.handle.borrow_mut(), journal, &mut count);
            code
        });
        match opened {
            // The entries are in memory, so that a `usize` counts them.
            Ok(handle) => Ok(Journal::new(handle, 0, count as usize)),
            Err(_) => Err(self.stopped(code)),
        }
    }

    fn whole_lines(&self) -> u64 {
        self.count(ReadingState::Lines)
    }

    /// Reads a counter that cannot fail.
    fn count(&self, state: ReadingState) -> u64 {
        written(|count| self.state(state, count)).unwrap_or_default()
    }

    /// The code that says how the text ends.
    fn end(&self) -> u32 {
        self.state(ReadingState::End, &mut 0)
    }

    fn state(&self, state: ReadingState, number: &mut u64) -> u32 {
        raw::seryugo_reading_state(&mut self.handle.borrow_mut(), state, number)
    }

    /// Returns the valid prefix: what is in whole lines. Nothing that was read had a fault.
    pub(crate) fn valid_prefix(&self) -> Result<ValidPrefix, Error> {
        let sum =
            RawSum::written(|sum| raw::seryugo_reading_sum(&mut self.handle.borrow_mut(), sum))?;
        Ok(self.lines.valid_prefix(self.entries(), self.count(ReadingState::Kept), sum))
    }

    /// A room with what was read. Nothing that was read had a fault.
    pub(crate) fn into_room(self, limit: u64) -> Result<Handle, Error> {
        let reading = &mut *self.handle.borrow_mut();
        Handle::opened(|room| raw::seryugo_room_restore(reading, limit, room))
    }
}

impl<R: MessageKind> fmt::Debug for Checker<R> {
    fn fmt(&self, f: &mut fmt::Formatter<'_>) -> fmt::Result {
        f.debug_struct("Checker").field("entries", &self.entries()).finish_non_exhaustive()
    }
}
