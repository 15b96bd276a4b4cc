//! What becomes of a full journal.

use crate::error::Error;
use crate::journal::Journal;
use crate::message::carries::{Bytes, MessageKind};
use crate::raw::{self, done, Handle, Reader, Taking};
use crate::switchboard::call::MESSAGE_MOST;
use std::fmt;
use std::io;
use std::mem;

/// What a switchboard does if a call finds its journal full. See
/// [`Switchboard::when_full`](crate::Switchboard::when_full).
///
/// It cuts the journal under the lock, and asks no lane and no feed to close. Then it makes the
/// call.
///
/// ```
/// use seryugo::{Switchboard, WhenFull};
///
/// let board = Switchboard::new(1)?.when_full(WhenFull::Drop);
/// let mut seat = board.seat()?;
/// let mailbox = seat.mailbox::<u64>()?;
/// for number in 0..10 {
///     seat.send(mailbox, number)?;
/// }
/// assert_eq!((board.cut_at(), board.owed(mailbox)?), (10, 10));
/// # Ok::<(), seryugo::Error>(())
/// ```
pub enum WhenFull<R: MessageKind = Bytes> {
    /// The call fails with [`JournalFull`](Error::JournalFull), until somebody cuts the journal.
    Refuse,
    /// The switchboard drops the entries.
    Drop,
    /// The switchboard calls this sink with the entries, which it keeps until the sink returns
    /// `Ok`.
    Call(Box<Sink<R>>),
    /// The switchboard gives the entries away. If it gets them back, it keeps them.
    Give(Box<Taker<R>>),
}

type Sink<R> = dyn FnMut(&Journal<R>) -> io::Result<()> + Send;
type Taker<R> = dyn FnMut(Journal<R>) -> Result<(), Journal<R>> + Send;

impl<R: MessageKind> WhenFull<R> {
    /// Calls this sink with the entries. The sink runs under the lock, so it must not call the
    /// switchboard.
    ///
    /// ```
    /// use seryugo::{Switchboard, WhenFull};
    /// use std::sync::{Arc, Mutex};
    ///
    /// let text = Arc::new(Mutex::new(Vec::new()));
    /// let kept = text.clone();
    /// let sink = WhenFull::call(move |journal| journal.write_to(&mut *kept.lock().unwrap()));
    /// let board = Switchboard::of_numbers(1)?.when_full(sink);
    /// let mut seat = board.seat()?;
    /// let mailbox = seat.mailbox::<u64>()?;
    /// seat.send(mailbox, 5)?;
    /// assert_eq!(*text.lock().unwrap(), b"journal 1\nseat 0 mailbox: made 0\nend 1\n");
    /// # Ok::<(), seryugo::Error>(())
    /// ```
    pub fn call(sink: impl FnMut(&Journal<R>) -> io::Result<()> + Send + 'static) -> WhenFull<R> {
        WhenFull::Call(Box::new(sink))
    }

    /// Gives the entries away, such as to a thread that writes them meanwhile. `Err` gives them
    /// back. If the taker panics, they are lost. It runs under the lock, so it must not call the
    /// switchboard.
    ///
    /// ```
    /// use seryugo::{Switchboard, WhenFull};
    /// use std::sync::mpsc;
    ///
    /// // If two journals wait to be received, the call that finds the third one full waits too.
    /// let (sender, journals) = mpsc::sync_channel(2);
    /// let taker = WhenFull::give(move |journal| sender.send(journal).map_err(|unsent| unsent.0));
    /// let board = Switchboard::new(1)?.when_full(taker);
    /// let mut seat = board.seat()?;
    /// let mailbox = seat.mailbox::<u64>()?;
    /// seat.send(mailbox, 5)?;
    /// assert_eq!(journals.recv().unwrap().len(), 1);
    /// # Ok::<(), seryugo::Error>(())
    /// ```
    pub fn give(
        taker: impl FnMut(Journal<R>) -> Result<(), Journal<R>> + Send + 'static,
    ) -> WhenFull<R> {
        WhenFull::Give(Box::new(taker))
    }
}

impl<R: MessageKind> WhenFull<R> {
    /// The most bytes of a message, and of both messages of a swap. A sink may write the entries.
    pub(crate) fn message_most(&self) -> u64 {
        match self {
            WhenFull::Refuse | WhenFull::Drop => u64::MAX,
            WhenFull::Call(_) | WhenFull::Give(_) => MESSAGE_MOST,
        }
    }
}

impl<R: MessageKind> fmt::Debug for WhenFull<R> {
    fn fmt(&self, f: &mut fmt::Formatter<'_>) -> fmt::Result {
        f.write_str(match self {
            WhenFull::Refuse => "Refuse",
            WhenFull::Drop => "Drop",
            WhenFull::Call(_) => "Call(..)",
            WhenFull::Give(_) => "Give(..)",
        })
    }
}

/// The full-journal policy, and the entries that its sink hasn't taken yet.
pub(crate) struct PendingJournal<R: MessageKind> {
    when_full: WhenFull<R>,
    /// Entries that were cut away, and that the sink hasn't taken yet.
    kept: Option<Journal<R>>,
    /// Why it didn't.
    error: Option<io::Error>,
}

impl<R: MessageKind> PendingJournal<R> {
    /// Sets a policy. It hands over first what another one has kept. `None` if a full journal refuses
    /// calls.
    pub fn new(when_full: WhenFull<R>, kept: Option<Journal<R>>) -> Option<PendingJournal<R>> {
        (!matches!(when_full, WhenFull::Refuse)).then_some(PendingJournal {
            when_full,
            kept,
            error: None,
        })
    }

    /// The entries that it keeps.
    pub fn into_kept(self) -> Option<Journal<R>> {
        self.kept
    }

    /// Cuts the journal of a room, and does with its entries what is to be done with them. If that
    /// fails, it keeps them.
    pub fn cut(&mut self, room: &mut Handle, start: Start) -> Result<(), Error> {
        self.hand_over()?;
        if let WhenFull::Drop = self.when_full {
            return done(raw::seryugo_cut_by(room, true));
        }
        self.kept = Some(taken(room, start, Taking::CutOpen)?);
        self.hand_over()
    }

    /// Does with the entries that it keeps what is to be done with them.
    pub fn hand_over(&mut self) -> Result<(), Error> {
        let Some(journal) = self.kept.take() else {
            return Ok(());
        };
        let refused = match &mut self.when_full {
            WhenFull::Refuse | WhenFull::Drop => None,
            WhenFull::Call(sink) => {
                // If the sink panics, the entries are kept.
                let journal = self.kept.insert(journal);
                let told = sink(journal);
                self.kept.take_if(|_| told.is_ok());
                told.err()
            }
            WhenFull::Give(taker) => taker(journal).err().map(|journal| {
                self.kept = Some(journal);
                io::Error::other("the entries were given back")
            }),
        };
        if refused.is_none() {
            return Ok(());
        }
        self.error = refused;
        Err(Error::NotKept)
    }

    /// Drops the entries that it keeps.
    pub fn forget(&mut self) {
        self.kept = None;
        self.error = None;
    }

    /// Returns why the sink refused the entries last. Returns it once.
    pub fn error(&mut self) -> Option<io::Error> {
        mem::take(&mut self.error)
    }
}

/// Where the text begins to which a switchboard adds its pieces. A compaction begins it again.
#[derive(Clone, Copy, Default)]
pub(crate) struct Start {
    /// How many entries the short journal stands for with which the text begins.
    cut: u64,
    /// How many entries it has.
    short: u64,
}

impl Start {
    /// Where this entry is in the text. `at` counts since the room was made.
    fn place(self, at: u64) -> u64 {
        at - self.cut + self.short
    }
}

/// Cuts the journal of a room, of which a short journal was made that has this many entries. Returns
/// where the text begins then.
pub(crate) fn cut_behind(room: &mut Handle, short: u64) -> Result<Start, Error> {
    done(raw::seryugo_cut_by(room, true))?;
    let cut = raw::read(room, Reader::CutAt, 0)?;
    Ok(Start { cut, short })
}

/// The entries of a room's journal, which is cut.
pub(crate) fn taken<R: MessageKind>(
    room: &mut Handle,
    start: Start,
    taking: Taking,
) -> Result<Journal<R>, Error> {
    let first = raw::read(room, Reader::CutAt, 0)?;
    journal_by(room, start.place(first), taking)
}

/// The short journal of a room, and where the text begins that it begins. The room's journal is cut
/// then.
pub(crate) fn cut_short<R: MessageKind>(room: &mut Handle) -> Result<(Journal<R>, Start), Error> {
    let journal = journal_by(room, 0, Taking::ShortAndCut)?;
    let cut = raw::read(room, Reader::CutAt, 0)?;
    let short = journal.len() as u64;
    Ok((journal, Start { cut, short }))
}

/// The journal that is taken so, whose first entry has this position.
pub(crate) fn journal_by<R: MessageKind>(
    room: &mut Handle,
    first: u64,
    taking: Taking,
) -> Result<Journal<R>, Error> {
    let mut count = 0;
    let handle = Handle::opened(|journal| raw::seryugo_take_by(room, taking, journal, &mut count))?;
    // The entries are in memory, so that a `usize` counts them.
    Ok(Journal::new(handle, first, count as usize))
}
