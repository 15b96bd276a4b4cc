//! The calls on a switchboard's journal: to read it, to cut it, and what becomes of it once it is
//! full.

use crate::error::Error;
use crate::journal::entry::{found, Entry};
use crate::journal::full::WhenFull;
use crate::journal::Journal;
use crate::message::carries::MessageKind;
use crate::raw::{self, done, EntrySource, Reader, Taking};
use crate::switchboard::state::State;
use crate::switchboard::Switchboard;
use std::io;

/// # The journal
impl<R: MessageKind> Switchboard<R> {
    /// Takes memory for this many more entries.
    ///
    /// ```
    /// # let board = seryugo::Switchboard::new(1_000)?;
    /// board.reserve(1_000)?;
    /// assert_eq!(board.reserve(usize::MAX), Err(seryugo::Error::NoMemory));
    /// # Ok::<(), seryugo::Error>(())
    /// ```
    ///
    /// # Errors
    ///
    /// `NoMemory`.
    pub fn reserve(&self, entries: usize) -> Result<(), Error> {
        done(raw::seryugo_reserve(&mut self.locked()?.handle, entries))
    }

    /// Cuts the journal: what it has is dropped, and it has room for as many entries again. Nothing
    /// of what was reserved is lost. Entries that a sink didn't take
    /// ([`when_full`](Switchboard::when_full)) are dropped too.
    ///
    /// ```
    /// # let board = seryugo::Switchboard::new(1)?;
    /// # let mut seat = board.seat()?;
    /// let mailbox = seat.mailbox::<u64>()?;
    /// let refused = seat.send(mailbox, 5).unwrap_err();
    /// assert_eq!(refused.error, seryugo::Error::JournalFull);
    /// board.cut()?;
    /// seat.send(mailbox, refused.message)?;
    /// # Ok::<(), seryugo::Error>(())
    /// ```
    ///
    /// # Errors
    ///
    /// `Busy`: a lane or a feed is open. `HasFile`: a [file](Switchboard::open) keeps the journal.
    /// Then nothing is cut.
    pub fn cut(&self) -> Result<(), Error> {
        self.pass_to_look_at_all();
        self.locked()?.cut(false)
    }

    /// Cuts the journal, and hands over the entries that it had. What was reserved goes with them.
    ///
    /// ```
    /// # let board = seryugo::Switchboard::new(1_000)?;
    /// # let mut seat = board.seat()?;
    /// seat.mailbox::<u64>()?;
    /// let journal = board.take_journal()?;
    /// assert_eq!(journal.len(), 1);
    /// assert_eq!(board.entry(0), None);
    /// # Ok::<(), seryugo::Error>(())
    /// ```
    ///
    /// # Errors
    ///
    /// `Busy`: a lane or a feed is open. `NoMemory`. `NotKept`: the switchboard has older entries,
    /// which nobody takes. `HasFile`. Then nothing is cut.
    pub fn take_journal(&self) -> Result<Journal<R>, Error> {
        self.pass_to_look_at_all();
        self.locked()?.take_journal(Taking::Cut)
    }

    /// Cuts the journal as `cut` does, also while lanes and feeds are open, whose rings go on. It
    /// is never refused. What a lane sent is in what was cut away, and then in the journal, in
    /// order, each message once.
    ///
    /// ```
    /// # let board = seryugo::Switchboard::new(2)?;
    /// # let mut seat = board.seat()?;
    /// let mailbox = seat.mailbox::<u64>()?;
    /// let mut lane = board.lane(mailbox, 4)?;
    /// lane.send(5)?;
    /// lane.drain()?;
    /// assert_eq!(board.cut(), Err(seryugo::Error::Busy));
    /// board.cut_open()?;
    /// lane.send(6)?;
    /// lane.close()?;
    /// board.cut()?;
    /// assert_eq!((seat.recv(mailbox)?, seat.recv(mailbox)?), (5, 6));
    /// # Ok::<(), seryugo::Error>(())
    /// ```
    ///
    /// # Errors
    ///
    /// `HasFile`: a [file](Switchboard::open) keeps the journal.
    pub fn cut_open(&self) -> Result<(), Error> {
        self.pass_to_look_at_all();
        self.locked()?.cut(true)
    }

    /// Cuts the journal as [`cut_open`](Switchboard::cut_open) does, and hands over the entries
    /// that it had. What was reserved goes with them.
    ///
    /// ```
    /// # let board = seryugo::Switchboard::new(1_000)?;
    /// # let mut seat = board.seat()?;
    /// let mailbox = seat.mailbox::<u64>()?;
    /// let mut lane = board.lane(mailbox, 4)?;
    /// lane.send(5)?;
    /// lane.drain()?;
    /// assert_eq!(board.take_journal_open()?.len(), 2);
    /// lane.send(6)?;
    /// lane.close()?;
    /// assert_eq!(board.take_journal()?.first(), 2);
    /// # Ok::<(), seryugo::Error>(())
    /// ```
    ///
    /// # Errors
    ///
    /// `NoMemory`. `NotKept`: the switchboard has older entries, which nobody takes
    /// ([`when_full`](Switchboard::when_full)). `HasFile`. Then nothing is cut.
    pub fn take_journal_open(&self) -> Result<Journal<R>, Error> {
        self.pass_to_look_at_all();
        self.locked()?.take_journal(Taking::CutOpen)
    }

    /// Returns a short journal that leaves what all calls leave: the same objects, with the same
    /// messages still to be received. Whatever may follow these calls may follow it, with the same
    /// replies. Its length depends only on what is left. The journal stays as it is.
    ///
    /// The last seat that was made makes all its entries, or the guest that came after it. Its
    /// positions and counts begin at 0. The messages in the rings of lanes aren't in it, and those
    /// in the rings of feeds count as received. Other threads wait for the lock meanwhile.
    ///
    /// ```
    /// # let board = seryugo::Switchboard::of_numbers(1_000)?;
    /// # let mut seat = board.seat()?;
    /// let mailbox = seat.mailbox::<u64>()?;
    /// for number in 0..100 {
    ///     seat.send(mailbox, number)?;
    ///     assert_eq!(seat.recv(mailbox)?, number);
    /// }
    /// seat.send(mailbox, 7)?;
    /// let short = board.compact()?;
    /// assert_eq!((short.first(), short.len(), board.entries()), (0, 2, 202));
    /// # Ok::<(), seryugo::Error>(())
    /// ```
    ///
    /// # Errors
    ///
    /// `NoMemory`.
    pub fn compact(&self) -> Result<Journal<R>, Error> {
        self.pass_to_look_at_all();
        self.look(State::compact)?
    }

    /// Returns a short journal as [`compact`](Switchboard::compact) does, and cuts the journal at
    /// the same moment, as [`cut_open`](Switchboard::cut_open) does. So write it in place of all
    /// that was written before, and write what is taken next after it: [`Journal::first`] counts
    /// from its beginning. [`cut_at`](Switchboard::cut_at) and [`entry`](Switchboard::entry) go on
    /// to count since the switchboard was made.
    ///
    /// It also stands for entries that no sink took ([`when_full`](Switchboard::when_full)): they
    /// are dropped. If a sink takes full journals, and other threads call, use
    /// [`compact_with`](Switchboard::compact_with): else another thread may hand what follows to
    /// the sink before you have the short journal. Without a sink nobody takes what follows but
    /// you, and other threads wait less.
    ///
    /// ```
    /// # fn main() -> Result<(), Box<dyn std::error::Error>> {
    /// # let board = seryugo::Switchboard::of_numbers(1_000)?;
    /// # let mut seat = board.seat()?;
    /// let mailbox = seat.mailbox::<u64>()?;
    /// seat.send(mailbox, 5)?;
    /// seat.send(mailbox, 6)?;
    /// seat.recv(mailbox)?;
    /// let mut text = Vec::new();
    /// board.compact_and_cut()?.write_to(&mut text)?;
    /// seat.recv(mailbox)?;
    /// board.take_journal()?.write_to(&mut text)?;
    /// let short = "journal 1\nseat 0 mailbox: made 0\nseat 0 send 0 6: done\nend 2\n";
    /// let next = "journal 1\nfrom 2\nseat 0 recv 0: 6\nend 3\n";
    /// assert_eq!(text, [short, next].concat().as_bytes());
    /// # Ok(())
    /// # }
    /// ```
    ///
    /// # Errors
    ///
    /// `NoMemory`, and `HasFile`. Then nothing is cut.
    pub fn compact_and_cut(&self) -> Result<Journal<R>, Error> {
        self.pass_to_look_at_all();
        self.locked()?.compact_and_cut()
    }

    /// Makes a short journal as [`compact`](Switchboard::compact) does, and hands it to this
    /// function. If the function returns `Ok`, cuts the journal as
    /// [`compact_and_cut`](Switchboard::compact_and_cut) does. Other threads wait meanwhile, so
    /// that a sink is handed nothing between. The function runs under the lock, so it must not call
    /// the switchboard.
    ///
    /// So write the short journal in the function, and have the sink write to that text from now
    /// on.
    ///
    /// ```
    /// use seryugo::{Sum, Switchboard, WhenFull};
    /// use std::sync::{Arc, Mutex};
    ///
    /// # fn main() -> Result<(), Box<dyn std::error::Error>> {
    /// /// A text, and its last sum.
    /// type Kept = (Vec<u8>, Option<Sum>);
    ///
    /// let kept = Arc::new(Mutex::new(Kept::default()));
    /// let kept_by_sink = kept.clone();
    /// let sink = WhenFull::call(move |journal| {
    ///     let (text, sum) = &mut *kept_by_sink.lock().unwrap();
    ///     *sum = Some(journal.write_sealed_to(*sum, text)?);
    ///     Ok(())
    /// });
    /// let board = Switchboard::of_numbers(2)?.when_full(sink);
    /// let mut seat = board.seat()?;
    /// let mailbox = seat.mailbox::<u64>()?;
    /// for number in 0..10 {
    ///     seat.send(mailbox, number)?;
    ///     seat.recv(mailbox)?;
    /// }
    /// board.compact_with(|short| {
    ///     let mut text = Vec::new();
    ///     let sum = short.write_sealed_to(None, &mut text)?;
    ///     *kept.lock().unwrap() = (text, Some(sum));
    ///     Ok(())
    /// })?;
    /// seat.send(mailbox, 10)?;
    /// board.keep()?;
    /// let (text, _) = &*kept.lock().unwrap();
    /// let text = String::from_utf8_lossy(text);
    /// assert!(text.starts_with("journal 3\nseat 0 mailbox: made 0\nend 1 "));
    /// assert!(text.contains("\nfrom 1\nseat 0 send 0 10: done\nend 2 "));
    /// # Ok(())
    /// # }
    /// ```
    ///
    /// # Errors
    ///
    /// What the function fails with, and then nothing is cut; and `OutOfMemory` or
    /// [`HasFile`](Error::HasFile), before the function was called.
    pub fn compact_with<T>(
        &self,
        keep: impl FnOnce(&Journal<R>) -> io::Result<T>,
    ) -> io::Result<T> {
        self.pass_to_look_at_all();
        self.locked().map_err(io::Error::other)?.compact_with(keep)
    }

    /// The journal's entry at this position, counted from 0 since the switchboard was made. A file
    /// cuts it away soon. It has
    /// copies of the messages. If there is no memory for them, the program aborts, as if a `Vec`
    /// found none.
    ///
    /// ```
    /// # let board = seryugo::Switchboard::new(1_000)?;
    /// # let mut seat = board.seat()?;
    /// use seryugo::Call;
    ///
    /// let mailbox = seat.mailbox::<String>()?;
    /// seat.send(mailbox, "hello")?;
    /// assert_eq!(board.entry(1).map(|entry| entry.call), Some(Call::Send(0, b"hello".to_vec())));
    /// assert_eq!(board.entry(2), None);
    /// # Ok::<(), seryugo::Error>(())
    /// ```
    pub fn entry(&self, at: u64) -> Option<Entry<R>> {
        self.pass_to_look_at_all();
        found(self.looked_at(|state| R::entry(&mut state.handle, EntrySource::Room, at)))
    }

    /// How many calls were accepted since the switchboard was made.
    ///
    /// ```
    /// # let board = seryugo::Switchboard::new(1_000)?;
    /// # let mut seat = board.seat()?;
    /// seat.mailbox::<u64>()?;
    /// board.cut()?;
    /// assert_eq!(board.entries(), 1);
    /// # Ok::<(), seryugo::Error>(())
    /// ```
    pub fn entries(&self) -> u64 {
        self.pass_to_look_at_all();
        self.looked_at(|state| state.count(Reader::Entries))
    }

    /// How many of them were cut away.
    ///
    /// ```
    /// # let board = seryugo::Switchboard::new(1_000)?;
    /// # let mut seat = board.seat()?;
    /// seat.mailbox::<u64>()?;
    /// assert_eq!(board.cut_at(), 0);
    /// board.cut()?;
    /// assert_eq!(board.cut_at(), 1);
    /// # Ok::<(), seryugo::Error>(())
    /// ```
    pub fn cut_at(&self) -> u64 {
        self.pass_to_look_at_all();
        self.looked_at(|state| state.count(Reader::CutAt))
    }

    /// Says what becomes of a full journal. Until you say it, a call fails with `JournalFull` if
    /// the journal has no room for it.
    ///
    /// A call that finds the journal full has it cut, and is then made. If nobody takes the entries
    /// that it had, the call fails with [`NotKept`](Error::NotKept), and the switchboard keeps the
    /// entries: the next call has them taken first. A call that was blocked before is still
    /// answered while the journal has room, and then fails with `NotKept` too.
    /// [`keep`](Switchboard::keep) hands over what the journal has at the end.
    ///
    /// If a sink takes the entries, a message of more than 1,398,000 bytes is refused as it is sent,
    /// with [`TooLong`](Error::TooLong), since no text could have it. Of a swap both messages count.
    ///
    /// If you say again how the switchboard keeps entries, they go to the new sink.
    /// [`Refuse`](WhenFull::Refuse) drops them.
    ///
    /// ```
    /// use seryugo::{Error, Switchboard, WhenFull};
    ///
    /// let board = Switchboard::new(1)?.when_full(WhenFull::Drop);
    /// let mut seat = board.seat()?;
    /// let mailbox = seat.mailbox::<u64>()?;
    /// seat.send(mailbox, 5)?;
    /// assert_eq!(board.cut_at(), 1);
    ///
    /// let board = Switchboard::new(1)?.when_full(WhenFull::give(Err));
    /// let mut seat = board.seat()?;
    /// let mailbox = seat.mailbox::<u64>()?;
    /// let refused = seat.send(mailbox, 5).unwrap_err();
    /// assert_eq!(refused.error, Error::NotKept);
    /// # Ok::<(), seryugo::Error>(())
    /// ```
    ///
    /// # Panics
    ///
    /// If a [file](Switchboard::open) keeps the journal.
    #[must_use]
    pub fn when_full(mut self, when_full: WhenFull<R>) -> Switchboard<R> {
        assert!(self.file.is_none(), "a file keeps the journal, and is never full");
        self.most = self.state_mut().set_when_full(when_full);
        self
    }

    /// Cuts the journal now, and does with its entries what is done with those of a full one. If a
    /// full journal refuses calls, this does nothing.
    ///
    /// ```
    /// use seryugo::{Switchboard, WhenFull};
    ///
    /// let board = Switchboard::new(1_000)?.when_full(WhenFull::Drop);
    /// board.seat()?.mailbox::<u64>()?;
    /// assert_eq!(board.cut_at(), 0);
    /// board.keep()?;
    /// assert_eq!(board.cut_at(), 1);
    /// # Ok::<(), seryugo::Error>(())
    /// ```
    ///
    /// # Errors
    ///
    /// `NotKept`: nobody took the entries, and the switchboard keeps them. `NoMemory`: nothing is
    /// cut. `HasFile`: a [file](Switchboard::open) keeps each entry.
    pub fn keep(&self) -> Result<(), Error> {
        self.pass_to_look_at_all();
        self.locked()?.keep()
    }

    /// Returns why nobody took the entries of a full journal. Returns it once. If a
    /// [file](Switchboard::open) keeps the journal, returns why calls fail with `FileFull` or
    /// `FileLost`.
    ///
    /// ```
    /// use seryugo::{Error, Switchboard, WhenFull};
    /// use std::io::ErrorKind;
    ///
    /// let sink = WhenFull::call(|_| Err(ErrorKind::StorageFull.into()));
    /// let board = Switchboard::new(1_000)?.when_full(sink);
    /// board.seat()?.mailbox::<u64>()?;
    /// assert_eq!(board.keep(), Err(Error::NotKept));
    /// assert_eq!(board.keeping_error().map(|error| error.kind()), Some(ErrorKind::StorageFull));
    /// assert!(board.keeping_error().is_none());
    /// # Ok::<(), seryugo::Error>(())
    /// ```
    pub fn keeping_error(&self) -> Option<io::Error> {
        let state = self.locked();
        state.unwrap_or_else(|forked| panic!("{forked}")).keeping_error()
    }
}
