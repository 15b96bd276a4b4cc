//! A switchboard whose journal is kept in a file.

use crate::error::cause::FileCause;
use crate::error::Error;
use crate::journal::keep::Keep;
use crate::journal::recovered::Recovered;
use crate::message::carries::{MessageKind, Numbers};
use crate::raw::{code, done, File, FileFound, FileOptions, FILE_SEALED};
use crate::switchboard::call::MESSAGE_MOST;
use crate::switchboard::Switchboard;
use crate::version;
use std::ffi::CString;
use std::os::unix::ffi::OsStrExt;
use std::path::Path;
use std::sync::Arc;
use std::time::Duration;

/// How many entries the room's journal has at most. The file cuts it long before.
const LIMIT: u64 = 65_536;

/// The errors of a system call that was given a bad argument.
const EINVAL: i32 = 22;

/// How a journal's file is opened. [`Switchboard::open`] opens one with the defaults.
///
/// ```
/// use seryugo::{JournalFile, Switchboard};
/// use std::time::Duration;
///
/// # fn main() -> Result<(), seryugo::Error> {
/// # let path = std::env::temp_dir().join(format!("seryugo-doc-{}.options", std::process::id()));
/// let options = JournalFile::new().sync_every(Duration::from_millis(100));
/// let board = options.open(&path)?;
/// board.close()?;
/// # std::fs::remove_file(&path).unwrap();
/// # Ok(())
/// # }
/// ```
#[derive(Clone, Copy, Debug, PartialEq, Eq)]
pub struct JournalFile {
    sync_milliseconds: u64,
    segment: u64,
    short_from: u64,
    is_sealed: bool,
    keep: Keep,
}

impl Default for JournalFile {
    fn default() -> JournalFile {
        JournalFile::new()
    }
}

impl JournalFile {
    /// The defaults: the file is synced each second, no call waits for that, it grows by 4 MiB, and
    /// stays as long as it is.
    ///
    /// ```
    /// assert_eq!(seryugo::JournalFile::new(), seryugo::JournalFile::default());
    /// ```
    #[must_use]
    pub fn new() -> JournalFile {
        JournalFile {
            sync_milliseconds: 1_000,
            segment: 0,
            short_from: 0,
            is_sealed: false,
            keep: Keep::Process,
        }
    }

    /// Sets how long it is from one sync to the next, in whole milliseconds, from 1 on. After a loss
    /// of power about this much is lacking.
    ///
    /// ```
    /// use std::time::Duration;
    ///
    /// let often = seryugo::JournalFile::new().sync_every(Duration::from_millis(50));
    /// assert_ne!(often, seryugo::JournalFile::new());
    /// ```
    #[must_use]
    pub fn sync_every(mut self, period: Duration) -> JournalFile {
        self.sync_milliseconds = u64::try_from(period.as_millis()).unwrap_or(u64::MAX).max(1);
        self
    }

    /// Has the file synced only by [`sync`](Switchboard::sync), by [`close`](Switchboard::close), and
    /// where 32 MiB aren't synced yet.
    ///
    /// ```
    /// let by_hand = seryugo::JournalFile::new().sync_by_hand();
    /// assert_ne!(by_hand, seryugo::JournalFile::new());
    /// ```
    #[must_use]
    pub fn sync_by_hand(mut self) -> JournalFile {
        self.sync_milliseconds = 0;
        self
    }

    /// Sets by how many bytes the file grows ahead of its text, in whole pages. Less costs more
    /// calls of the system.
    ///
    /// ```
    /// let small = seryugo::JournalFile::new().grow_by(65_536);
    /// assert_ne!(small, seryugo::JournalFile::new());
    /// ```
    #[must_use]
    pub fn grow_by(mut self, bytes: u64) -> JournalFile {
        self.segment = bytes.max(1);
        self
    }

    /// Has a file of this many bytes or more be exchanged for a short one, if it has more than four times
    /// the bytes of that: as it is opened, and while it is open. Meanwhile one call waits until the
    /// switchboard's state is taken, and the others go on. [`Switchboard::open`] says what the short one
    /// has. 0 is never.
    ///
    /// ```
    /// # fn main() -> Result<(), seryugo::Error> {
    /// # let path = std::env::temp_dir().join(format!("seryugo-doc-{}.short", std::process::id()));
    /// let options = seryugo::JournalFile::new().short_from(1_000).grow_by(4_096);
    /// let board = options.open(&path)?;
    /// let mut seat = board.seat()?;
    /// let letters = seat.mailbox_again::<String>(0)?;
    /// for _ in 0..999 {
    ///     seat.send(letters, "Dear Ben")?;
    ///     seat.recv(letters)?;
    /// }
    /// # std::fs::remove_file(&path).unwrap();
    /// # Ok(())
    /// # }
    /// ```
    #[must_use]
    pub fn short_from(mut self, bytes: u64) -> JournalFile {
        self.short_from = bytes;
        self
    }

    /// Has the text have sums, so that a changed byte is found: opening fails with
    /// [`Error::Fault`]. A thread sums what was stored. After 65,536 entries, or each time the
    /// file is synced in the background, the next call seals that by a line with the sum. So does
    /// [`close`](Switchboard::close). Of what isn't sealed yet opening finds only changes that make
    /// a line wrong or an entry unlawful.
    ///
    /// A file without sums is exchanged for a short one that has them.
    ///
    /// ```
    /// # fn main() -> Result<(), seryugo::Error> {
    /// # let path = std::env::temp_dir().join(format!("seryugo-doc-{}.sealed", std::process::id()));
    /// let board = seryugo::JournalFile::new().sealed().open(&path)?;
    /// board.seat()?.mailbox_again::<String>(0)?;
    /// board.close()?;
    /// let text = std::fs::read_to_string(&path).unwrap();
    /// assert!(text.starts_with("journal 4\n") && text.contains("\nend 1 "));
    /// # std::fs::remove_file(&path).unwrap();
    /// # Ok(())
    /// # }
    /// ```
    #[must_use]
    pub fn sealed(mut self) -> JournalFile {
        self.is_sealed = true;
        self
    }

    /// Says what a call waits for before it returns: for its entry on the [disk](Keep::Disk), or in the
    /// system's memory alone.
    ///
    /// ```
    /// let on_disk = seryugo::JournalFile::new().keep(seryugo::Keep::Disk);
    /// assert_ne!(on_disk, seryugo::JournalFile::new());
    /// ```
    #[must_use]
    pub fn keep(mut self, keep: Keep) -> JournalFile {
        self.keep = keep;
        self
    }

    /// Opens a switchboard of bytes, as [`Switchboard::open`] does.
    ///
    /// ```
    /// # fn main() -> Result<(), seryugo::Error> {
    /// # let path = std::env::temp_dir().join(format!("seryugo-doc-{}.bytes", std::process::id()));
    /// let board = seryugo::JournalFile::new().sync_by_hand().open(&path)?;
    /// board.sync()?;
    /// # drop(board);
    /// # std::fs::remove_file(&path).unwrap();
    /// # Ok(())
    /// # }
    /// ```
    ///
    /// # Errors
    ///
    /// As [`Switchboard::open`].
    pub fn open(&self, path: impl AsRef<Path>) -> Result<Switchboard, Error> {
        self.open_board(path.as_ref())
    }

    /// Opens a switchboard of numbers, as [`Switchboard::open_numbers`] does.
    ///
    /// ```
    /// # fn main() -> Result<(), seryugo::Error> {
    /// # let path = std::env::temp_dir().join(format!("seryugo-doc-{}.numbers", std::process::id()));
    /// let board = seryugo::JournalFile::new().open_numbers(&path)?;
    /// let mut seat = board.seat()?;
    /// let ages = seat.mailbox_again(0)?;
    /// seat.send(ages, 41)?;
    /// # drop(seat);
    /// # drop(board);
    /// # std::fs::remove_file(&path).unwrap();
    /// # Ok(())
    /// # }
    /// ```
    ///
    /// # Errors
    ///
    /// As [`Switchboard::open`].
    pub fn open_numbers(&self, path: impl AsRef<Path>) -> Result<Switchboard<Numbers>, Error> {
        self.open_board(path.as_ref())
    }

    fn open_board<R: MessageKind>(self, path: &Path) -> Result<Switchboard<R>, Error> {
        version::check()?;
        let name = CString::new(path.as_os_str().as_bytes()).map_err(|_| {
            Error::FileFailed(FileCause::new("the path has a byte 0".to_string(), EINVAL))
        })?;
        let options = FileOptions {
            sync_milliseconds: self.sync_milliseconds,
            flags: if self.is_sealed { FILE_SEALED } else { 0 },
            segment: self.segment,
            short_from: self.short_from,
            keep: self.keep,
        };
        let (found, opened) = File::open(&name, R::MESSAGES, LIMIT, &options);
        let (file, room) = opened.map_err(|code| refusal(code, &found))?;
        Ok(Switchboard::over(room, LIMIT).kept_in(OpenFile {
            file: Arc::new(file),
            recovered: Recovered::of(&found, path),
        }))
    }
}

/// Why a file wasn't opened, by the code of the call and what it found.
fn refusal(code: u32, found: &FileFound) -> Error {
    match code {
        code::FAULT => Error::Fault(found.lines.saturating_add(1)),
        code::UNLAWFUL => Error::Unlawful(found.entries),
        code::FILE_FAILED => Error::FileFailed(FileCause::new(found.words(), found.errno)),
        code => Error::of_code(code),
    }
}

/// The file of a switchboard.
pub(crate) struct OpenFile {
    pub file: Arc<File>,
    recovered: Recovered,
}

impl OpenFile {
    /// Whether this process is a child of that which has the file.
    #[inline]
    pub fn is_forked(&self) -> bool {
        self.file.state() == code::FORKED
    }
}

impl Switchboard {
    /// Opens a switchboard whose journal is kept in the file of this path. If there is no file, this
    /// makes it. Else it goes on where the journal ends, with the objects and messages that were
    /// there.
    ///
    /// Find the objects by their numbers: [`mailbox_again`](crate::Seat::mailbox_again) and the calls
    /// after it. Seats, lanes and feeds are new.
    ///
    /// ```
    /// fn main() -> Result<(), seryugo::Error> {
    /// #   std::env::set_current_dir(std::env::temp_dir()).unwrap();
    ///     let board = seryugo::Switchboard::open("letters.journal")?;
    ///     let mut seat = board.seat()?;
    ///     let letters = seat.mailbox_again::<String>(0)?;
    ///     seat.send(letters, "Dear Ben")?;
    ///     println!("{}", seat.recv(letters)?);
    ///     drop(seat);
    /// #   std::fs::remove_file("letters.journal").unwrap();
    ///     board.close()
    /// }
    /// ```
    ///
    /// # What is kept
    ///
    /// - After the end of the program, by a panic or `kill -9` too: each call that returned.
    /// - After a loss of power: what was synced, and a beginning of the rest. The file is synced each
    ///   second ([`JournalFile::sync_every`]), and by [`sync`](Switchboard::sync). With [`Keep::Disk`]
    ///   each call that returned is there too.
    /// - A message of a [`Lane`](crate::Lane) is kept once it is drained. One of a
    ///   [`Feed`](crate::Feed) counts as received once it is pumped.
    ///
    /// This exchanges a file with sums or a line `end` for a short one, which has what
    /// [`compact`](Switchboard::compact) returns. A long file too, also while it is open, if you ask for
    /// that by [`JournalFile::short_from`]. Objects keep their numbers. Positions of entries, and counts of
    /// what was sent and received, begin anew. A kill leaves the old file or the new one whole. If it
    /// can't exchange the file, it goes on with the old one, and [`Recovered`] says why.
    ///
    /// The journal's limit refuses no call, and only the file cuts the journal. So `cut`, `keep` and
    /// each other call that cuts or takes it fail with [`HasFile`](Error::HasFile).
    ///
    /// Another program must not change the file while it is open. If one cuts it, a call may end this
    /// program by a signal.
    ///
    /// # Errors
    ///
    /// These leave the file as it was:
    ///
    /// - `FileBusy`: another switchboard has the file, of this process or of another.
    /// - `NoJournal`, `OtherVersion`, `OtherMessages`, `BeginsLater`: the file isn't such a journal.
    /// - `Fault`, `Unlawful`: the journal was changed.
    ///
    /// After `FileFailed` and `NoMemory` what the file had is still there, but its end may be cut
    /// off, and the file may be new or exchanged. `Version` as of [`new`](Switchboard::new).
    pub fn open(path: impl AsRef<Path>) -> Result<Switchboard, Error> {
        JournalFile::new().open(path)
    }
}

impl Switchboard<Numbers> {
    /// Opens a switchboard of numbers. [`open`](Switchboard::open) says the rest.
    ///
    /// ```
    /// # fn main() -> Result<(), seryugo::Error> {
    /// # let path = std::env::temp_dir().join(format!("seryugo-doc-{}.sums", std::process::id()));
    /// let board = seryugo::Switchboard::open_numbers(&path)?;
    /// let mut seat = board.seat()?;
    /// let sum = seat.mvar_again(0)?;
    /// seat.put(sum, 0)?; // It does nothing to a full variable.
    /// let before = seat.get(sum)?;
    /// seat.swap(sum, before + 1)?;
    /// # drop(seat);
    /// # drop(board);
    /// # std::fs::remove_file(&path).unwrap();
    /// # Ok(())
    /// # }
    /// ```
    ///
    /// # Errors
    ///
    /// As [`open`](Switchboard::open).
    pub fn open_numbers(path: impl AsRef<Path>) -> Result<Switchboard<Numbers>, Error> {
        JournalFile::new().open_numbers(path)
    }
}

/// # A journal in a file
///
/// [`open`](Switchboard::open) opens one.
impl<R: MessageKind> Switchboard<R> {
    fn kept_in(mut self, file: OpenFile) -> Switchboard<R> {
        self.state_mut().set_file(Some(Arc::clone(&file.file)));
        self.file = Some(Box::new(file));
        self.most = MESSAGE_MOST;
        self
    }

    /// Returns what was found as the file was opened. `None`: no file keeps the journal.
    ///
    /// ```
    /// assert_eq!(seryugo::Switchboard::new(1_000)?.recovered(), None);
    /// # Ok::<(), seryugo::Error>(())
    /// ```
    #[must_use]
    pub fn recovered(&self) -> Option<&Recovered> {
        self.file.as_ref().map(|file| &file.recovered)
    }

    /// Blocks until all calls that returned are on the disk. Without a file it does nothing.
    ///
    /// ```
    /// # fn main() -> Result<(), seryugo::Error> {
    /// # let path = std::env::temp_dir().join(format!("seryugo-doc-{}.sync", std::process::id()));
    /// let board = seryugo::Switchboard::open(&path)?;
    /// let mut seat = board.seat()?;
    /// let orders = seat.mailbox_again::<String>(0)?;
    /// seat.send(orders, "two apples")?;
    /// board.sync()?;
    /// println!("your order is on the disk");
    /// # drop(seat);
    /// # drop(board);
    /// # std::fs::remove_file(&path).unwrap();
    /// # Ok(())
    /// # }
    /// ```
    ///
    /// # Errors
    ///
    /// `FileLost`: a sync has failed, so nobody knows what is on the disk. `Forked`.
    pub fn sync(&self) -> Result<(), Error> {
        self.file.as_ref().map_or(Ok(()), |file| done(file.file.sync()))
    }

    /// Syncs and closes the journal's file. Without a file this is [`keep`](Switchboard::keep), and
    /// then the switchboard goes.
    ///
    /// A switchboard that is dropped closes its file too. If that fails, a line on standard error
    /// says so. Of an `Arc<Switchboard>` the last owner's drop closes the file.
    ///
    /// ```
    /// # fn main() -> Result<(), seryugo::Error> {
    /// # let path = std::env::temp_dir().join(format!("seryugo-doc-{}.close", std::process::id()));
    /// let board = seryugo::Switchboard::open(&path)?;
    /// board.seat()?.mailbox_again::<String>(0)?;
    /// board.close()?;
    /// assert!(std::fs::read_to_string(&path).unwrap().ends_with("mailbox: made 0\n"));
    /// # std::fs::remove_file(&path).unwrap();
    /// # Ok(())
    /// # }
    /// ```
    ///
    /// # Errors
    ///
    /// The switchboard is closed in any case. `FileLost`: a sync has failed. `FileFull`: some calls
    /// aren't in the file. `Forked`. Without a file as [`keep`](Switchboard::keep).
    pub fn close(mut self) -> Result<(), Error> {
        match self.file {
            Some(_) => self.close_file(),
            None => self.keep(),
        }
    }

    /// Notes what is pending, and closes the file, if it is open.
    fn close_file(&mut self) -> Result<(), Error> {
        let Some(opened) = self.file.take() else {
            return Ok(());
        };
        let state = self.state_mut();
        let noted = done(state.note());
        state.set_file(None);
        let closed = Arc::into_inner(opened.file).map_or(code::DONE, File::close);
        noted.and(done(closed))
    }
}

/// Closes the file that keeps the journal. See [`close`](Switchboard::close).
impl<R: MessageKind> Drop for Switchboard<R> {
    fn drop(&mut self) {
        match self.close_file() {
            // A child of a fork has only a copy.
            Ok(()) | Err(Error::Forked) => {}
            Err(error) => eprintln!("seryugo: a switchboard was dropped: {error}"),
        }
    }
}

#[cfg(test)]
mod tests {
    use super::*;

    #[test]
    fn a_period_is_at_least_a_millisecond() {
        let period = |period| JournalFile::new().sync_every(period).sync_milliseconds;
        assert_eq!(period(Duration::ZERO), 1);
        assert_eq!(period(Duration::from_secs(2)), 2_000);
        assert_eq!(period(Duration::MAX), u64::MAX);
        assert_eq!(JournalFile::new().sync_by_hand().sync_milliseconds, 0);
    }
}
