//! The state under a switchboard's lock: the room, and the counts beside it.

use crate::error::Error;
use crate::journal::full::{
    cut_behind, cut_short, journal_by, taken, PendingJournal, Start, WhenFull,
};
use crate::journal::Journal;
use crate::message::carries::MessageKind;
use crate::message::kind::{Kind, Misfit, Missing};
use crate::raw::{self, code, done, written, File, Handle, Messages, Reader, Taking};
use crate::request::answers::Answers;
use crate::request::asked::Asked;
use crate::switchboard::asking::OpenWaits;
use crate::switchboard::call::{Line, Outcome};
use crate::switchboard::expected::Expected;
use crate::switchboard::moving::OpenLane;
use std::collections::BTreeMap;
use std::io::{self, ErrorKind};
use std::sync::Arc;

/// No switchboard has so many seats. With these the count of parked seats says what else a call sees
/// to: a file keeps the journal, a call is deferred, or this one fails with `Stalled`.
pub(super) const FILE: u64 = 1 << 63;
pub(super) const DEFERRED: u64 = 1 << 62;
pub(super) const STALLED: u64 = 1 << 61;

/// The state under the lock. What each call uses comes first, so that it lies in the lock's cache
/// line: each line moves from the thread that called before to the one that calls.
#[repr(C)]
pub(crate) struct State<R: MessageKind> {
    pub handle: Handle,
    /// The journal surely has room for this many more. Without a full-journal policy or a file no
    /// call asks, and with a file each does.
    pub(super) spare: u64,
    /// What a call sees to once it is made: how many seats are parked, and `FILE`, `DEFERRED` and
    /// `STALLED`.
    pub(super) after_call: u64,
    /// How many calls were made that may park a seat or make one due.
    pub(super) calls: u64,
    /// The file that keeps the journal.
    pub(super) file: Option<Arc<File>>,
    /// The most bytes of a call's messages, if a sink takes the journal. A file measures them as it
    /// reserves room.
    most: u64,
    /// How many entries the journal takes between two cuts.
    limit: u64,
    /// The policy for a full journal, and the entries that its sink refused.
    pub(super) pending: Option<PendingJournal<R>>,
    /// Whether the file is lost, and all who waited were woken.
    is_lost: bool,
    /// Where the text begins to which the next piece is added.
    start: Start,
    /// The number of the first seat that was made here. Those of a journal from which the
    /// switchboard goes on have lesser ones.
    pub(super) first_seat: u64,
    /// How many seats were made here, hosts included.
    pub(super) seats: u64,
    /// The waits that their callers can end.
    pub(super) open: OpenWaits,
    /// Who will come.
    pub expected: Expected,
    /// Where seats that have left had their questions answered.
    pub free_answers: Vec<Answers>,
    /// The questions that are asked by mailboxes for answers.
    pub asked: BTreeMap<u64, Arc<Asked>>,
    /// The open lanes, by their numbers.
    pub lanes: BTreeMap<u64, OpenLane>,
    /// How many messages were lost with their lanes.
    pub(super) lost: u64,
    /// The ports of the open feeds, by the feeds' numbers.
    pub fed: BTreeMap<u64, u64>,
}

impl<R: MessageKind> State<R> {
    /// Over a room in which no seat was made yet. Its journal takes this many entries between two
    /// cuts.
    pub fn new(handle: Handle, limit: u64) -> State<R> {
        State {
            handle,
            limit,
            spare: u64::MAX,
            pending: None,
            file: None,
            most: u64::MAX,
            is_lost: false,
            start: Start::default(),
            first_seat: 0,
            seats: 0,
            open: OpenWaits::default(),
            expected: Expected::default(),
            free_answers: Vec::new(),
            asked: BTreeMap::new(),
            after_call: 0,
            calls: 0,
            lanes: BTreeMap::new(),
            lost: 0,
            fed: BTreeMap::new(),
        }
    }

    /// Keeps the journal in a file, which has let this room go on.
    pub fn set_file(&mut self, file: Option<Arc<File>>) {
        self.spare = if file.is_some() { 0 } else { u64::MAX };
        self.after_call = self.parked() + if file.is_some() { FILE } else { 0 };
        self.file = file;
    }

    pub fn has_file(&self) -> bool {
        self.file.is_some()
    }

    /// Whether a call that was made sees to nothing more: no seat is parked, so that none is due, none
    /// is deferred, and no file keeps the journal.
    #[inline]
    pub fn ends_at_once(&self) -> bool {
        self.after_call == 0
    }

    /// Whether a call is deferred, or has just failed as stalled.
    #[inline]
    pub fn sees_to_waits(&self) -> bool {
        self.after_call & (DEFERRED | STALLED) != 0
    }

    pub(super) fn parked(&self) -> u64 {
        self.after_call & !(FILE | DEFERRED | STALLED)
    }

    /// Stores what the room has had since the last time in its file.
    pub fn note(&mut self) -> u32 {
        self.file.as_ref().map_or(code::DONE, |file| file.note(&mut self.handle))
    }

    /// What a call waits for that ends now, before it returns: a position in the file. 0: for nothing.
    pub fn position(&self) -> u64 {
        self.file.as_ref().map_or(0, |file| file.position())
    }

    /// Returns how many parkers are to be woken, if the file was lost just now: those of all seats.
    pub fn newly_lost(&mut self) -> u64 {
        let is_lost = self.file.as_ref().is_some_and(|file| file.state() == code::FILE_LOST);
        if self.is_lost || !is_lost {
            return 0;
        }
        self.is_lost = true;
        self.seats
    }

    /// Fails if the journal has a file: it is the file's, and nobody else cuts it.
    fn without_file(&self) -> Result<(), Error> {
        match self.file {
            None => Ok(()),
            Some(_) => Err(Error::HasFile),
        }
    }

    /// Sets the full-journal policy. Returns the most bytes that a message has from now on.
    pub fn set_when_full(&mut self, when_full: WhenFull<R>) -> u64 {
        self.most = when_full.message_most();
        let kept = self.pending.take().and_then(PendingJournal::into_kept);
        self.pending = PendingJournal::new(when_full, kept);
        self.spare = if self.pending.is_some() { 0 } else { u64::MAX };
        self.most
    }

    /// Reserves an entry, if a policy is set or a file is there: cuts a full journal first. `Err`:
    /// the code by which the call fails.
    #[inline]
    pub fn makes_room(&mut self, line: Line) -> Result<(), u32> {
        let is_long = matches!(R::MESSAGES, Messages::Bytes) && line.may_exceed(self.most);
        if self.spare == 0 || is_long {
            return self.looks_for_room(line);
        }
        self.spare -= 1;
        Ok(())
    }

    #[cold]
    fn looks_for_room(&mut self, line: Line) -> Result<(), u32> {
        let bytes = line.bytes::<R>(&mut self.handle)?;
        if let Some(file) = &self.file {
            return match file.reserve(&mut self.handle, bytes) {
                code::DONE => Ok(()),
                code => Err(code),
            };
        }
        if bytes > self.most {
            return Err(code::TOO_LONG);
        }
        self.cuts_for_room().map_err(|_| code::NOT_KEPT)
    }

    fn cuts_for_room(&mut self) -> Result<(), Error> {
        if self.spare != 0 {
            self.spare -= 1;
            return Ok(());
        }
        let Some(pending) = &mut self.pending else {
            return Ok(());
        };
        pending.hand_over()?;
        let mut spare = self.spare_now();
        if spare == 0 {
            self.keep()?;
            spare = self.limit;
        }
        self.spare = spare - 1;
        Ok(())
    }

    /// Reads a counter that cannot fail.
    pub fn count(&mut self, reader: Reader) -> u64 {
        raw::read(&mut self.handle, reader, 0).unwrap_or_default()
    }

    /// How many more entries the journal takes.
    pub(super) fn spare_now(&mut self) -> u64 {
        let (entries, cut) = (self.count(Reader::Entries), self.count(Reader::CutAt));
        self.limit.saturating_sub(entries - cut)
    }

    /// Cuts the journal, and does with its entries what is done with those of a full one.
    pub fn keep(&mut self) -> Result<(), Error> {
        self.without_file()?;
        let is_empty = self.spare_now() == self.limit;
        match &mut self.pending {
            Some(pending) if is_empty => pending.hand_over(),
            Some(pending) => pending.cut(&mut self.handle, self.start),
            None => Ok(()),
        }
    }

    /// Cuts the journal, while lanes and feeds may be open if `is_open`, and drops its entries, and
    /// those that nobody took.
    pub fn cut(&mut self, is_open: bool) -> Result<(), Error> {
        self.without_file()?;
        done(raw::seryugo_cut_by(&mut self.handle, is_open))?;
        if let Some(pending) = &mut self.pending {
            pending.forget();
        }
        Ok(())
    }

    /// Cuts the journal, and returns its entries. If some were cut away before and
    /// nobody took them, they go first.
    pub fn take_journal(&mut self, taking: Taking) -> Result<Journal<R>, Error> {
        self.without_file()?;
        if let Some(pending) = &mut self.pending {
            pending.hand_over()?;
        }
        taken(&mut self.handle, self.start, taking)
    }

    /// Returns a short journal that leaves what all calls leave.
    pub fn compact(&mut self) -> Result<Journal<R>, Error> {
        journal_by(&mut self.handle, 0, Taking::Short)
    }

    /// Returns a short journal, and cuts the journal. The short one stands for the entries that
    /// nobody took, too.
    pub fn compact_and_cut(&mut self) -> Result<Journal<R>, Error> {
        self.without_file()?;
        let (journal, start) = cut_short(&mut self.handle)?;
        self.begin(start);
        Ok(journal)
    }

    /// Hands over a short journal. If that goes well, it cuts the journal as `compact_and_cut`
    /// does.
    pub fn compact_with<T>(
        &mut self,
        keep: impl FnOnce(&Journal<R>) -> io::Result<T>,
    ) -> io::Result<T> {
        self.without_file().map_err(uncompacted)?;
        let journal = self.compact().map_err(uncompacted)?;
        let kept = keep(&journal)?;
        let start = cut_behind(&mut self.handle, journal.len() as u64).map_err(uncompacted)?;
        self.begin(start);
        Ok(kept)
    }

    /// From now on a short journal stands for all before.
    fn begin(&mut self, start: Start) {
        self.start = start;
        if let Some(pending) = &mut self.pending {
            pending.forget();
        }
    }

    /// Returns why the sink refused entries last, once; or why the file doesn't take them.
    pub fn keeping_error(&mut self) -> Option<io::Error> {
        let Some(file) = &self.file else {
            return self.pending.as_mut().and_then(PendingJournal::error);
        };
        let (words, errno) = file.error()?;
        Some(io::Error::new(io::Error::from_raw_os_error(errno).kind(), words))
    }

    /// The place of the next seat among those that were made here, hosts included.
    pub fn next_place(&self) -> u64 {
        self.expected.host().map_or(self.seats, |host| host.wrapping_sub(self.first_seat))
    }

    /// Makes a free seat of the library, and returns its number.
    pub fn make_seat(&mut self) -> Result<u64, Error> {
        let number = written(|seat| raw::seryugo_new_seat(&mut self.handle, seat))?;
        if self.seats == 0 {
            self.first_seat = number;
        }
        self.seats += 1;
        Ok(number)
    }

    /// The place of the next seat that is due among those that were made here. Each seat that is
    /// due is given once.
    pub fn next_due(&mut self) -> Option<u64> {
        // Only a parked seat is ever due.
        if self.parked() == 0 {
            return None;
        }
        let mut seat = 0;
        let code = raw::seryugo_next_due(&mut self.handle, &mut seat);
        (code == code::DONE).then(|| seat.wrapping_sub(self.first_seat))
    }

    /// Makes a call that may make a seat due.
    #[inline]
    pub fn call<T>(&mut self, call: impl FnOnce(&mut State<R>) -> T) -> T {
        self.calls += 1;
        call(self)
    }

    /// Makes a call that has an entry in the journal, if it is accepted.
    #[inline]
    pub fn enter<T: Outcome>(&mut self, line: Line, call: impl FnOnce(&mut Handle) -> T) -> T {
        match self.makes_room(line) {
            Ok(()) => call(&mut self.handle),
            Err(code) => T::refused(code),
        }
    }

    /// Finds the object of this number and kind. If there is none, and its number is the next one,
    /// this seat makes it.
    pub fn again(
        &mut self,
        seat: u64,
        number: u64,
        wanted: Kind,
        make: impl FnOnce(&mut Handle, u64, &mut u64) -> u32,
    ) -> Result<(), Error> {
        match self.kind(number)? {
            Some(is) if is == wanted => return Ok(()),
            Some(is) => return Err(Error::WrongKind(Misfit::Kind { number, is, wanted })),
            None => {}
        }
        if let Some(before) = number.checked_sub(1) {
            self.kind(before)?.ok_or(Error::NoSuch(Missing::Object(before)))?;
        }
        done(self.enter(Line::SHORT, |room| make(room, seat, &mut 0)))
    }

    /// What the object of this number is, if it is there.
    fn kind(&mut self, number: u64) -> Result<Option<Kind>, Error> {
        match raw::read(&mut self.handle, Reader::Kind, number) {
            Err(Error::Unknown(code::NO_SUCH)) => Ok(None),
            kind => Kind::of(kind?).map(Some),
        }
    }
}

/// Why there is no short journal.
fn uncompacted(error: Error) -> io::Error {
    match error {
        Error::NoMemory => ErrorKind::OutOfMemory.into(),
        error => io::Error::other(error),
    }
}
