//! The library's calls that are the same for both kinds of switchboard, as its header has them, and
//! a handle that is closed when it is dropped. `numbers` and `bytes` have the others.
//!
//! The library tests each argument but a pointer to bytes. So a call that takes handles by
//! reference and numbers is safe.

use crate::error::cause::FileCause;
use crate::error::Error;
use crate::journal::keep::Keep;
use crate::journal::sum::RawSum;
use std::ffi::{c_char, c_int, c_void, CStr};
use std::io;
use std::mem;
use std::ptr;

/// What a call returns, as the header numbers it.
pub mod code {
    pub const DONE: u32 = 0;
    pub const NOTHING: u32 = 1;
    pub const PUT: u32 = 2;
    pub const CLOSED: u32 = 3;
    pub const PARKED: u32 = 4;
    pub const GONE: u32 = 5;
    pub const BUSY: u32 = 6;
    pub const NO_SUCH: u32 = 7;
    pub const WRONG_KIND: u32 = 8;
    pub const JOURNAL_FULL: u32 = 9;
    pub const STALLED: u32 = 10;
    pub const NO_MEMORY: u32 = 11;
    pub const UNSEEN: u32 = 12;
    pub const FULL: u32 = 13;
    pub const OUT_OF_BOUNDS: u32 = 16;
    pub const UNLAWFUL: u32 = 17;
    pub const FAULT: u32 = 18;
    pub const TOO_LONG: u32 = 20;
    pub const TEXT_OPEN: u32 = 22;
    pub const NO_JOURNAL: u32 = 23;
    pub const FILE_BUSY: u32 = 24;
    pub const OTHER_VERSION: u32 = 25;
    pub const OTHER_MESSAGES: u32 = 26;
    pub const BEGINS_LATER: u32 = 27;
    pub const FILE_FAILED: u32 = 28;
    pub const FILE_FULL: u32 = 29;
    pub const FILE_LOST: u32 = 30;
    pub const FORKED: u32 = 31;
    /// The library never returns it: a call that this crate didn't make, since nobody took the
    /// entries of a full journal.
    pub const NOT_KEPT: u32 = u32::MAX - 1;
    /// As above: a call that the library would let fail as stalled, while a wait is open.
    pub const DEFERRED: u32 = u32::MAX - 2;
}

/// Which messages a room or a reading has.
#[derive(Clone, Copy)]
#[repr(u32)]
pub enum Messages {
    Numbers = 0,
    Bytes = 1,
}

/// What is read of an object, or of a room's journal.
#[derive(Clone, Copy)]
#[repr(u32)]
pub enum Reader {
    Sent = 0,
    Got = 1,
    Owed = 2,
    Kept = 3,
    Kind = 5,
    Channel = 6,
    Start = 7,
    IsOpen = 8,
    Entries = 9,
    CutAt = 10,
}

/// Where an entry is looked for.
#[derive(Clone, Copy)]
#[repr(u32)]
pub enum EntrySource {
    Room = 0,
    Journal = 1,
}

/// What is taken out of a room.
#[derive(Clone, Copy)]
#[repr(u32)]
pub enum Taking {
    Cut = 0,
    CutOpen = 1,
    Short = 2,
    ShortAndCut = 3,
}

/// What is read off a reading.
#[derive(Clone, Copy)]
#[repr(u32)]
pub enum ReadingState {
    Entries = 0,
    Lines = 1,
    End = 2,
    Kept = 3,
    Fault = 4,
}

/// A handle to a room, a lane, a feed, a reading or a taken journal, which is open until it is
/// dropped. A thread that has it by `&mut` has it alone, which orders its calls.
#[repr(C)]
pub struct Handle {
    at: *mut c_void,
}

// SAFETY: what a handle leads to may go to another thread: the library proves that of each.
unsafe impl Send for Handle {}

/// Where a call writes a handle that it opens. Nothing else writes it.
#[repr(C)]
pub struct Opening {
    at: *mut c_void,
}

impl Opening {
    pub const fn new() -> Opening {
        Opening {
            at: ptr::null_mut(),
        }
    }

    /// The handle, once a call has opened it.
    pub fn opened(self) -> Result<Handle, Error> {
        if self.at.is_null() {
            return Err(Error::Unknown(code::DONE));
        }
        Ok(Handle { at: self.at })
    }
}

impl Handle {
    /// A handle that is opened by a call which writes it.
    pub fn opened(open: impl FnOnce(&mut Opening) -> u32) -> Result<Handle, Error> {
        let mut opening = Opening::new();
        done(open(&mut opening))?;
        opening.opened()
    }
}

impl Drop for Handle {
    fn drop(&mut self) {
        // SAFETY: a call has opened it, and none is made on it from here on.
        unsafe { seryugo_close(Closing { at: self.at }) }
    }
}

/// A handle that is given to the call which closes it.
#[repr(C)]
struct Closing {
    at: *mut c_void,
}

/// The flag of a file whose text has sums.
pub const FILE_SEALED: u32 = 2;

/// How a journal's file is kept.
#[repr(C)]
pub struct FileOptions {
    /// From one sync to the next. 0: only where the program asks for one.
    pub sync_milliseconds: u64,
    pub flags: u32,
    /// By how many bytes the file grows. 0: as the library chooses.
    pub segment: u64,
    /// From how many bytes on a long file is exchanged for a short one. 0: never.
    pub short_from: u64,
    pub keep: Keep,
}

/// A callback for when a file is on the disk up to a position.
#[repr(C)]
pub struct FileWaiter {
    pub position: u64,
    pub wake: extern "C" fn(*mut FileWaiter),
    /// The file's own.
    pub following: *mut FileWaiter,
}

const WORDS: usize = 256;

/// What opening a file found, or why it failed.
#[repr(C)]
pub struct FileFound {
    pub entries: u64,
    pub lines: u64,
    pub kept: u64,
    pub cut_off: u64,
    pub is_new: bool,
    pub is_shortened: bool,
    /// The cause as `errno`, or 0.
    pub errno: c_int,
    saved: [u8; WORDS],
    words: [u8; WORDS],
}

impl FileFound {
    const fn nothing() -> FileFound {
        FileFound {
            entries: 0,
            lines: 0,
            kept: 0,
            cut_off: 0,
            is_new: false,
            is_shortened: false,
            errno: 0,
            saved: [0; WORDS],
            words: [0; WORDS],
        }
    }

    /// The name of the file that has what was cut off, or nothing.
    pub fn saved(&self) -> &[u8] {
        before_zero(&self.saved)
    }

    /// The cause in words, or nothing. Of an open file: why it wasn't exchanged.
    pub fn words(&self) -> String {
        String::from_utf8_lossy(before_zero(&self.words)).into_owned()
    }
}

fn before_zero(text: &[u8]) -> &[u8] {
    text.split(|byte| *byte == 0).next().unwrap_or_default()
}

/// A journal's file. The library has opened it, and it is closed when this is dropped: before its
/// room is.
pub struct File(FileAt);

#[derive(Clone, Copy)]
#[repr(transparent)]
struct FileAt(*mut c_void);

// SAFETY: any thread may make a call on a file. Those that need the room's lock have the room alone.
unsafe impl Send for File {}
// SAFETY: as above.
unsafe impl Sync for File {}

impl File {
    /// Opens a file, and the room that its journal leaves. Says what it found, or why it failed.
    pub fn open(
        path: &CStr,
        messages: Messages,
        limit: u64,
        options: &FileOptions,
    ) -> (FileFound, Result<(File, Handle), u32>) {
        let (mut found, mut room) = (FileFound::nothing(), Opening::new());
        let mut file = FileAt(ptr::null_mut());
        // SAFETY: the path ends with a 0, and the library keeps none of the references.
        let code = unsafe {
            let path = path.as_ptr();
            seryugo_file_open(path, messages, limit, options, &mut room, &mut found, &mut file)
        };
        let opened = match (code, room.opened()) {
            (code::DONE, Ok(room)) => Ok((File(file), room)),
            (code, _) => Err(code),
        };
        (found, opened)
    }

    /// Whether calls may be made. It takes no lock.
    pub fn state(&self) -> u32 {
        seryugo_file_state(self.0)
    }

    /// Makes room for the next call's line, whose message has this many bytes.
    pub fn reserve(&self, room: &mut Handle, bytes: u64) -> u32 {
        self.explained(seryugo_file_reserve(self.0, room, bytes))
    }

    /// Stores the lines of all entries that the room has had since the last time.
    pub fn note(&self, room: &mut Handle) -> u32 {
        // SAFETY: a null pointer asks for no position.
        self.explained(unsafe { seryugo_file_note(self.0, room, ptr::null_mut()) })
    }

    /// Blocks until all that was stored before is on the disk.
    pub fn sync(&self) -> u32 {
        self.explained(seryugo_file_sync(self.0))
    }

    /// What a call waits for that was noted. 0: for nothing.
    pub fn position(&self) -> u64 {
        seryugo_file_position(self.0)
    }

    /// Blocks until the file is on the disk up to this position.
    pub fn wait(&self, position: u64) -> u32 {
        self.explained(seryugo_file_wait(self.0, position))
    }

    /// Has this waiter told once the file is on the disk up to its position, if this returns `PARKED`.
    ///
    /// # Safety
    ///
    /// The waiter must not move or be freed before its callback runs.
    pub unsafe fn when(&self, waiter: *mut FileWaiter) -> u32 {
        // SAFETY: as its caller says.
        unsafe { seryugo_file_when(self.0, waiter) }
    }

    /// This code. If it is a refusal of the system's, the error that is made of it says why.
    #[inline]
    fn explained(&self, code: u32) -> u32 {
        if matches!(code, code::FILE_FULL | code::FILE_LOST) {
            let (words, errno) = self.error().unwrap_or_default();
            FileCause::new(words, errno).note();
        }
        code
    }

    /// Why calls fail, in words and as `errno`.
    pub fn error(&self) -> Option<(String, c_int)> {
        let mut errno = 0;
        let words = seryugo_file_error(self.0, &mut errno);
        if words.is_null() {
            return None;
        }
        // SAFETY: the words end with a 0, and are there until the file is closed.
        let words = unsafe { CStr::from_ptr(words) };
        Some((words.to_string_lossy().into_owned(), errno))
    }

    /// Syncs and closes the file: whether all of it is on the disk.
    pub fn close(self) -> u32 {
        let file = self.0;
        mem::forget(self);
        let code = seryugo_file_close(file);
        if code == code::FILE_LOST {
            let error = io::Error::last_os_error();
            let errno = error.raw_os_error().unwrap_or_default();
            let words = if errno == 0 {
                String::new()
            } else {
                error.to_string()
            };
            FileCause::new(words, errno).note();
        }
        code
    }
}

impl Drop for File {
    fn drop(&mut self) {
        seryugo_file_close(self.0);
    }
}

/// The result of a call that is only ever done or refused.
#[inline]
pub fn done(code: u32) -> Result<(), Error> {
    match code {
        code::DONE => Ok(()),
        _ => Err(Error::of_code(code)),
    }
}

/// Whether a call was done, and didn't return this.
#[inline]
pub fn done_or(code: u32, other: u32) -> Result<bool, Error> {
    match code {
        code::DONE => Ok(true),
        _ if code == other => Ok(false),
        _ => Err(Error::of_code(code)),
    }
}

/// A number that is written by a call which is only ever done or refused.
pub fn written(call: impl FnOnce(&mut u64) -> u32) -> Result<u64, Error> {
    let mut number = 0;
    done(call(&mut number))?;
    Ok(number)
}

/// A fault on this line of a journal's text, in the words of `cml check`.
pub fn fault_text(fault: u64, line: u64) -> &'static str {
    // SAFETY: the text is constant, and ends with a 0.
    unsafe { CStr::from_ptr(seryugo_fault_text(fault, line)) }.to_str().unwrap_or_default()
}

/// A number of an object. One of the journal takes any number for the object.
pub fn read(room: &mut Handle, reader: Reader, object: u64) -> Result<u64, Error> {
    written(|number| seryugo_read(room, reader, object, number))
}

unsafe extern "C" {
    fn seryugo_close(handle: Closing);
    fn seryugo_file_open(
        path: *const c_char,
        messages: Messages,
        limit: u64,
        options: &FileOptions,
        room: &mut Opening,
        found: &mut FileFound,
        file: &mut FileAt,
    ) -> u32;
    safe fn seryugo_file_reserve(file: FileAt, room: &mut Handle, bytes: u64) -> u32;
    fn seryugo_file_note(file: FileAt, room: &mut Handle, position: *mut u64) -> u32;
    safe fn seryugo_file_state(file: FileAt) -> u32;
    safe fn seryugo_file_sync(file: FileAt) -> u32;
    safe fn seryugo_file_position(file: FileAt) -> u64;
    safe fn seryugo_file_wait(file: FileAt, position: u64) -> u32;
    fn seryugo_file_when(file: FileAt, waiter: *mut FileWaiter) -> u32;
    safe fn seryugo_file_close(file: FileAt) -> u32;
    safe fn seryugo_file_error(file: FileAt, errno: &mut c_int) -> *const c_char;
    safe fn seryugo_fault_text(fault: u64, line: u64) -> *const c_char;
    pub fn seryugo_reading_take_from(reading: &mut Handle, at: *const u8, length: usize) -> u32;
    pub safe fn seryugo_open_room(messages: Messages, limit: u64, room: &mut Opening) -> u32;
    pub safe fn seryugo_open_reading(messages: Messages, reading: &mut Opening) -> u32;
    pub safe fn seryugo_reading_state(
        reading: &mut Handle,
        state: ReadingState,
        number: &mut u64,
    ) -> u32;
    pub safe fn seryugo_reading_sum(reading: &mut Handle, sum: &mut RawSum) -> u32;
    pub safe fn seryugo_room_restore(reading: &mut Handle, limit: u64, room: &mut Opening) -> u32;
    pub safe fn seryugo_reading_compact(
        reading: &mut Handle,
        journal: &mut Opening,
        count: &mut u64,
    ) -> u32;
    pub safe fn seryugo_new_seat(room: &mut Handle, seat: &mut u64) -> u32;
    pub safe fn seryugo_leave(room: &mut Handle, seat: u64) -> u32;
    pub safe fn seryugo_withdraw(room: &mut Handle, seat: u64) -> u32;
    pub safe fn seryugo_next_due(room: &mut Handle, seat: &mut u64) -> u32;
    pub safe fn seryugo_lane_open(
        room: &mut Handle,
        target: u64,
        capacity: usize,
        lane: &mut Opening,
        number: &mut u64,
    ) -> u32;
    pub safe fn seryugo_lane_finish(lane: &mut Handle) -> u32;
    pub safe fn seryugo_lane_close(room: &mut Handle, lane: &mut Handle) -> u32;
    pub safe fn seryugo_lane_drain(room: &mut Handle, lane: u64, count: &mut u64) -> u32;
    pub safe fn seryugo_lane_abandon(room: &mut Handle, lane: u64) -> u32;
    pub safe fn seryugo_feed_open(
        room: &mut Handle,
        channel: u64,
        capacity: usize,
        feed: &mut Opening,
        number: &mut u64,
    ) -> u32;
    pub safe fn seryugo_feed_pump(room: &mut Handle, feed: u64, count: &mut u64) -> u32;
    pub safe fn seryugo_feed_port(feed: &mut Handle, port: &mut u64) -> u32;
    pub safe fn seryugo_feed_end(room: &mut Handle, feed: u64) -> u32;
    pub safe fn seryugo_reserve(room: &mut Handle, entries: usize) -> u32;
    pub safe fn seryugo_cut_by(room: &mut Handle, is_open: bool) -> u32;
    pub safe fn seryugo_take_by(
        room: &mut Handle,
        taking: Taking,
        journal: &mut Opening,
        count: &mut u64,
    ) -> u32;
    pub safe fn seryugo_read(
        room: &mut Handle,
        reader: Reader,
        object: u64,
        number: &mut u64,
    ) -> u32;
}
