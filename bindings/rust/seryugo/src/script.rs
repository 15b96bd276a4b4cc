//! Scripts, replayed.

use std::error::Error;
use std::fmt;

/// The most entries that a journal may be given room for.
///
/// ```
/// use seryugo::{replay, BadLimit, MOST_ENTRIES};
///
/// assert!(replay(b"cml 1\n", MOST_ENTRIES).is_ok());
/// assert_eq!(replay(b"cml 1\n", MOST_ENTRIES + 1), Err(BadLimit));
/// ```
pub const MOST_ENTRIES: u64 = 1 << 32;

/// How a replay ended.
///
/// ```
/// use seryugo::{replay, End};
///
/// let replayed = replay(b"cml 1\nthread A\nA jump m\n", 10).unwrap();
/// assert_eq!(replayed.end, End::Fault(3));
/// ```
#[derive(Clone, Copy, Debug, PartialEq, Eq)]
pub enum End {
    /// Every step was performed.
    Done,
    /// Steps are left, and none is ready.
    Stalled,
    /// The script has a fault in this line, counted from 1.
    Fault(u64),
    /// There was no memory.
    NoMemory,
    /// The journal met its limit.
    Full,
    /// The library ended by a status that this version of the crate doesn't know.
    Unknown(u32),
}

/// A report, and how the replay ended. If the script has a fault, or there was no memory, the
/// report is empty.
///
/// ```
/// let replayed = seryugo::replay(b"cml 1\nmailbox m\nthread A\nA send m 5\n", 10).unwrap();
/// assert!(replayed.report.contains("A send m 5: done"));
/// ```
#[derive(Clone, Debug, PartialEq, Eq)]
pub struct Replayed {
    /// The report, as `cml replay` writes it.
    pub report: String,
    /// How the replay ended.
    pub end: End,
}

/// The limit was 0, or more than [`MOST_ENTRIES`].
///
/// ```
/// assert_eq!(seryugo::replay(b"cml 1\n", 0), Err(seryugo::BadLimit));
/// ```
#[derive(Clone, Copy, Debug, PartialEq, Eq)]
pub struct BadLimit;

impl fmt::Display for BadLimit {
    fn fmt(&self, f: &mut fmt::Formatter<'_>) -> fmt::Result {
        write!(f, "a journal's limit is from 1 to {MOST_ENTRIES}")
    }
}

impl Error for BadLimit {}

#[repr(C)]
#[derive(Default)]
struct RawEnd {
    status: u32,
    line: u64,
    length: usize,
}

const NO_ROOM: u32 = 1;
const BAD_LIMIT: u32 = 2;

unsafe extern "C" {
    fn seryugo_replay(
        script: *const u8,
        script_length: usize,
        limit: u64,
        report: *mut u8,
        room: usize,
        end: *mut RawEnd,
    ) -> u32;
}

/// Replays a script, with a journal that takes `limit` entries.
///
/// ```
/// use seryugo::{replay, End};
///
/// let script = "cml 1\nmailbox m\nthread A\nA send m 5\nA recv m\n";
/// let replayed = replay(script.as_bytes(), 100).unwrap();
/// assert_eq!(replayed.end, End::Done);
/// assert!(replayed.report.contains("A recv m: 5"));
/// ```
///
/// # Errors
///
/// The limit is 0, or more than [`MOST_ENTRIES`].
pub fn replay(script: &[u8], limit: u64) -> Result<Replayed, BadLimit> {
    let mut report = vec![0; 2 * script.len()];
    let mut end = RawEnd::default();
    let mut code = call(script, limit, &mut report, &mut end);
    if code == NO_ROOM {
        report.resize(end.length, 0);
        code = call(script, limit, &mut report, &mut end);
    }
    if code == BAD_LIMIT {
        return Err(BadLimit);
    }
    report.truncate(end.length);
    Ok(Replayed {
        report: String::from_utf8_lossy(&report).into_owned(),
        end: end.told(),
    })
}

fn call(script: &[u8], limit: u64, report: &mut [u8], end: &mut RawEnd) -> u32 {
    // SAFETY: both slices and `end` are this caller's own, and the call keeps none of them.
    unsafe {
        seryugo_replay(script.as_ptr(), script.len(), limit, report.as_mut_ptr(), report.len(), end)
    }
}

impl RawEnd {
    fn told(&self) -> End {
        match self.status {
            0 => End::Done,
            1 => End::Stalled,
            2 => End::Fault(self.line),
            5 => End::NoMemory,
            6 => End::Full,
            status => End::Unknown(status),
        }
    }
}
