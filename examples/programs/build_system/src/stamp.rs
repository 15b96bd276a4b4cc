//! When an object was written last, as the goals that need it see it.

use std::fs;
use std::time::{SystemTime, UNIX_EPOCH};

/// How new an object is. A later one is greater.
#[derive(Clone, Copy, Debug, PartialEq, Eq, PartialOrd, Ord)]
pub enum Stamp {
    /// Written this many nanoseconds after 1970, by the file's time of modification.
    At(i64),
    /// Newer than each file: `-n` takes it for made.
    New,
    /// There is no such file. What needs it is made.
    Missing,
}

impl Stamp {
    /// The stamp of a file.
    pub fn of_file(name: &str) -> Stamp {
        match fs::metadata(name).and_then(|metadata| metadata.modified()) {
            Ok(time) => Stamp::At(nanoseconds(time)),
            Err(_) => Stamp::Missing,
        }
    }
}

/// A time that 64 bits don't have becomes the nearest that they have.
fn nanoseconds(time: SystemTime) -> i64 {
    match time.duration_since(UNIX_EPOCH) {
        Ok(after) => i64::try_from(after.as_nanos()).unwrap_or(i64::MAX),
        Err(before) => i64::try_from(before.duration().as_nanos()).map_or(i64::MIN, |nanoseconds| -nanoseconds),
    }
}
