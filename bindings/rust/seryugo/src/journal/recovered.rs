//! What was found in a journal's file.

use crate::raw::FileFound;
use std::ffi::OsStr;
use std::os::unix::ffi::OsStrExt;
use std::path::{Path, PathBuf};

/// What was found as a journal's file was opened, before it was exchanged for a short one.
///
/// ```
/// # fn main() -> Result<(), seryugo::Error> {
/// # let path = std::env::temp_dir().join(format!("seryugo-doc-{}.found", std::process::id()));
/// let board = seryugo::Switchboard::open(&path)?;
/// assert!(board.recovered().unwrap().is_new);
/// board.seat()?.mailbox_again::<String>(0)?;
/// board.close()?;
///
/// let board = seryugo::Switchboard::open(&path)?;
/// let recovered = board.recovered().unwrap();
/// assert_eq!((recovered.entries, recovered.lines, recovered.cut_off), (1, 2, 0));
/// # drop(board);
/// # std::fs::remove_file(&path).unwrap();
/// # Ok(())
/// # }
/// ```
#[derive(Clone, Debug, PartialEq, Eq)]
#[non_exhaustive]
pub struct Recovered {
    /// How many entries the journal has.
    pub entries: u64,
    /// How many lines they have, with the first ones of pieces and the like.
    pub lines: u64,
    /// How many bytes of the file are kept.
    pub kept: u64,
    /// How many bytes after these were cut off, apart from zeros at the end. It is the beginning of a
    /// line that a kill cut short, or what the system had written ahead before the power was lost.
    pub cut_off: u64,
    /// The file that has what was cut off, if that is more than a line.
    pub saved: Option<PathBuf>,
    /// There was no file.
    pub is_new: bool,
    /// The file was exchanged for a short one.
    pub is_shortened: bool,
    /// Why it wasn't, if it should have been. The journal goes on in the old file.
    pub not_shortened: Option<String>,
}

impl Recovered {
    pub(crate) fn of(found: &FileFound, path: &Path) -> Recovered {
        let saved = Some(found.saved()).filter(|name| !name.is_empty());
        let not_shortened = Some(found.words()).filter(|words| !words.is_empty());
        Recovered {
            entries: found.entries,
            lines: found.lines,
            kept: found.kept,
            cut_off: found.cut_off,
            saved: saved.map(|name| path.with_file_name(OsStr::from_bytes(name))),
            is_new: found.is_new,
            is_shortened: found.is_shortened,
            not_shortened,
        }
    }
}
