//! The valid prefix of a torn journal.

use crate::journal::sum::Sum;

/// The valid prefix of a torn journal's text, as
/// [`Switchboard::restore_torn`](crate::Switchboard::restore_torn) returns it: its whole lines, but
/// no piece's first line alone.
///
/// ```
/// use seryugo::{Numbers, RestoreError, Switchboard};
///
/// # fn main() -> Result<(), RestoreError> {
/// let torn = &b"journal 1\nseat 0 mailbox: made 0\nseat 0 se"[..];
/// let (_, kept) = Switchboard::<Numbers>::restore_torn(torn, 1_000)?;
/// assert_eq!((kept.entries, kept.bytes, kept.ending.as_str()), (1, 33, "end 1\n"));
/// # Ok(())
/// # }
/// ```
#[derive(Clone, Debug, PartialEq, Eq)]
pub struct ValidPrefix {
    /// How many entries it has.
    pub entries: u64,
    /// How many bytes it has. Cut the text there.
    pub bytes: u64,
    /// The line that ends its last piece. Write it after these bytes, and the text is a whole
    /// journal. It is empty if the last piece has its end.
    pub ending: String,
    /// The sum of the last piece with this ending: pass it to
    /// [`Journal::write_sealed_to`](crate::Journal::write_sealed_to) for the next one. If it is
    /// `None`, and some bytes are kept, the text has no sums: go on by
    /// [`write_to`](crate::Journal::write_to). If no bytes are kept, choose.
    pub sum: Option<Sum>,
    /// Whether bytes other than 0 come after the byte 0 that ends the text. No torn write leaves
    /// them: the text was changed, and to cut it would lose them.
    pub has_more: bool,
}

/// The name that [`ValidPrefix`] had before.
#[deprecated(note = "it is called `ValidPrefix`")]
pub type Kept = ValidPrefix;

/// The most bytes of a line that are looked at: a piece's first line has no more.
const LOOKED_AT: usize = 80;

/// How the text's last lines begin.
#[derive(Default)]
pub(crate) struct Lines {
    /// How the last whole line begins.
    last: Vec<u8>,
    /// How the line begins that has no end yet.
    open: Vec<u8>,
    /// Whether a byte 0 has come, which ends the text.
    is_over: bool,
    /// Whether another byte came after it.
    has_more: bool,
}

impl Lines {
    pub fn note(&mut self, part: &[u8]) {
        let ends = |byte: &u8| *byte == 0;
        let text = match self.is_over {
            true => &[],
            false => part.split(ends).next().unwrap_or_default(),
        };
        self.is_over |= text.len() < part.len();
        self.has_more |= !part[text.len()..].iter().all(ends);
        let Some(end) = last_line_end(text) else {
            self.begin(text);
            return;
        };
        let lines = &text[..end];
        match last_line_end(lines) {
            Some(before) => {
                self.open.clear();
                self.begin(&lines[before + 1..]);
            }
            None => self.begin(lines),
        }
        self.last = std::mem::take(&mut self.open);
        self.begin(&text[end + 1..]);
    }

    /// Takes the part in which the reading stopped.
    pub fn stop(&mut self, part: &[u8]) {
        self.begin(part);
    }

    /// The text's first line, if no line was whole before the reading stopped. `None` if it is
    /// longer than a piece's first line.
    pub fn first(&self) -> Option<&[u8]> {
        self.open.split_inclusive(|byte| *byte == b'\n').next()?.strip_suffix(b"\n")
    }

    /// Bytes of a line that doesn't end among them.
    fn begin(&mut self, part: &[u8]) {
        let looked_at = part.len().min(LOOKED_AT - self.open.len());
        self.open.extend_from_slice(&part[..looked_at]);
    }

    /// Returns the valid prefix, by how the last line begins: with `journal`, `end`, or another
    /// word. The sum is that of the whole lines.
    pub fn valid_prefix(&self, entries: u64, bytes: u64, sum: Option<Sum>) -> ValidPrefix {
        let (ending, sum) = match (self.last.first(), sum) {
            (None | Some(b'e'), sum) => (String::new(), sum),
            (Some(b'j'), _) => (String::new(), named(&self.last)),
            (Some(_), None) => (format!("end {entries}\n"), None),
            (Some(_), Some(sum)) => (format!("end {entries} {sum}\n"), Some(sum)),
        };
        ValidPrefix {
            entries,
            bytes,
            ending,
            sum,
            has_more: self.has_more,
        }
    }
}

fn last_line_end(text: &[u8]) -> Option<usize> {
    text.iter().rposition(|byte| *byte == b'\n')
}

/// The sum that a piece's first line names.
fn named(line: &[u8]) -> Option<Sum> {
    std::str::from_utf8(line).ok()?.split(' ').nth(2)?.parse().ok()
}
