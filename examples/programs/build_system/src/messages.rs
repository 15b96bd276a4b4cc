//! The messages between threads: what an object multicasts, and what a goal reads from its i-variable.

use crate::stamp::Stamp;
use seryugo::Message;

/// What became of an object. Its thread multicasts it to all that need the object.
#[derive(Clone, Copy, Debug, PartialEq, Eq)]
pub enum Outcome {
    /// Its commands failed, or there is no rule for it.
    Failed,
    /// Something that it needs failed, so that its commands were not run.
    NotTried,
    /// It is as new as all that it needs.
    Done {
        stamp: Stamp,
        /// Whether a command was run for it or for something that it needs.
        has_run: bool,
    },
}

/// How the commands of an object ended. A worker puts it into the object's i-variable.
#[derive(Clone, Copy, Debug, PartialEq, Eq)]
pub enum Verdict {
    Done,
    Failed,
}

/// A message for the workers: the place of an object whose commands are to be run, or `None` for the end.
pub type Job = Option<usize>;

// The first byte of an outcome. If the object is done, it has the kind of its stamp, and whether a command was run.
const FAILED: u8 = 0;
const AT: u8 = 1;
const NEW: u8 = 2;
const MISSING: u8 = 3;
const HAS_RUN: u8 = 4;
const NOT_TRIED: u8 = 8;

impl Outcome {
    fn tag(&self) -> u8 {
        match self {
            Outcome::Failed => FAILED,
            Outcome::NotTried => NOT_TRIED,
            Outcome::Done { stamp, has_run } => {
                let kind = match stamp {
                    Stamp::At(_) => AT,
                    Stamp::New => NEW,
                    Stamp::Missing => MISSING,
                };
                kind + if *has_run { HAS_RUN } else { 0 }
            }
        }
    }
}

impl Message for Outcome {
    fn write_to(&self, bytes: &mut Vec<u8>) {
        bytes.push(self.tag());
        if let Outcome::Done {
            stamp: Stamp::At(nanoseconds),
            ..
        } = self
        {
            nanoseconds.write_to(bytes);
        }
    }

    fn from_bytes(bytes: &[u8]) -> Option<Outcome> {
        let (tag, rest) = bytes.split_first()?;
        let stamp = match (tag & !HAS_RUN, rest.is_empty()) {
            (AT, _) => Stamp::At(i64::from_bytes(rest)?),
            (NEW, true) => Stamp::New,
            (MISSING, true) => Stamp::Missing,
            (_, true) if *tag == FAILED => return Some(Outcome::Failed),
            (_, true) if *tag == NOT_TRIED => return Some(Outcome::NotTried),
            _ => return None,
        };
        Some(Outcome::Done {
            stamp,
            has_run: tag & HAS_RUN != 0,
        })
    }
}

impl Message for Verdict {
    fn write_to(&self, bytes: &mut Vec<u8>) {
        (*self == Verdict::Done).write_to(bytes);
    }

    fn from_bytes(bytes: &[u8]) -> Option<Verdict> {
        bool::from_bytes(bytes).map(|is_done| if is_done { Verdict::Done } else { Verdict::Failed })
    }
}

#[cfg(test)]
mod tests {
    use super::*;

    #[test]
    fn each_outcome_is_read_back() {
        let stamps = [
            Stamp::At(0),
            Stamp::At(-5),
            Stamp::At(i64::MAX),
            Stamp::New,
            Stamp::Missing,
        ];
        let done = stamps.into_iter().flat_map(|stamp| [true, false].map(|has_run| Outcome::Done { stamp, has_run }));
        for outcome in done.chain([Outcome::Failed, Outcome::NotTried]) {
            assert_eq!(outcome.with_bytes(Outcome::from_bytes), Some(outcome));
        }
    }

    #[test]
    fn other_bytes_are_no_outcome() {
        for bytes in [
            &[][..],
            &[0, 0],
            &[1],
            &[1, 2, 3],
            &[2, 0],
            &[4],
            &[8, 0],
            &[9],
            &[11],
            &[12],
            &[255],
        ] {
            assert_eq!(Outcome::from_bytes(bytes), None, "{bytes:?}");
        }
    }

    #[test]
    fn each_verdict_is_read_back() {
        for verdict in [Verdict::Done, Verdict::Failed] {
            assert_eq!(verdict.with_bytes(Verdict::from_bytes), Some(verdict));
        }
    }
}
