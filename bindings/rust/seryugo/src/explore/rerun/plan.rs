//! What a rerun follows: the entries of a journal, and whose each of them is.

use super::line::entry_of;
use super::RerunError;
use crate::explore::history::Sum;
use crate::explore::step::Step;
use crate::journal::checker::{self, CheckError, Checker};
use crate::journal::entry::{Entry, Who};
use crate::message::carries::MessageKind;
use std::collections::HashMap;
use std::hash::BuildHasherDefault;

/// The position of no entry.
pub(crate) const NEVER: usize = usize::MAX;

/// An entry to come.
pub(crate) struct Planned<R: MessageKind> {
    pub entry: Entry<R>,
    pub step: Step,
    /// The number of the seat, lane or feed that makes it, among those that have entries.
    pub maker: usize,
    /// The position of the next entry of the same one, or `NEVER`.
    pub next: usize,
}

/// Numbers of seats, lanes or feeds, by their numbers on the switchboard.
type Makers = HashMap<u64, usize, BuildHasherDefault<Sum>>;

/// The entries of a journal, by position.
pub(crate) struct Plan<R: MessageKind> {
    pub entries: Vec<Planned<R>>,
    /// The position of each maker's first entry.
    pub firsts: Vec<usize>,
    seats: Makers,
    lanes: Makers,
    feeds: Makers,
}

impl<R: MessageKind> Plan<R> {
    /// The entries of a journal that begins at position 0.
    pub fn new(entries: impl IntoIterator<Item = Entry<R>>) -> Plan<R> {
        let mut plan = Plan {
            entries: Vec::new(),
            firsts: Vec::new(),
            seats: Makers::default(),
            lanes: Makers::default(),
            feeds: Makers::default(),
        };
        // The position of each maker's last entry so far.
        let mut lasts: Vec<usize> = Vec::new();
        for (position, entry) in entries.into_iter().enumerate() {
            let maker = plan.maker_at(entry.who, position);
            if let Some(last) = lasts.get_mut(maker) {
                plan.entries[*last].next = position;
                *last = position;
            } else {
                lasts.push(position);
            }
            plan.entries.push(Planned {
                step: Step::of(&entry.call),
                entry,
                maker,
                next: NEVER,
            });
        }
        plan
    }

    /// The number of who makes an entry at this position: the next one, if it is the first entry.
    fn maker_at(&mut self, who: Who, position: usize) -> usize {
        let next = self.firsts.len();
        let (makers, number) = match who {
            Who::Seat(number) => (&mut self.seats, number),
            Who::Lane(number) => (&mut self.lanes, number),
            Who::Feed(number) => (&mut self.feeds, number),
        };
        let maker = *makers.entry(number).or_insert(next);
        if maker == next {
            self.firsts.push(position);
        }
        maker
    }

    /// The number of this seat, lane or feed, if it has an entry.
    #[inline]
    pub fn maker(&self, who: Who) -> Option<usize> {
        let (makers, number) = match who {
            Who::Seat(number) => (&self.seats, number),
            Who::Lane(number) => (&self.lanes, number),
            Who::Feed(number) => (&self.feeds, number),
        };
        makers.get(&number).copied()
    }

    pub fn has_lanes(&self) -> bool {
        !self.lanes.is_empty()
    }

    /// Reads a text. The crate's reader checks it first. Of a torn text it takes the whole lines.
    pub fn read(text: &[u8]) -> Result<Plan<R>, RerunError> {
        refuse_others::<R>(text)?;
        let mut checker = Checker::<R>::open()?;
        checker.read(text)?;
        let lines = text.split(|byte| *byte == b'\n');
        let lines = lines.filter_map(|line| std::str::from_utf8(line).ok());
        let lines = lines.filter(|line| is_entry(line)).take(checker.entries() as usize);
        let entry = |line| entry_of(line).ok_or_else(|| RerunError::Unknown(line.to_string()));
        Ok(Plan::new(lines.map(entry).collect::<Result<Vec<_>, _>>()?))
    }
}

fn is_entry(line: &str) -> bool {
    ["seat ", "lane ", "feed "].iter().any(|who| line.starts_with(who))
}

/// Refuses a text of another type of messages, and one that begins after a cut.
fn refuse_others<R: MessageKind>(text: &[u8]) -> Result<(), RerunError> {
    let mut lines = text.split(|byte| *byte == b'\n');
    let refused = checker::refused::<R>(lines.next().unwrap_or_default());
    if let Some(CheckError::OtherMessages) = refused {
        return Err(RerunError::OtherMessages);
    }
    let from = String::from_utf8_lossy(lines.next().unwrap_or_default());
    match from.strip_prefix("from ").and_then(|position| position.parse().ok()) {
        Some(position) => Err(RerunError::AfterCut(position)),
        None => Ok(()),
    }
}

impl From<CheckError> for RerunError {
    fn from(error: CheckError) -> RerunError {
        RerunError::Check(error)
    }
}
