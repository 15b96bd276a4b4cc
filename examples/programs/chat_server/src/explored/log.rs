//! What happens in a run.

use super::client::Script;
use crate::messages::Said;
use seryugo::explore::{Condition, Lock};
use seryugo::{Call, Entry, Journal, Message};
use std::sync::{Mutex, MutexGuard};

#[derive(Clone, Debug, PartialEq)]
pub enum Event {
    /// A client says a line,
    Says(usize, String),
    /// and that is done.
    Did(usize, String),
    /// It gets a line.
    Gets(usize, String),
    /// This text of the journal is kept, with these messages, as clients get them.
    Keeps(String, Vec<String>),
}

/// The events, in their order.
pub struct Log {
    /// They are used between two steps.
    events: Mutex<Vec<Event>>,
    /// What clients wait by, if some do.
    awaits: Option<(Lock<()>, Condition)>,
}

impl Log {
    pub fn of(script: &Script) -> Log {
        let waits = script.iter().flat_map(|lines| lines.iter()).any(|line| line.starts_with('#'));
        Log {
            events: Mutex::default(),
            awaits: waits.then(Default::default),
        }
    }

    pub fn events(&self) -> MutexGuard<'_, Vec<Event>> {
        self.events.lock().unwrap()
    }

    /// Adds an event. Who waits for it looks again.
    pub fn add(&self, event: Event) {
        self.events().push(event);
        if let Some((lock, grows)) = &self.awaits {
            drop(lock.lock());
            grows.notify_all();
        }
    }

    /// Blocks until there were this many such events.
    pub fn await_events(&self, count: usize, is_one: impl Fn(&Event) -> bool) {
        let is_short = |(): &mut ()| self.events().iter().filter(|event| is_one(event)).count() < count;
        if let Some((lock, grows)) = &self.awaits {
            drop(grows.wait_while(lock.lock(), is_short));
        }
    }
}

impl Event {
    /// This part of the journal is kept.
    pub fn keeps(journal: &Journal) -> Event {
        let mut text = Vec::new();
        journal.write_to(&mut text).unwrap();
        let sent = |entry: Entry| match entry.call {
            Call::Send(_, bytes) => Said::from_bytes(&bytes),
            _ => None,
        };
        let said = journal.iter().filter_map(sent).map(|said| format!("{} {said}", said.number));
        Event::Keeps(String::from_utf8(text).unwrap(), said.collect())
    }

    /// The line that this client gets by it.
    pub fn got_by(&self, client: usize) -> Option<&str> {
        match self {
            Event::Gets(who, line) if *who == client => Some(line),
            _ => None,
        }
    }
}
