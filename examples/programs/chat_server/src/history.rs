//! The last messages of a room.

use crate::messages::Said;
use std::collections::VecDeque;
use std::sync::{Arc, Mutex, MutexGuard, PoisonError};

/// A room's last messages, oldest first, which the disk has. Its queue has the same, so that a later server finds them there.
#[derive(Debug, Default)]
pub struct History(Mutex<VecDeque<Arc<Said>>>);

impl History {
    /// The history with these messages. Returns `None` if one is missing among them.
    pub fn of(messages: VecDeque<Arc<Said>>) -> Option<History> {
        let numbers = messages.front().map_or(0, |said| said.number)..;
        let is_whole = messages.iter().zip(numbers).all(|(said, number)| said.number == number);
        is_whole.then(|| History(Mutex::new(messages)))
    }

    /// Adds the message after the last one.
    pub fn add(&self, said: Arc<Said>) {
        self.lock().push_back(said);
    }

    /// Forgets the oldest message.
    pub fn forget(&self) {
        self.lock().pop_front();
    }

    /// The number of the oldest message that is kept.
    pub fn first(&self) -> Option<u64> {
        self.lock().front().map(|said| said.number)
    }

    /// The number of the last message, or 0.
    pub fn last(&self) -> u64 {
        self.lock().back().map_or(0, |said| said.number)
    }

    /// The messages that are kept of those from this number to that one, both included.
    pub fn between(&self, from: u64, to: u64) -> Vec<Arc<Said>> {
        let messages = self.lock();
        let skipped = messages.partition_point(|said| said.number < from);
        messages.range(skipped..).take_while(|said| said.number <= to).cloned().collect()
    }

    fn lock(&self) -> MutexGuard<'_, VecDeque<Arc<Said>>> {
        self.0.lock().unwrap_or_else(PoisonError::into_inner)
    }
}

#[cfg(test)]
mod tests {
    use super::*;
    use crate::protocol::Name;

    fn said(number: u64) -> Arc<Said> {
        let (name, text) = (Name::new("ann").unwrap(), format!("line {number}"));
        Arc::new(Said { number, name, text })
    }

    fn numbers(history: &History, from: u64, to: u64) -> Vec<u64> {
        history.between(from, to).iter().map(|said| said.number).collect()
    }

    #[test]
    fn each_message_that_is_kept_is_found_by_its_number() {
        let history = History::of((401..=500).map(said).collect()).unwrap();
        history.add(said(501));
        history.forget();
        assert_eq!((history.first(), history.last()), (Some(402), 501));
        assert_eq!(numbers(&history, 1, u64::MAX), (402..=501).collect::<Vec<_>>());
        assert_eq!(numbers(&history, 1, 403), [402, 403]);
        assert_eq!(numbers(&history, 450, 450), [450]);
        assert_eq!(numbers(&history, 501, u64::MAX), [501]);
        for (from, to) in [(0, 401), (502, u64::MAX), (450, 449)] {
            assert_eq!(numbers(&history, from, to), []);
        }
    }

    #[test]
    fn no_message_is_missing() {
        let empty = History::of(VecDeque::new()).unwrap();
        assert_eq!((empty.first(), empty.last()), (None, 0));
        assert!(History::of([7, 8, 10].map(said).into()).is_none());
        assert!(History::of([7, 7].map(said).into()).is_none());
    }
}
