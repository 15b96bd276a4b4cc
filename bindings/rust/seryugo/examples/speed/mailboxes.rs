//! What one writes by hand with care where several mailboxes have threads that wait: a lock round
//! deques and a journal of every call, and a condition variable for each mailbox.

use seryugo::{Call, Entry, Error, Numbers, Reply, Who};
use std::collections::VecDeque;
use std::sync::{Condvar, Mutex, MutexGuard, PoisonError};

/// Mailboxes by number, with a journal that takes this many entries. Its entries say what those of a
/// switchboard say.
pub struct Mailboxes {
    inside: Mutex<Inside>,
    changed: Vec<Condvar>,
    limit: usize,
}

struct Inside {
    mailboxes: Vec<Mailbox>,
    journal: Vec<Entry<Numbers>>,
}

#[derive(Default)]
struct Mailbox {
    messages: VecDeque<u64>,
    sleeping: usize,
}

impl Mailboxes {
    pub fn new(count: usize, limit: usize) -> Mailboxes {
        let inside = Inside {
            mailboxes: (0..count).map(|_| Mailbox::default()).collect(),
            journal: Vec::new(),
        };
        Mailboxes {
            inside: Mutex::new(inside),
            changed: (0..count).map(|_| Condvar::new()).collect(),
            limit,
        }
    }

    /// Wakes one of those that sleep at the mailbox, where any does.
    pub fn send(&self, sender: u64, at: usize, message: u64) -> Result<(), Error> {
        let mut inside = self.lock();
        self.note(&mut inside, sender, Call::Send(at as u64, message), Reply::Done)?;
        let mailbox = &mut inside.mailboxes[at];
        mailbox.messages.push_back(message);
        let wakes = mailbox.sleeping > 0;
        drop(inside);
        if wakes {
            self.changed[at].notify_one();
        }
        Ok(())
    }

    pub fn recv(&self, receiver: u64, at: usize) -> Result<u64, Error> {
        let mut inside = self.lock();
        while inside.mailboxes[at].messages.is_empty() {
            inside.mailboxes[at].sleeping += 1;
            inside = self.changed[at].wait(inside).unwrap_or_else(PoisonError::into_inner);
            inside.mailboxes[at].sleeping -= 1;
        }
        let message = inside.mailboxes[at].messages[0];
        self.note(&mut inside, receiver, Call::Recv(at as u64), Reply::Got(message))?;
        inside.mailboxes[at].messages.pop_front();
        Ok(message)
    }

    fn note(
        &self,
        inside: &mut Inside,
        seat: u64,
        call: Call<u64>,
        reply: Reply<u64>,
    ) -> Result<(), Error> {
        if inside.journal.len() >= self.limit {
            return Err(Error::JournalFull);
        }
        let who = Who::Seat(seat);
        inside.journal.push(Entry { who, call, reply });
        Ok(())
    }

    fn lock(&self) -> MutexGuard<'_, Inside> {
        self.inside.lock().unwrap_or_else(PoisonError::into_inner)
    }
}
