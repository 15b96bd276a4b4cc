//! What one writes by hand in place of a switchboard: a lock round a deque and a journal of every
//! call.

use seryugo::{Call, Error, Reply, Who};
use std::collections::VecDeque;
use std::sync::{Condvar, Mutex, MutexGuard, PoisonError};

/// One queue, with a journal that takes this many entries. Its entries say what those of a
/// switchboard say.
pub struct Queue<M> {
    inside: Mutex<Inside<M>>,
    changed: Condvar,
    limit: usize,
    waking: Waking,
}

/// When a send wakes the one that receives, which takes a call of the system.
#[derive(Clone, Copy, PartialEq)]
pub enum Waking {
    Always,
    /// Only where a thread sleeps, as a switchboard does.
    WhereSleeping,
}

struct Inside<M> {
    messages: VecDeque<M>,
    journal: Vec<Entry<M>>,
    sleeping: usize,
}

/// No test reads it: it is there to cost what a journal costs.
#[allow(dead_code)]
struct Entry<M> {
    who: Who,
    call: Call<M>,
    reply: Reply<M>,
}

/// The number under which the journal tells of the queue.
const QUEUE: u64 = 0;

impl<M: Clone> Queue<M> {
    pub fn new(limit: usize, waking: Waking) -> Queue<M> {
        let inside = Inside {
            messages: VecDeque::new(),
            journal: Vec::new(),
            sleeping: 0,
        };
        Queue {
            inside: Mutex::new(inside),
            changed: Condvar::new(),
            limit,
            waking,
        }
    }

    /// Cuts the journal: what it has is dropped.
    pub fn cut(&self) {
        self.lock().journal.clear();
    }

    pub fn send(&self, sender: u64, message: M) -> Result<(), Error> {
        let mut inside = self.lock();
        self.note(&mut inside, sender, Call::Send(QUEUE, message.clone()), Reply::Done)?;
        inside.messages.push_back(message);
        let wakes = self.waking == Waking::Always || inside.sleeping > 0;
        drop(inside);
        if wakes {
            self.changed.notify_all();
        }
        Ok(())
    }

    pub fn recv(&self, receiver: u64) -> Result<M, Error> {
        let mut inside = self.lock();
        while inside.messages.is_empty() {
            inside.sleeping += 1;
            inside = self.changed.wait(inside).unwrap_or_else(PoisonError::into_inner);
            inside.sleeping -= 1;
        }
        let message = inside.messages[0].clone();
        self.note(&mut inside, receiver, Call::Recv(QUEUE), Reply::Got(message.clone()))?;
        inside.messages.pop_front();
        Ok(message)
    }

    fn note(
        &self,
        inside: &mut Inside<M>,
        seat: u64,
        call: Call<M>,
        reply: Reply<M>,
    ) -> Result<(), Error> {
        if inside.journal.len() >= self.limit {
            return Err(Error::JournalFull);
        }
        let who = Who::Seat(seat);
        inside.journal.push(Entry { who, call, reply });
        Ok(())
    }

    fn lock(&self) -> MutexGuard<'_, Inside<M>> {
        self.inside.lock().unwrap_or_else(PoisonError::into_inner)
    }
}
