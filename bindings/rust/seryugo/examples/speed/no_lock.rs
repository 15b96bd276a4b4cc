//! One thread sends a message and receives it, again and again, with neither a lock nor a cut.
//! `cml_bench` does the same on a board as `pairs1` and `pairs1_bytes64`. It prints nanoseconds a
//! call: a message takes two.

use super::Way;
use seryugo::{Error, Who};
use std::collections::VecDeque;
use std::hint::black_box;
use std::sync::Arc;
use std::time::{Duration, Instant};

pub const NUMBERS: [Way; 1] = [("by hand, no lock", numbers)];
pub const BYTES: [Way; 1] = [("by hand, no lock", bytes)];

const LENGTH: usize = 64;

const WHO: Who = Who::Seat(0);

/// The number under which the journal names the mailbox.
const MAILBOX: u64 = 0;

/// A mailbox, with a journal that takes this many entries.
struct Mailbox<M> {
    messages: VecDeque<M>,
    journal: Vec<Entry<M>>,
    limit: usize,
}

/// It says what a board's entry says.
struct Entry<M> {
    who: Who,
    call: Call<M>,
    reply: Reply<M>,
}

enum Call<M> {
    Send(u64, M),
    Recv(u64),
}

enum Reply<M> {
    Done,
    Got(M),
}

impl<M: Clone> Mailbox<M> {
    fn new(limit: usize) -> Mailbox<M> {
        Mailbox {
            messages: VecDeque::new(),
            journal: Vec::new(),
            limit,
        }
    }

    fn send(&mut self, message: M) -> Result<(), Error> {
        self.note(Call::Send(MAILBOX, message.clone()), Reply::Done)?;
        self.messages.push_back(message);
        Ok(())
    }

    /// Returns nothing if the mailbox is empty.
    fn recv(&mut self) -> Result<Option<M>, Error> {
        let Some(message) = self.messages.front() else {
            return Ok(None);
        };
        self.note(Call::Recv(MAILBOX), Reply::Got(message.clone()))?;
        Ok(self.messages.pop_front())
    }

    fn note(&mut self, call: Call<M>, reply: Reply<M>) -> Result<(), Error> {
        if self.journal.len() >= self.limit {
            return Err(Error::JournalFull);
        }
        self.journal.push(Entry {
            who: WHO,
            call,
            reply,
        });
        Ok(())
    }
}

/// Whether one entry sends a message, and the same seat receives it in the next.
fn passes<M: PartialEq>(entries: &[Entry<M>]) -> bool {
    let [sent, received] = entries else {
        return false;
    };
    let got_what_was_sent = match (&sent.call, &sent.reply, &received.call, &received.reply) {
        (Call::Send(MAILBOX, sent), Reply::Done, Call::Recv(MAILBOX), Reply::Got(got)) => {
            sent == got
        }
        _ => false,
    };
    got_what_was_sent && sent.who == received.who
}

/// Sends each number's message, and adds up what is received.
fn pass<M: Clone + PartialEq>(
    messages: u64,
    message: impl Fn(u64) -> M,
    add: impl Fn(u64, M) -> u64,
) -> Duration {
    let mut mailbox = Mailbox::new(1 << 32);
    let mut sum = 0;
    let start = Instant::now();
    for n in 0..messages {
        mailbox.send(message(n)).unwrap();
        sum = add(sum, mailbox.recv().unwrap().unwrap());
    }
    let time = start.elapsed();
    black_box(sum);
    assert_eq!(mailbox.journal.len() as u64, 2 * messages);
    assert!(mailbox.journal.chunks(2).all(passes));
    time
}

fn numbers(messages: u64) -> Duration {
    pass(messages, |n| n, with_number)
}

fn bytes(messages: u64) -> Duration {
    pass(messages, copies(), with_ends)
}

/// Copies each message from one list of bytes, as `cml_bench` does.
pub fn copies() -> impl Fn(u64) -> Arc<[u8]> {
    let supply: Vec<u8> = (0..=u8::MAX).cycle().take(LENGTH + 256).collect();
    move |n| {
        let first = (n % 256) as usize;
        Arc::from(&supply[first..first + LENGTH])
    }
}

/// The sum with another number after it.
pub fn with_number(sum: u64, number: u64) -> u64 {
    sum.wrapping_mul(31).wrapping_add(number)
}

/// The sum with the first and the last byte after it.
pub fn with_ends(sum: u64, bytes: Arc<[u8]>) -> u64 {
    with_number(with_number(sum, bytes[0].into()), bytes[LENGTH - 1].into())
}
