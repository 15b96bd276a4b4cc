//! One thread multicasts a message, and receives it by each of eight ports, again and again, with
//! neither a lock nor a cut. `cml_bench` does the same on a board as `cast8` and `cast8_bytes64`.
//! It prints nanoseconds a call: a message takes nine.

use super::no_lock::{copies, with_ends, with_number};
use super::Way;
use seryugo::{Call, Error, Reply, Who};
use std::collections::VecDeque;
use std::hint::black_box;
use std::time::{Duration, Instant};

pub const NUMBERS: [Way; 1] = [("by hand, no lock", numbers)];
pub const BYTES: [Way; 1] = [("by hand, no lock", bytes)];

const PORTS: usize = 8;

const WHO: Who = Who::Seat(0);

/// The number under which the journal names the channel. Its ports have the next ones.
const CHANNEL: u64 = 0;

/// One list of messages, from the first that a port still has to receive, and the place of each
/// port after that.
struct Channel<M> {
    messages: VecDeque<M>,
    places: [usize; PORTS],
    journal: Vec<Entry<M>>,
    limit: usize,
}

/// No test reads all of it: it is there to cost what a journal costs.
#[allow(dead_code)]
struct Entry<M> {
    who: Who,
    call: Call<M>,
    reply: Reply<M>,
}

impl<M: Clone> Channel<M> {
    fn new(limit: usize) -> Channel<M> {
        Channel {
            messages: VecDeque::new(),
            places: [0; PORTS],
            journal: Vec::new(),
            limit,
        }
    }

    fn multicast(&mut self, message: M) -> Result<(), Error> {
        self.note(Call::Multicast(CHANNEL, message.clone()), Reply::Done)?;
        self.messages.push_back(message);
        Ok(())
    }

    /// Returns nothing if the port has received all.
    fn recv(&mut self, port: usize) -> Result<Option<M>, Error> {
        let Some(message) = self.messages.get(self.places[port]).cloned() else {
            return Ok(None);
        };
        self.note(Call::Recv(CHANNEL + 1 + port as u64), Reply::Got(message.clone()))?;
        self.places[port] += 1;
        while self.places.iter().all(|&place| place > 0) {
            self.messages.pop_front();
            self.places.iter_mut().for_each(|place| *place -= 1);
        }
        Ok(Some(message))
    }

    fn note(&mut self, call: Call<M>, reply: Reply<M>) -> Result<(), Error> {
        if self.journal.len() >= self.limit {
            return Err(Error::JournalFull);
        }
        self.journal.push(Entry {
            who: WHO,
            call,
            reply,
        });
        Ok(())
    }
}

/// Multicasts each number's message, and adds up what is received.
fn pass<M: Clone>(
    messages: u64,
    message: impl Fn(u64) -> M,
    add: impl Fn(u64, M) -> u64,
) -> Duration {
    let mut channel = Channel::new(1 << 32);
    let mut sum = 0;
    let start = Instant::now();
    for n in 0..messages {
        channel.multicast(message(n)).unwrap();
        for port in 0..PORTS {
            sum = add(sum, channel.recv(port).unwrap().unwrap());
        }
    }
    let time = start.elapsed();
    black_box(sum);
    assert!(channel.messages.is_empty());
    assert_eq!(channel.journal.len() as u64, (1 + PORTS as u64) * messages);
    time
}

fn numbers(messages: u64) -> Duration {
    pass(messages, |n| n, with_number)
}

fn bytes(messages: u64) -> Duration {
    pass(messages, copies(), with_ends)
}
