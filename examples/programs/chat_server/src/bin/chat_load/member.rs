//! One client of many: it says its messages, checks what it gets, and comes back if its connection is lost.

use crate::client::Client;
use crate::everyone::Shared;
use crate::{read, Wrong};
use std::sync::atomic::Ordering;
use std::thread;
use std::time::Duration;

/// How many messages a client says before it has them back.
const WINDOW: u64 = 32;

/// How often a client comes back at the most.
const MOST_LOST: u64 = 1_000;

/// A message: who said it, and which of its messages it is.
pub type Said = (u64, u64);

#[derive(Default)]
pub struct Tally {
    pub lost: u64,
    pub doubled: u64,
    pub filled: u64,
    pub said_again: u64,
}

impl Tally {
    pub fn plus(self, other: &Tally) -> Tally {
        Tally {
            lost: self.lost + other.lost,
            doubled: self.doubled + other.doubled,
            filled: self.filled + other.filled,
            said_again: self.said_again + other.said_again,
        }
    }
}

pub struct Member {
    number: u64,
    pub room: u64,
    /// The number of the first message that it is to get, once it has joined.
    pub first: Option<u64>,
    /// The messages that it got, from the first on.
    pub got: Vec<Said>,
    pub tally: Tally,
    /// How many it got of those that it said.
    returned: u64,
    /// How many it said, some of them maybe in vain.
    said: u64,
}

/// Why a session ended before the run.
enum Trouble {
    /// The connection is lost.
    Lost,
    Wrong(Wrong),
}

impl From<Wrong> for Trouble {
    fn from(wrong: Wrong) -> Trouble {
        Trouble::Wrong(wrong)
    }
}

impl Member {
    pub fn new(number: u64, room: u64) -> Member {
        Member {
            number,
            room,
            first: None,
            got: Vec::new(),
            tally: Tally::default(),
            returned: 0,
            said: 0,
        }
    }

    /// Joins, waits until all have, and runs to the end.
    pub fn run(mut self, shared: &Shared) -> Result<Member, Wrong> {
        let joined = self.repeat(shared, |member| member.session(shared, |_, _| Ok(())));
        shared.joined.wait();
        joined?;
        self.repeat(shared, |member| member.session(shared, |member, client| member.talk(shared, client)))?;
        Ok(self)
    }

    /// Comes back until a session ends well, or until another client has found something wrong.
    fn repeat(&mut self, shared: &Shared, session: impl Fn(&mut Member) -> Result<(), Trouble>) -> Result<(), Wrong> {
        for _ in 0..MOST_LOST {
            match session(self) {
                Ok(()) => return Ok(()),
                Err(Trouble::Wrong(wrong)) => {
                    shared.is_wrong.store(true, Ordering::Relaxed);
                    println!("client {}: {wrong}", self.number);
                    return Err(format!("client {}: {wrong}", self.number));
                }
                Err(Trouble::Lost) if shared.is_wrong.load(Ordering::Relaxed) => break,
                Err(Trouble::Lost) => self.tally.lost += 1,
            }
            thread::sleep(Duration::from_millis(20));
        }
        Err(format!("client {} lost its connection too often, or for a client before it", self.number))
    }

    fn session(
        &mut self,
        shared: &Shared,
        rest: impl FnOnce(&mut Member, &mut Client) -> Result<(), Trouble>,
    ) -> Result<(), Trouble> {
        let mut client = Client::connect(shared.address)?;
        self.come_in(&mut client)?;
        rest(self, &mut client)?;
        send(&mut client, "/quit\n")?;
        while next(&mut client)? != "bye" {}
        Ok(())
    }

    /// The number of the last message that it got.
    fn last(&self) -> u64 {
        self.first.map_or(0, |first| first - 1 + self.got.len() as u64)
    }

    /// Half of the clients say what they have seen. The others find out by the numbers.
    fn says_what_it_saw(&self) -> bool {
        self.number.is_multiple_of(2)
    }

    /// Says its name. The first time it joins; later it goes on after the last message that it got.
    fn come_in(&mut self, client: &mut Client) -> Result<(), Trouble> {
        let name = format!("c{}", self.number);
        match self.says_what_it_saw() && self.first.is_some() {
            true => send(client, &format!("/name {name} {}\n", self.last()))?,
            false => send(client, &format!("/name {name}\n"))?,
        }
        let greeting = next(client)?;
        let place = greeting.strip_prefix(&format!("hello {name} room r{} next ", self.room)).map(str::to_owned);
        match (place, self.first) {
            (Some(place), Some(_)) => {
                let (next, last) = place.split_once(" last ").ok_or("a greeting without its numbers".to_owned())?;
                self.catch_up(client, read(next)?, read(last)?)
            }
            // It had joined, and the server was killed before it said so.
            (Some(place), None) => {
                let (next, _) = place.split_once(" last ").ok_or("a greeting without its numbers".to_owned())?;
                self.first = Some(read(next)?);
                Ok(())
            }
            (None, None) => self.join(client),
            (None, Some(_)) => Err(format!("it lost its place: {greeting}").into()),
        }
    }

    fn join(&mut self, client: &mut Client) -> Result<(), Trouble> {
        send(client, &format!("/join r{}\n", self.room))?;
        let joined = next(client)?;
        let first =
            joined.strip_prefix(&format!("joined r{} next ", self.room)).ok_or(format!("{joined} in place of joined"))?;
        self.first = Some(read(first)?);
        Ok(())
    }

    /// Gets all messages up to `last`, of which the server sends those from `next` on. What it said and doesn't find among them was
    /// lost with the server: it says that again.
    fn catch_up(&mut self, client: &mut Client, next_number: u64, last: u64) -> Result<(), Trouble> {
        if self.says_what_it_saw() && next_number != self.last() + 1 {
            return Err(format!("the server goes on at {next_number} after {}", self.last()).into());
        }
        if next_number > self.last() + 1 {
            self.fill(client, next_number - 1)?;
        }
        while self.last() < last {
            self.get(client)?;
        }
        self.tally.said_again += self.said - self.returned;
        self.said = self.returned;
        Ok(())
    }

    /// Reads from the history what it didn't get. Messages that come meanwhile are after that.
    fn fill(&mut self, client: &mut Client, to: u64) -> Result<(), Trouble> {
        send(client, &format!("/history {} {to}\n", self.last() + 1))?;
        let mut later = Vec::new();
        loop {
            let line = next(client)?;
            if let Some(message) = line.strip_prefix("history ") {
                self.take(message)?;
                self.tally.filled += 1;
            } else if line.starts_with("end of history") {
                break;
            } else {
                later.push(line);
            }
        }
        later.iter().try_for_each(|line| self.take(line))
    }

    /// Says its messages, and gets all of the room's.
    fn talk(&mut self, shared: &Shared, client: &mut Client) -> Result<(), Trouble> {
        while self.last() < shared.in_room {
            let more = (shared.messages - self.said).min(WINDOW - (self.said - self.returned));
            if more >= WINDOW / 2 || (more > 0 && self.said + more == shared.messages) {
                let lines: String = (self.said..self.said + more).map(|number| text(self.number, number) + "\n").collect();
                self.said += more;
                send(client, &lines)?;
            }
            let before = self.got.len();
            self.get(client)?;
            shared.received.fetch_add((self.got.len() - before) as u64, Ordering::Relaxed);
        }
        Ok(())
    }

    /// Gets the next line, which is a message.
    fn get(&mut self, client: &mut Client) -> Result<(), Trouble> {
        let line = next(client)?;
        self.take(&line)
    }

    /// Takes a message. It has the number after the last one, or is one that the client got before.
    fn take(&mut self, line: &str) -> Result<(), Trouble> {
        let (number, said, text_of) = parse(line).ok_or(format!("{line:?} is no message"))?;
        if number <= self.last() && !self.says_what_it_saw() {
            self.tally.doubled += 1;
            return Ok(());
        }
        if number != self.last() + 1 {
            return Err(format!("message {number} comes after {}", self.last()).into());
        }
        if text_of != text(said.0, said.1) {
            return Err(format!("message {number} is another one: {line}").into());
        }
        self.got.push(said);
        if said.0 == self.number {
            self.returned += 1;
        }
        Ok(())
    }
}

/// What a client says.
fn text(client: u64, number: u64) -> String {
    format!("{number} from client {client}, {}", "and so on ".repeat(((client + number) % 5) as usize))
}

/// A line's number, its message, and the message's text.
fn parse(line: &str) -> Option<(u64, Said, &str)> {
    let (head, text) = line.split_once(": ")?;
    let (number, name) = head.split_once(' ')?;
    let client = name.strip_prefix('c')?.parse().ok()?;
    Some((number.parse().ok()?, (client, text.split_once(' ')?.0.parse().ok()?), text))
}

fn send(client: &mut Client, lines: &str) -> Result<(), Trouble> {
    client.send(lines.as_bytes()).map_err(|_| Trouble::Lost)
}

fn next(client: &mut Client) -> Result<String, Trouble> {
    match client.line() {
        Ok(Some(line)) if line == "bye the server ends" => Err(Trouble::Lost),
        Ok(Some(line)) => Ok(line),
        Ok(None) | Err(_) => Err(Trouble::Lost),
    }
}
