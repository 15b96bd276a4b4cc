//! Lines that no client would say, of which none may harm the server.

use crate::client::Client;
use crate::{Case, Wrong};
use std::net::SocketAddr;
use std::thread;

pub const CASES: &[Case] = &[("random lines are answered or refused", noise)];

/// How many lines are said, and what they are made of.
const LINES: u64 = 3_000;
const PARTS: &[&[u8]] = &[
    b"/",
    b"name",
    b"join",
    b"leave",
    b"who",
    b"history",
    b"help",
    b" ",
    b" ",
    b"noise",
    b"1",
    b"0",
    b"18446744073709551615",
    b"\xff",
    b"\0",
    b"\r",
    b"\t",
    b"%",
    b"=",
    b": ",
    b"\xc3\xbc",
    b"x",
];

/// How a line of the server may begin.
const BEGINNINGS: &[&str] = &[
    "hello ",
    "joined ",
    "left ",
    "member ",
    "end of ",
    "history ",
    "help ",
    "error ",
    "half-closed: ",
    "bye",
];

/// Numbers that are the same in each run.
struct Random(u64);

impl Random {
    fn below(&mut self, most: u64) -> u64 {
        self.0 ^= self.0 << 13;
        self.0 ^= self.0 >> 7;
        self.0 ^= self.0 << 17;
        self.0 % most
    }

    fn line(&mut self) -> Vec<u8> {
        let count = self.below(8);
        let mut line: Vec<u8> = (0..count).flat_map(|_| PARTS[self.below(PARTS.len() as u64) as usize]).copied().collect();
        line.push(b'\n');
        line
    }
}

fn noise(address: SocketAddr) -> Result<(), Wrong> {
    let mut random = Random(0x9e37_79b9_7f4a_7c15);
    let mut client = Client::joined(address, "noise", "noise")?;
    let mut sender = client.second()?;
    let lines = thread::scope(|scope| {
        let sending = scope.spawn(move || {
            for _ in 0..LINES {
                sender.send(&random.line())?;
            }
            sender.say("/quit")
        });
        let lines = client.rest()?;
        sending.join().map_err(|_| "the sender panicked")??;
        Ok::<_, Wrong>(lines)
    })?;
    let is_known = |line: &&String| line.starts_with(|digit: char| digit.is_ascii_digit()) || begins(line);
    match lines.iter().find(|line| !is_known(line)) {
        Some(line) => Err(format!("the server says {line:?}")),
        None if lines.last().map(String::as_str) == Some("bye") => Client::named(address, "noise-more")?.quit(),
        None => Err(format!("{:?} in place of bye", lines.last())),
    }
}

fn begins(line: &str) -> bool {
    BEGINNINGS.iter().any(|beginning| line.starts_with(beginning))
}
