//! What a later server finds: what is said and left before the server is killed, and what is found after that.

use crate::client::Client;
use crate::{Case, Wrong};
use std::net::SocketAddr;

pub const BEFORE: &[Case] = &[
    ("members and messages are left", leave_some),
    ("places are ended", end_some),
];

pub const AFTER: &[Case] = &[
    ("an absent member finds what was said", find_unread),
    ("a member that had read all gets its last message again", find_read),
    ("the history is there, and numbers go on", find_history),
    ("a place that was ended is not there", find_no_place),
];

/// On the journal that `tests/programs/chat_server.sh` writes, of a server that was killed between two calls.
pub const MENDED: &[Case] = &[("what a killed server began is finished", find_mended)];

fn leave_some(address: SocketAddr) -> Result<(), Wrong> {
    let mut ann = Client::joined(address, "kept-ann", "kept")?;
    let mut ben = Client::joined(address, "kept-ben", "kept")?;
    ben.ask("one", "1 kept-ben: one")?;
    ann.expect("1 kept-ben: one")?;
    ann.quit()?;
    for number in 2..=100 {
        ben.ask(&number.to_string(), &format!("{number} kept-ben: {number}"))?;
    }
    // A call that takes the journal: what was received before is kept.
    ben.quit()?;
    Client::joined(address, "kept-cyd", "kept-other")?.quit()
}

fn end_some(address: SocketAddr) -> Result<(), Wrong> {
    let mut client = Client::joined(address, "ended", "ended")?;
    client.ask("/leave", "left ended")?;
    client.quit()
}

fn find_unread(address: SocketAddr) -> Result<(), Wrong> {
    let mut ann = Client::connect(address)?;
    ann.ask("/name kept-ann 1", "hello kept-ann room kept next 2 last 100")?;
    for number in 2..=100 {
        ann.expect(&format!("{number} kept-ben: {number}"))?;
    }
    ann.expect_quiet()?;
    ann.quit()
}

fn find_read(address: SocketAddr) -> Result<(), Wrong> {
    let mut ben = Client::connect(address)?;
    ben.ask("/name kept-ben", "hello kept-ben room kept next 100 last 100")?;
    ben.expect("100 kept-ben: 100")?;
    ben.expect_quiet()?;
    ben.quit()
}

fn find_history(address: SocketAddr) -> Result<(), Wrong> {
    let mut dan = Client::joined(address, "kept-dan", "kept")?;
    dan.say("/history 99 100")?;
    for number in 99..=100 {
        dan.expect(&format!("history {number} kept-ben: {number}"))?;
    }
    dan.expect("end of history of kept last 100")?;
    dan.ask("/who", "member kept-ann away unread 0")?;
    dan.expect("member kept-ben away unread 0")?;
    dan.expect("member kept-dan here unread 0")?;
    dan.expect("end of members of kept")?;
    dan.ask("more", "101 kept-dan: more")?;
    dan.quit()?;
    let mut cyd = Client::connect(address)?;
    cyd.ask("/name kept-cyd", "hello kept-cyd room kept-other next 1 last 0")?;
    cyd.ask("first", "1 kept-cyd: first")?;
    cyd.quit()
}

fn find_no_place(address: SocketAddr) -> Result<(), Wrong> {
    Client::named(address, "ended")?.quit()
}

fn find_mended(address: SocketAddr) -> Result<(), Wrong> {
    let mut ann = Client::connect(address)?;
    ann.ask("/name ann", "hello ann room kitchen next 1 last 3")?;
    for (number, text) in [(1, "one"), (2, "two"), (3, "three")] {
        ann.expect(&format!("{number} ann: {text}"))?;
    }
    ann.ask("/who", "member ann here unread 0")?;
    ann.expect("end of members of kitchen")?;
    ann.ask("four", "4 ann: four")?;
    ann.quit()?;
    let mut ben = Client::named(address, "ben")?;
    ben.expect(
        "error fell-behind: you were too far behind, and lost your place in kitchen after message 0; /join kitchen again",
    )?;
    ben.quit()
}

/// Joins, and stays until the server ends.
pub fn stay(address: SocketAddr) -> Result<(), Wrong> {
    let mut client = Client::joined(address, "stays", "stays")?;
    println!("joined");
    client.expect("bye the server ends")?;
    client.expect_end()
}
