//! What the server bounds: tried on a server with `--client-limit 20 --room-limit 20 --member-limit 40 --owed-limit 300`. These
//! cases come after the others, which have made some rooms and members.

use crate::client::Client;
use crate::{Case, Wrong};
use std::net::SocketAddr;
use std::thread;
use std::time::Duration;

const CLIENTS: usize = 20;
const ROOMS: usize = 20;
const MEMBERS: usize = 40;
const OWED: usize = 300;

/// A message so long that the buffers of the system hold few of them.
const LONG: usize = 4_000;

/// How many of them are said at once.
const AT_ONCE: usize = 30;

/// How many connections the cases before may have left: a client that shut its sending side and then closed the connection is
/// only noticed once something is written to it.
const LEFT: usize = 4;

pub const CASES: &[Case] = &[
    ("a member that is away too long loses its place", away),
    ("a client that reads too slowly loses its place", slow),
    ("there are no more clients than the limit", clients),
    ("there are no more rooms than the limit", rooms),
    ("there are no more members than the limit", members),
];

fn away(address: SocketAddr) -> Result<(), Wrong> {
    let mut ann = Client::joined(address, "away-ann", "away")?;
    let mut ben = Client::joined(address, "away-ben", "away")?;
    ben.ask("one", "1 away-ben: one")?;
    ann.expect("1 away-ben: one")?;
    ann.quit()?;
    let most = OWED + OWED / 10 + 2;
    ben.send("more\n".repeat(most - 1).as_bytes())?;
    for number in 2..=most {
        ben.expect(&format!("{number} away-ben: more"))?;
    }
    ben.ask("/who", "member away-ben here unread 0")?;
    ben.expect("end of members of away")?;
    let mut ann = Client::named(address, "away-ann")?;
    let lost = "error fell-behind: you were too far behind, and lost your place in away after message 1; /join away again";
    ann.expect(lost)?;
    ann.expect_quiet()?;
    ann.quit()?;
    // It gets one line that says so, and may join again.
    let mut ann = Client::joined(address, "away-ann", "away")?;
    ben.ask("last", &format!("{} away-ben: last", most + 1))?;
    ann.expect(&format!("{} away-ben: last", most + 1))?;
    ann.quit()?;
    ben.quit()
}

fn slow(address: SocketAddr) -> Result<(), Wrong> {
    let mut slow = Client::joined(address, "slow-ann", "slow")?;
    let mut quick = Client::joined(address, "slow-ben", "slow")?;
    let text = "x".repeat(LONG);
    let mut said = 0;
    while is_here(&mut quick, "slow-ann")? {
        for _ in 0..OWED / AT_ONCE {
            quick.send(format!("{text}\n").repeat(AT_ONCE).as_bytes())?;
            for _ in 0..AT_ONCE {
                said += 1;
                quick.expect_start(&format!("{said} slow-ben: x"))?;
            }
        }
        if said > 20_000 {
            return Err("a slow client keeps its place".to_owned());
        }
    }
    let lines = slow.rest()?;
    let last = lines.last().cloned().unwrap_or_default();
    let got = lines.len() - 1;
    for (number, line) in (1..).zip(&lines[..got]) {
        if !line.starts_with(&format!("{number} slow-ben: x")) {
            return Err(format!("{:.40} in place of message {number}", line));
        }
    }
    if !last.starts_with(&format!(
        "error fell-behind: you were too far behind, and lost your place in slow after message {got};"
    )) {
        return Err(format!("{last:.100} after message {got}"));
    }
    quick.quit()
}

/// Whether a member has a place in the room.
fn is_here(client: &mut Client, name: &str) -> Result<bool, Wrong> {
    client.say("/who")?;
    let mut is_here = false;
    loop {
        let line = client.line()?.ok_or("the end in place of the members")?;
        if line.starts_with("end of members") {
            return Ok(is_here);
        }
        is_here |= line.starts_with(&format!("member {name} "));
    }
}

fn clients(address: SocketAddr) -> Result<(), Wrong> {
    let full = format!("error server-full: {CLIENTS} clients are connected, and no more can be");
    let mut all = Vec::new();
    loop {
        let mut client = Client::connect(address)?;
        client.say(&format!("/name clients-{}", all.len()))?;
        if client.line()? == Some(full.clone()) {
            break;
        }
        all.push(client);
    }
    if all.len() > CLIENTS || all.len() + LEFT < CLIENTS {
        return Err(format!("{} clients are connected", all.len()));
    }
    all.into_iter().try_for_each(Client::quit)?;
    // The server reads on for a while after the end of a connection.
    while let Err(wrong) = Client::named(address, "clients-more").and_then(Client::quit) {
        if !wrong.contains(&full) {
            return Err(wrong);
        }
        thread::sleep(Duration::from_millis(100));
    }
    Ok(())
}

fn rooms(address: SocketAddr) -> Result<(), Wrong> {
    let mut client = Client::named(address, "rooms")?;
    for number in 0..=ROOMS {
        client.say(&format!("/join rooms-{number}"))?;
        let answer = client.line()?.unwrap_or_default();
        if answer.starts_with("error room-limit: ") {
            client.ask("/join said", "joined said next 5")?;
            client.ask("/leave", "left said")?;
            return client.quit();
        }
        client.ask("/leave", &format!("left rooms-{number}"))?;
    }
    Err("there are more rooms".to_owned())
}

fn members(address: SocketAddr) -> Result<(), Wrong> {
    for number in 0..=MEMBERS {
        let mut client = Client::named(address, &format!("members-{number}"))?;
        client.say("/join said")?;
        let answer = client.line()?.unwrap_or_default();
        client.quit()?;
        if answer.starts_with("error member-limit: ") {
            return Ok(());
        }
    }
    Err("there are more members".to_owned())
}
