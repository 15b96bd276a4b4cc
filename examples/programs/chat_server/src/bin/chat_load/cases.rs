//! What a client may say, and how a connection ends. Each case has rooms and names that no other case has.

use crate::client::Client;
use crate::{Case, Wrong};
use std::net::SocketAddr;

pub const CASES: &[Case] = &[
    ("a line is returned with its number", said),
    ("each wrong line has its error, and the connection stays", refused),
    ("a line of a megabyte is skipped", megabyte),
    ("a line that isn't UTF-8 is refused", not_utf8),
    ("a last line may lack its line feed", no_line_feed),
    ("a client that shut its sending side still gets what is said", half_closed),
    ("a client that closed the connection misses nothing", closed),
    ("a client comes back after what it has seen", comes_back),
    ("a later connection replaces the earlier one", replaced),
    ("a place ends by /leave", left),
    ("/who returns the members", who),
    ("/history returns messages by their numbers", history),
    ("/quit comes after all that was said", quit),
];

fn said(address: SocketAddr) -> Result<(), Wrong> {
    let mut ann = Client::joined(address, "said-ann", "said")?;
    let mut ben = Client::joined(address, "said-ben", "said")?;
    ann.ask("hello", "1 said-ann: hello")?;
    ben.expect("1 said-ann: hello")?;
    ben.ask("//who: grüß dich", "2 said-ben: /who: grüß dich")?;
    ann.expect("2 said-ben: /who: grüß dich")?;
    ann.send(b"\r\n\nwith telnet\r\n")?;
    ann.expect("3 said-ann: with telnet")?;
    let longest = "x".repeat(4_096);
    ann.ask(&longest, &format!("4 said-ann: {longest}"))?;
    ann.quit()?;
    ben.expect("3 said-ann: with telnet")?;
    ben.expect(&format!("4 said-ann: {longest}"))?;
    ben.quit()
}

fn refused(address: SocketAddr) -> Result<(), Wrong> {
    let mut client = Client::connect(address)?;
    let errors = [
        ("hello", "no-name"),
        ("/join refused", "no-name"),
        ("/who", "no-name"),
        ("/leave", "no-name"),
        ("/history", "no-name"),
        ("/name", "wrong-words"),
        ("/name a b c", "wrong-words"),
        ("/name a/b", "bad-name"),
        ("/name refused -1", "bad-number"),
        ("/foo", "unknown-command"),
        ("a\u{7}b", "control-character"),
    ];
    expect_errors(&mut client, &errors)?;
    client.ask("/name refused", "hello refused")?;
    let errors = [
        ("/name refused", "already-named"),
        ("hello", "no-room"),
        ("/who", "no-room"),
        ("/history", "no-room"),
        ("/leave", "no-room"),
        ("/join a b", "wrong-words"),
        ("/join =", "bad-name"),
    ];
    expect_errors(&mut client, &errors)?;
    client.ask("/join refused", "joined refused next 1")?;
    let errors = [
        ("/join refused", "in-room"),
        ("/history x", "bad-number"),
        ("/history 0 1", "bad-number"),
        ("/history 2 1", "bad-number"),
        ("/history 1 2 3", "wrong-words"),
    ];
    expect_errors(&mut client, &errors)?;
    client.say("/help")?;
    client.expect_start("help /name NAME")?;
    while client.expect_start("help ").is_ok() {}
    client.ask("still here", "1 refused: still here")?;
    client.quit()
}

fn expect_errors(client: &mut Client, errors: &[(&str, &str)]) -> Result<(), Wrong> {
    errors.iter().try_for_each(|(line, error)| {
        client.say(line)?;
        client.expect_start(&format!("error {error}: ")).map(drop)
    })
}

fn megabyte(address: SocketAddr) -> Result<(), Wrong> {
    let mut client = Client::joined(address, "megabyte", "megabyte")?;
    let mut line = vec![b'x'; 1 << 20];
    line.push(b'\n');
    client.send(&line)?;
    client.expect("error too-long: a line has at most 4096 bytes")?;
    client.send(&[b"/name ", &line[..]].concat())?;
    client.expect("error too-long: a line has at most 4096 bytes")?;
    client.ask("short", "1 megabyte: short")?;
    client.send(&line[..1 << 19])?;
    client.shut()?;
    client.expect("error too-long: a line has at most 4096 bytes")?;
    client.expect_start("half-closed: ")?;
    drop(client);
    let mut client = Client::connect(address)?;
    client.ask("/name megabyte 1", "hello megabyte room megabyte next 2 last 1")?;
    client.quit()
}

fn not_utf8(address: SocketAddr) -> Result<(), Wrong> {
    let mut client = Client::joined(address, "not-utf8", "not-utf8")?;
    for wrong in [
        &b"\xff"[..],
        b"a\xc3(b",
        b"\xed\xa0\x80",
        b"/name \xfe",
        b"\xf4\x90\x80\x80",
    ] {
        client.send(&[wrong, b"\n"].concat())?;
        client.expect("error not-utf8: the line isn't UTF-8")?;
    }
    client.ask("still here", "1 not-utf8: still here")?;
    client.quit()
}

fn no_line_feed(address: SocketAddr) -> Result<(), Wrong> {
    let mut client = Client::joined(address, "no-line-feed", "no-line-feed")?;
    client.send(b"one\ntwo")?;
    client.shut()?;
    let lines = [client.line()?, client.line()?, client.line()?];
    let half_closed = "half-closed: you said your last line, and still get what your room says";
    for wanted in ["1 no-line-feed: one", "2 no-line-feed: two", half_closed] {
        if !lines.iter().flatten().any(|line| line == wanted) {
            return Err(format!("{lines:?} lacks {wanted}"));
        }
    }
    Ok(())
}

fn half_closed(address: SocketAddr) -> Result<(), Wrong> {
    let mut ann = Client::joined(address, "half-ann", "half")?;
    let mut ben = Client::joined(address, "half-ben", "half")?;
    ann.shut()?;
    ann.expect_start("half-closed: ")?;
    for number in 1..=50 {
        ben.ask(&number.to_string(), &format!("{number} half-ben: {number}"))?;
        ann.expect(&format!("{number} half-ben: {number}"))?;
    }
    let mut nameless = Client::connect(address)?;
    nameless.shut()?;
    nameless.expect("bye")?;
    nameless.expect_end()?;
    ben.quit()
}

fn closed(address: SocketAddr) -> Result<(), Wrong> {
    let mut ben = Client::joined(address, "closed-ben", "closed")?;
    let mut last = 0;
    for round in 0..3 {
        let mut ann = Client::connect(address)?;
        ann.say("/name closed-ann")?;
        match ann.line()?.unwrap_or_default().as_str() {
            "hello closed-ann" => ann.ask("/join closed", "joined closed next 1")?,
            _ if round > 0 => {}
            other => return Err(other.to_owned()),
        }
        for number in last.max(1)..=last {
            ann.expect(&format!("{number} closed-ben: {number}"))?;
        }
        drop(ann);
        // The server may still believe that it is only half closed.
        for number in last + 1..=last + 5 {
            ben.ask(&number.to_string(), &format!("{number} closed-ben: {number}"))?;
        }
        let mut ann = Client::connect(address)?;
        ann.say("/name closed-ann")?;
        ann.expect_start("hello closed-ann room closed next ")?;
        for number in last.max(1)..=last + 5 {
            ann.expect(&format!("{number} closed-ben: {number}"))?;
        }
        last += 5;
        ann.quit()?;
    }
    ben.quit()
}

fn comes_back(address: SocketAddr) -> Result<(), Wrong> {
    let mut ann = Client::joined(address, "back-ann", "back")?;
    for number in 1..=5 {
        ann.ask(&number.to_string(), &format!("{number} back-ann: {number}"))?;
    }
    ann.quit()?;
    let mut ben = Client::joined(address, "back-ben", "back")?;
    ben.ask("6", "6 back-ben: 6")?;
    // Without a number the last message that was sent is sent again; with one, what is after it.
    let backs = [("", 5, 6), (" 6", 7, 6), (" 2", 3, 6), (" 0", 1, 6), (" 5", 6, 6)];
    for (seen, next, last) in backs {
        let mut ann = Client::connect(address)?;
        ann.ask(&format!("/name back-ann{seen}"), &format!("hello back-ann room back next {next} last {last}"))?;
        for number in next..=5 {
            ann.expect(&format!("{number} back-ann: {number}"))?;
        }
        if next <= 6 {
            ann.expect("6 back-ben: 6")?;
        }
        ann.expect_quiet()?;
        ann.quit()?;
    }
    let mut ann = Client::connect(address)?;
    ann.say("/name back-ann 7")?;
    ann.expect_start("error bad-number: ")?;
    ben.quit()
}

fn replaced(address: SocketAddr) -> Result<(), Wrong> {
    let mut first = Client::joined(address, "replaced", "replaced")?;
    first.ask("one", "1 replaced: one")?;
    let mut second = Client::connect(address)?;
    second.ask("/name replaced 1", "hello replaced room replaced next 2 last 1")?;
    first.expect("bye replaced: a later connection has your name")?;
    first.expect_end()?;
    second.ask("two", "2 replaced: two")?;
    second.quit()
}

fn left(address: SocketAddr) -> Result<(), Wrong> {
    let mut ann = Client::joined(address, "left-ann", "left")?;
    let mut ben = Client::joined(address, "left-ben", "left")?;
    ann.say("one\n/leave")?;
    ann.expect("1 left-ann: one")?;
    ann.expect("left left")?;
    ben.expect("1 left-ann: one")?;
    ben.ask("two", "2 left-ben: two")?;
    ann.expect_quiet()?;
    ann.ask("/join left", "joined left next 3")?;
    ben.ask("three", "3 left-ben: three")?;
    ann.expect("3 left-ben: three")?;
    ann.ask("/leave", "left left")?;
    ann.quit()?;
    Client::named(address, "left-ann")?.quit()?;
    ben.quit()
}

fn who(address: SocketAddr) -> Result<(), Wrong> {
    Client::joined(address, "who-ann", "who")?.quit()?;
    let mut ben = Client::joined(address, "who-ben", "who")?;
    ben.ask("one", "1 who-ben: one")?;
    ben.ask("/who", "member who-ann away unread 1")?;
    ben.expect("member who-ben here unread 0")?;
    ben.expect("end of members of who")?;
    ben.quit()
}

fn history(address: SocketAddr) -> Result<(), Wrong> {
    let mut client = Client::joined(address, "history", "history")?;
    client.ask("/history", "end of history of history last 0")?;
    for number in 1..=150 {
        client.say(&format!("line {number}"))?;
    }
    for number in 1..=150 {
        client.expect(&format!("{number} history: line {number}"))?;
    }
    let some = [
        ("", 141, 150),
        (" 3", 148, 150),
        (" 0", 151, 150),
        (" 1000", 1, 150),
        (" 60 70", 60, 70),
        (" 149 1000", 149, 150),
    ];
    for (words, from, to) in some {
        client.say(&format!("/history{words}"))?;
        for number in from..=to {
            client.expect(&format!("history {number} history: line {number}"))?;
        }
        client.expect("end of history of history last 150")?;
    }
    client.ask("/history 151 160", "end of history of history last 150")?;
    client.quit()
}

fn quit(address: SocketAddr) -> Result<(), Wrong> {
    let mut client = Client::joined(address, "quit", "quit")?;
    let lines: String = (1..=100).map(|number| format!("line {number}\n")).collect();
    client.send(format!("{lines}/quit\nnot said\n").as_bytes())?;
    for number in 1..=100 {
        client.expect(&format!("{number} quit: line {number}"))?;
    }
    client.expect("bye")?;
    client.expect_end()
}
