//! What must hold in each run.

use super::client::{said, Script};
use super::log::Event;
use crate::directory::Directory;
use crate::recovery::Left;
use seryugo::Switchboard;

pub fn check(script: &Script, log: &[Event]) {
    let all = messages(log);
    assert_eq!(all.len(), said(script), "all that is said is kept once");
    for (client, lines) in script.iter().enumerate() {
        let name = lines[0].strip_prefix("/name ").unwrap();
        check_lines(log, client, name, &all);
        let is_own = |line: &str| line.contains(&format!(" {name}: "));
        let got = |own: &String| log.iter().any(|event| event.got_by(client) == Some(own));
        let own: Vec<&String> = all.iter().filter(|line| is_own(line)).collect();
        assert_eq!(own.len(), said(&[lines]), "all that {name} says is kept");
        assert!(own.into_iter().all(got), "{name} gets what it says");
    }
    check_left(&text(log));
}

/// The text that these events keep.
fn text(log: &[Event]) -> String {
    let kept = |event: &Event| match event {
        Event::Keeps(text, _) => text.clone(),
        _ => String::new(),
    };
    log.iter().map(kept).collect()
}

/// The messages that these events keep, as clients get them.
fn messages(log: &[Event]) -> Vec<String> {
    let kept = |event: &Event| match event {
        Event::Keeps(_, said) => said.clone(),
        _ => Vec::new(),
    };
    log.iter().flat_map(kept).collect()
}

/// The client gets each message from its first one on once and in order, and what it gets is kept before. If it comes back and
/// doesn't know what it has seen, it gets one message twice. It misses none that is said once it has joined.
fn check_lines(log: &[Event], client: usize, name: &str, all: &[String]) {
    let mut member = Member {
        name,
        all,
        next: None,
        forgets: false,
    };
    for (at, event) in log.iter().enumerate() {
        match event {
            Event::Says(who, line) if *who == client && line.starts_with("/name ") => {
                member.forgets = line.split(' ').count() == 2;
            }
            Event::Says(_, line) if !line.starts_with('/') => member.may_see(line),
            Event::Gets(who, line) if *who == client => member.gets(line, &log[..at]),
            _ => (),
        }
    }
    let last = log.iter().rev().filter_map(|event| event.got_by(client)).take(2).collect::<Vec<_>>();
    assert_eq!(last, ["bye", "left kitchen"]);
}

/// What is expected of a client's lines.
struct Member<'c> {
    name: &'c str,
    all: &'c [String],
    /// The number of the next message, once it has joined.
    next: Option<usize>,
    /// Whether it came back and didn't say what it has seen.
    forgets: bool,
}

impl Member<'_> {
    /// Somebody says this.
    fn may_see(&self, line: &str) {
        let is_said = |said: &String| said.ends_with(&format!(": {line}"));
        let number = self.all.iter().position(is_said).unwrap() + 1;
        assert!(self.next.is_none_or(|next| number >= next), "{line:?} is said once {} has joined", self.name);
    }

    /// It gets this line, after these events.
    fn gets(&mut self, line: &str, before: &[Event]) {
        let (name, kept) = (self.name, text(before));
        let record = format!("=member%20{name}%20of%20kitchen%20");
        let has = |call: &str| kept.lines().any(|line| line.contains(call) && line.contains(&record));
        match line.split(' ').collect::<Vec<_>>()[..] {
            ["hello", _] => assert_eq!(self.next, None),
            ["joined", "kitchen", "next", first] => {
                assert!(has(" mvar ") || has(" put "), "the place of {name} is kept");
                self.next = Some(first.parse().unwrap());
            }
            ["hello", _, "room", "kitchen", "next", first, "last", _] => {
                let (first, next): (usize, usize) = (first.parse().unwrap(), self.next.unwrap());
                assert!(first == next || self.forgets && first + 1 == next, "{name} goes on at {next}, and not {first}");
                self.next = Some(first);
            }
            ["left", "kitchen"] => assert!(has(" takepoll "), "that {name} has left is kept"),
            ["bye"] => (),
            _ => {
                let number = self.next.unwrap();
                assert_eq!(Some(line), self.all.get(number - 1).map(String::as_str), "{name} gets message {number}");
                assert!(messages(before).iter().any(|kept| kept == line), "{line:?} is kept");
                self.next = Some(number + 1);
            }
        }
    }
}

/// The next server finds the room, and nobody in it.
fn check_left(text: &str) {
    let (board, _) = Switchboard::restore_torn(text.as_bytes(), 1_000).unwrap();
    let left = Left::on(&board).unwrap();
    assert!(left.strays.is_empty(), "{:?}", left.strays);
    let directory = Directory::new(&board, left.books, 1, 1);
    let rooms = directory.all_rooms();
    assert_eq!(rooms.iter().map(|room| room.name.as_str()).collect::<Vec<_>>(), ["kitchen"]);
    assert!(directory.members(&rooms[0]).unwrap().is_empty());
}
