//! What a client says, and where it gets what the server writes.

use super::log::{Event, Log};
use crate::connection::Connection;
use crate::protocol::parse;
use crate::server::Server;
use crate::session::Session;
use crate::writer;
use seryugo::explore;
use std::io::{self, Write};
use std::net::TcpStream;
use std::sync::Arc;

/// What each client says in a run.
pub type Script = [&'static [&'static str]];

/// A client waits until all have joined,
pub const ALL_JOINED: &str = "# all joined";
/// or until it got the last message that is said in the script,
pub const ALL_SAID: &str = "# all said";
/// or until the first client has quit.
pub const FIRST_QUITS: &str = "# the first quits";
/// It connects again.
pub const BACK: &str = "# back";

/// How many messages are said in these lines.
pub fn said(script: &[&[&str]]) -> usize {
    script.iter().flat_map(|lines| lines.iter()).filter(|line| !line.starts_with(['/', '#'])).count()
}

#[derive(Clone, Copy)]
pub struct Client<'s, 'a> {
    pub number: usize,
    pub server: &'s Server<'a>,
    pub socket: &'s TcpStream,
    pub script: &'s Script,
    pub log: &'s Log,
}

impl Client<'_, '_> {
    /// Says these lines, by one connection after the other.
    pub fn run(self, lines: &[&str]) {
        for lines in lines.split(|line| *line == BACK) {
            let connections = &self.server.connections;
            let connection = connections.add(self.socket.try_clone().unwrap(), 10).unwrap();
            self.connect(&connection, lines);
            connections.free_name(&connection);
            connections.remove(&connection);
        }
    }

    /// Says these lines, while another thread writes what the client gets.
    fn connect(self, connection: &Arc<Connection>, lines: &[&str]) {
        let server = self.server;
        let (seat, mut other) = (server.seats.lend().unwrap(), server.seats.lend().unwrap());
        explore::scope(|threads| {
            threads.spawn(move || writer::write_to(self, server, connection, &mut other));
            let mut session = Session::new(server, connection, seat);
            for line in lines {
                if line.starts_with('#') {
                    self.wait(line);
                    continue;
                }
                let line = line.replace("LAST", &self.last().to_string());
                self.log.add(Event::Says(self.number, line.clone()));
                session.answer(parse(line.as_bytes()));
                self.log.add(Event::Did(self.number, line));
            }
        });
    }

    fn wait(self, what: &str) {
        let all = format!("{} ", said(self.script));
        let is_done = |event: &Event| match (what, event) {
            (ALL_JOINED, Event::Gets(_, line)) => line.starts_with("joined"),
            (ALL_SAID, event) => event.got_by(self.number).is_some_and(|line| line.starts_with(&all)),
            (FIRST_QUITS, Event::Did(0, line)) => line == "/quit",
            _ => false,
        };
        let count = if what == ALL_JOINED { self.script.len() } else { 1 };
        self.log.await_events(count, is_done);
    }

    /// The number of the last message that it got.
    fn last(self) -> usize {
        let events = self.log.events();
        let mut got = events.iter().rev().filter_map(|event| event.got_by(self.number));
        got.find_map(|line| line.split(' ').next()?.parse().ok()).unwrap_or(0)
    }
}

impl Write for Client<'_, '_> {
    fn write(&mut self, text: &[u8]) -> io::Result<usize> {
        for line in std::str::from_utf8(text).unwrap().lines() {
            self.log.add(Event::Gets(self.number, line.to_owned()));
        }
        Ok(text.len())
    }

    fn flush(&mut self) -> io::Result<()> {
        Ok(())
    }
}
