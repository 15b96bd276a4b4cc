//! A chat server that keeps its journal: kill it whenever you like, and the next one goes on.
//!
//! `docs/CHAT_SERVER.md` says how to use it. A file keeps each call on the switchboard, which `opening` opens and `recovery`
//! reads. A line takes this way: `session` sends it to its room's queue, a mailbox. `keeper` waits until the disk has it. Then
//! `publisher` multicasts it on the room's channel. Each member has a port of the channel, from which `writer` receives the line
//! and writes it to the client.

mod arguments;
mod connection;
mod directory;
#[cfg(test)]
mod explored;
mod failure;
mod history;
mod keeper;
mod keeping;
mod lines;
mod messages;
mod opening;
mod outbox;
mod protocol;
mod publisher;
mod queue;
mod recovery;
mod seats;
mod server;
mod session;
mod wait;
mod writer;

use arguments::{Arguments, Asked, BadArguments};
use connection::{reachable, Connections};
use directory::Directory;
use failure::Failure;
use keeper::{Keeper, GATHER};
use recovery::Left;
use seats::Seats;
use server::Server;
use seryugo::Switchboard;
use std::ffi::OsString;
use std::io::{self, Write};
use std::net::{TcpListener, TcpStream};
use std::process::ExitCode;
use std::sync::atomic::{AtomicBool, Ordering};
use std::time::Duration;
use std::{env, thread};

fn main() -> ExitCode {
    match run() {
        Ok(()) => ExitCode::SUCCESS,
        Err(failure) => {
            failure.tell();
            ExitCode::from(failure.status())
        }
    }
}

fn run() -> Result<(), Failure> {
    match words().and_then(arguments::parse).map_err(Failure::Words)? {
        Asked::Help => {
            print(arguments::HELP);
            Ok(())
        }
        Asked::Serve(arguments) => serve(&arguments),
    }
}

/// The words after the program's name, each of which has to be Unicode.
fn words() -> Result<Vec<String>, BadArguments> {
    let word =
        |word: OsString| word.into_string().map_err(|word| BadArguments::Unknown(word.to_string_lossy().into_owned()));
    env::args_os().skip(1).map(word).collect()
}

/// Writes to standard output. Nothing depends on who reads it.
fn print(text: &str) {
    let mut output = io::stdout();
    let _ = output.write_all(text.as_bytes()).and_then(|()| output.flush());
}

fn serve(arguments: &Arguments) -> Result<(), Failure> {
    let path = &arguments.journal;
    let (board, left) = opening::open(path, arguments.limits.compact_from)?;
    serve_on(&board, left, arguments)?;
    board.close().map_err(|error| Failure::File(path.clone(), error.to_string()))
}

fn serve_on(board: &Switchboard, left: Left, arguments: &Arguments) -> Result<(), Failure> {
    let listener = TcpListener::bind(arguments.listen).map_err(Failure::Listen)?;
    let keeper = Keeper::new(GATHER);
    let directory = Directory::new(board, left.books, arguments.limits.rooms, arguments.limits.members);
    let server = Server {
        board,
        keeper: &keeper,
        directory: &directory,
        seats: Seats::new(board),
        connections: Connections::default(),
        limits: arguments.limits,
        is_ending: AtomicBool::new(false),
    };
    let fails = |error| Failure::of_call(&arguments.journal, board, error).end();
    keeping::run(&server, || board.sync(), &left.strays, fails, || serve_clients(&server, &listener))
}

/// Serves clients until the server is to end.
fn serve_clients(server: &Server<'_>, listener: &TcpListener) -> Result<(), Failure> {
    let address = listener.local_addr().map_err(Failure::Listen)?;
    let rooms = server.directory.rooms();
    thread::scope(|scope| {
        scope.spawn(|| thread::scope(|clients| server.accept(listener, clients)));
        print(&format!("listening on {address} after {} entries with {rooms} rooms\n", server.board.entries()));
        wait_for_shutdown();
        server.is_ending.store(true, Ordering::Release);
        server.connections.end_all("bye the server ends");
        // The thread that accepts looks at the flag once a connection has come.
        let _ = TcpStream::connect(reachable(address));
        while server.connections.are_open() {
            thread::sleep(Duration::from_millis(10));
        }
        Ok(())
    })
}

/// Waits for the line `/shutdown` on standard input. After the end of standard input none comes, and the server runs on.
fn wait_for_shutdown() {
    let is_there = |line: &io::Result<String>| match line {
        Ok(_) => true,
        Err(error) => error.kind() == io::ErrorKind::InvalidData,
    };
    let mut lines = io::stdin().lines().take_while(is_there);
    while !lines.any(|line| line.is_ok_and(|line| line.trim_end() == "/shutdown")) {
        thread::park();
    }
}
