//! Many clients at once, each of which says this many messages.

use crate::member::{Member, Tally};
use crate::verdict::check_room;
use crate::{read, Wrong};
use std::fs;
use std::net::SocketAddr;
use std::sync::atomic::{AtomicBool, AtomicU64, Ordering};
use std::sync::Barrier;
use std::thread;
use std::time::{Duration, Instant};

/// How much more memory the server may have at the end than at a fifth of the run, in kilobytes.
const MORE: u64 = 16_384;

pub struct Options {
    clients: u64,
    messages: u64,
    rooms: u64,
    pid: Option<u32>,
}

impl Options {
    pub fn parse(words: &[String]) -> Result<Options, Wrong> {
        let mut options = Options {
            clients: 100,
            messages: 200,
            rooms: 10,
            pid: None,
        };
        for pair in words.chunks(2) {
            let [option, value] = pair else {
                return Err(format!("{} has no value", pair[0]));
            };
            match option.as_str() {
                "--clients" => options.clients = read(value)?,
                "--messages" => options.messages = read(value)?,
                "--rooms" => options.rooms = read(value)?,
                "--pid" => options.pid = Some(read(value)?),
                _ => return Err(format!("unknown word: {option}")),
            }
        }
        match options.rooms > 0 && options.clients.is_multiple_of(options.rooms) {
            true => Ok(options),
            false => Err("each room has as many clients as the others".to_owned()),
        }
    }
}

/// What the clients share.
pub struct Shared {
    pub address: SocketAddr,
    /// How many messages a client says, and how many are said in its room.
    pub messages: u64,
    pub in_room: u64,
    /// All have joined.
    pub joined: Barrier,
    /// How many messages were received.
    pub received: AtomicU64,
    /// A client has found something wrong.
    pub is_wrong: AtomicBool,
}

/// Runs all clients, checks what they got, and prints how fast it was.
pub fn run(address: SocketAddr, options: &Options) -> Result<(), Wrong> {
    let shared = Shared {
        address,
        messages: options.messages,
        in_room: options.messages * options.clients / options.rooms,
        joined: Barrier::new(options.clients as usize + 1),
        received: AtomicU64::new(0),
        is_wrong: AtomicBool::new(false),
    };
    let (members, passed, memory) = thread::scope(|scope| {
        let running: Vec<_> = (0..options.clients)
            .map(|number| (number, &shared))
            .map(|(number, shared)| scope.spawn(move || Member::new(number, number % options.rooms).run(shared)))
            .collect();
        shared.joined.wait();
        let start = Instant::now();
        let memory = options.pid.map(|pid| memory_at_a_fifth(&shared, options, pid));
        let members: Vec<_> = running.into_iter().map(|member| member.join().map_err(|_| "a client panicked")).collect();
        (members, start.elapsed(), memory)
    });
    let members = members.into_iter().map(|member| member?).collect::<Result<Vec<_>, Wrong>>()?;
    for room in 0..options.rooms {
        let of_room: Vec<&Member> = members.iter().filter(|member| member.room == room).collect();
        check_room(&of_room, shared.messages, shared.in_room)?;
    }
    tell(options, &members, passed);
    match (options.pid, memory) {
        (Some(pid), Some(before)) => compare_memory(before?, memory_of(pid)?),
        _ => Ok(()),
    }
}

fn tell(options: &Options, members: &[Member], passed: Duration) {
    let tally = members.iter().fold(Tally::default(), |sum, member| sum.plus(&member.tally));
    let said = options.clients * options.messages;
    let received: u64 = members.iter().map(|member| member.got.len() as u64).sum();
    let seconds = passed.as_secs_f64();
    println!(
        "{said} messages said, {received} received in {seconds:.1} s: {:.0} a second",
        received as f64 / seconds
    );
    println!(
        "{} connections were lost; {} messages came twice, {} were read from the history, {} were said again",
        tally.lost, tally.doubled, tally.filled, tally.said_again
    );
}

/// The server's memory, once a fifth of the messages was received.
fn memory_at_a_fifth(shared: &Shared, options: &Options, pid: u32) -> Result<u64, Wrong> {
    let fifth = shared.in_room * options.clients / 5;
    while shared.received.load(Ordering::Relaxed) < fifth {
        thread::sleep(Duration::from_millis(5));
        memory_of(pid)?;
    }
    memory_of(pid)
}

/// The kilobytes of memory that a process has, without what it maps of files: the system may take that back.
fn memory_of(pid: u32) -> Result<u64, Wrong> {
    let status =
        fs::read_to_string(format!("/proc/{pid}/status")).map_err(|error| format!("the server's memory: {error}"))?;
    let line = status.lines().find_map(|line| line.strip_prefix("RssAnon:")).ok_or("the server has ended")?;
    read(line.trim().trim_end_matches(" kB"))
}

fn compare_memory(before: u64, after: u64) -> Result<(), Wrong> {
    println!("the server's memory: {before} KB at a fifth, {after} KB at the end");
    match after <= before + MORE {
        true => Ok(()),
        false => Err(format!("the server's memory grew from {before} KB to {after} KB")),
    }
}
