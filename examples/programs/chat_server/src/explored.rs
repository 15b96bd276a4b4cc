//! Clients of one room, in many orders of the server's threads. All but the sockets and the disk is the server's own.

mod check;
mod client;
mod log;

use crate::arguments::Limits;
use crate::connection::Connections;
use crate::directory::{Books, Directory};
use crate::keeper::Keeper;
use crate::keeping;
use crate::seats::Seats;
use crate::server::Server;
use client::{Client, Script, ALL_JOINED, ALL_SAID, BACK, FIRST_QUITS};
use log::{Event, Log};
use seryugo::explore::{self, explore, Found, Strategy};
use seryugo::{Error, Switchboard};
use std::env;
use std::net::{TcpListener, TcpStream};
use std::sync::atomic::AtomicBool;
use std::sync::Arc;
use std::time::{Duration, Instant};

/// Two say something while both are in the room.
const TOGETHER: &Script = &[
    &[
        "/name ann",
        "/join kitchen",
        ALL_JOINED,
        "tea?",
        ALL_SAID,
        "/leave",
        "/quit",
    ],
    &[
        "/name ben",
        "/join kitchen",
        ALL_JOINED,
        "no",
        "no!",
        ALL_SAID,
        "/leave",
        "/quit",
    ],
];

/// Three come and go, of which one only listens.
const COMING: &Script = &[
    &["/name ann", "/join kitchen", "tea?", "or coffee?", "/leave", "/quit"],
    &["/name ben", "/join kitchen", "tea", "/leave", "/quit"],
    &["/name cat", "/join kitchen", "/leave", "/quit"],
];

/// The first one comes back, and knows what it has seen. The other one says something before: an exploration doesn't know what
/// else wakes the thread that receives.
const BACK_AGAIN: &Script = &[
    &[
        "/name ann",
        "/join kitchen",
        ALL_JOINED,
        "tea?",
        "/quit",
        BACK,
        "/name ann LAST",
        ALL_SAID,
        "/leave",
        "/quit",
    ],
    &[
        "/name ben",
        "/join kitchen",
        ALL_JOINED,
        "no",
        FIRST_QUITS,
        "yes",
        ALL_SAID,
        "/leave",
        "/quit",
    ],
];

/// It doesn't know, and gets its last message twice.
const FORGETFUL: &Script = &[
    &[
        "/name ann",
        "/join kitchen",
        "tea?",
        "/quit",
        BACK,
        "/name ann",
        "coffee!",
        ALL_SAID,
        "/leave",
        "/quit",
    ],
    &["/name ben", "/join kitchen", FIRST_QUITS, "no", "/leave", "/quit"],
];

/// The number of the disk, which no file of a run has.
const DISK: u64 = 0;

/// What stands for a sync: from then on the disk has all calls that returned before.
fn sync(board: &Switchboard, log: &Log) -> Result<(), Error> {
    let journal = board.take_journal()?;
    // Others go on while the disk is written.
    explore::aside(DISK);
    log.add(Event::keeps(&journal));
    Ok(())
}

/// The clients of this script, in this way.
fn explored(way: Strategy, most: u64, script: &Script) -> Found {
    let listener = TcpListener::bind("127.0.0.1:0").unwrap();
    let socket = TcpStream::connect(listener.local_addr().unwrap()).unwrap();
    explore(way, most, |board: &Arc<Switchboard>| {
        let log = Log::of(script);
        serve(board, script, &socket, &log);
        check::check(script, &log.events());
    })
}

fn serve(board: &Switchboard, script: &Script, socket: &TcpStream, log: &Log) {
    let limits = Limits::default();
    let keeper = Keeper::new(Duration::ZERO);
    let directory = Directory::new(board, Books::default(), limits.rooms, limits.members);
    let server = Server {
        board,
        keeper: &keeper,
        directory: &directory,
        seats: Seats::new(board),
        connections: Connections::default(),
        limits,
        is_ending: AtomicBool::new(false),
    };
    // They are free from now on, so that no thread makes one.
    drop(script.iter().map(|_| [server.seats.lend(), server.seats.lend()]).collect::<Vec<_>>());
    let serves = || {
        run_clients(&server, script, socket, log);
        Ok(())
    };
    keeping::run(&server, || sync(board, log), &[], |error| panic!("{error}"), serves).unwrap();
}

fn run_clients(server: &Server<'_>, script: &Script, socket: &TcpStream, log: &Log) {
    explore::scope(|threads| {
        for (number, lines) in script.iter().enumerate() {
            let client = Client {
                number,
                server,
                socket,
                script,
                log,
            };
            threads.spawn(move || client.run(lines));
        }
    });
}

#[test]
fn each_order_up_to_a_bound_hands_on_all() {
    let found = explored(Strategy::every().preemptions(1), 80, TOGETHER);
    assert!(found.is_clean(), "{found}");
}

/// `SERYUGO_SECONDS=60 cargo test --release explored` takes a minute for each script.
fn random_orders_hand_on_all(script: &Script) {
    let seconds = env::var("SERYUGO_SECONDS").map_or(0, |seconds| seconds.parse().unwrap());
    let until = Instant::now() + Duration::from_secs(seconds);
    let mut runs = 0;
    for seed in 0.. {
        let found = explored(Strategy::random(seed), 30, script);
        assert!(found.is_clean(), "seed {seed}: {found}");
        runs += found.runs();
        if Instant::now() >= until {
            break;
        }
    }
    println!("{runs} runs");
}

#[test]
fn those_who_talk_get_all() {
    random_orders_hand_on_all(TOGETHER);
}

#[test]
fn those_who_come_and_go_get_all_meanwhile() {
    random_orders_hand_on_all(COMING);
}

#[test]
fn who_comes_back_gets_the_rest() {
    random_orders_hand_on_all(BACK_AGAIN);
}

#[test]
fn who_comes_back_and_forgot_gets_the_last_twice() {
    random_orders_hand_on_all(FORGETFUL);
}
