//! Tries a chat server: many clients at once, or one case after the other.
//!
//!     chat_load everyone ADDRESS [--clients N] [--messages N] [--rooms N] [--pid PID]
//!     chat_load cases ADDRESS
//!     chat_load before ADDRESS
//!     chat_load after ADDRESS
//!     chat_load mended ADDRESS
//!     chat_load stays ADDRESS
//!
//! `everyone` has clients in rooms, each of which says this many messages, and checks what each one gets. If the server is killed
//! and started again meanwhile, the clients come back and go on. With the server's PID it compares the server's memory at a fifth
//! of the run with that at the end. `cases` wants a server with the limits that `tests/programs/chat_server.sh` gives it. `before`
//! leaves members and messages, which `after` finds on the next server. `mended` wants a server on the journal that the test
//! writes. `stays` joins, and stays until the server ends.

mod cases;
mod client;
mod everyone;
mod limits;
mod member;
mod noise;
mod restart;
mod verdict;

use std::env;
use std::fmt::Display;
use std::net::SocketAddr;
use std::process::ExitCode;
use std::str::FromStr;

/// What went wrong.
pub type Wrong = String;

/// One case: its name, and what tries it.
pub type Case = (&'static str, fn(SocketAddr) -> Result<(), Wrong>);

fn main() -> ExitCode {
    match run(&env::args().skip(1).collect::<Vec<_>>()) {
        Ok(()) => ExitCode::SUCCESS,
        Err(wrong) => {
            println!("failed: {wrong}");
            ExitCode::FAILURE
        }
    }
}

fn run(words: &[String]) -> Result<(), Wrong> {
    let [what, address, options @ ..] = words else {
        return Err("usage: chat_load everyone|cases|before|after|mended|stays ADDRESS [OPTION..]".to_owned());
    };
    let address: SocketAddr = read(address)?;
    match (what.as_str(), options) {
        ("everyone", options) => everyone::run(address, &everyone::Options::parse(options)?),
        ("cases", []) => run_cases(&[cases::CASES, noise::CASES, limits::CASES].concat(), address),
        ("before", []) => run_cases(restart::BEFORE, address),
        ("after", []) => run_cases(restart::AFTER, address),
        ("stays", []) => restart::stay(address),
        ("mended", []) => run_cases(restart::MENDED, address),
        _ => Err(format!("unknown words: {}", words.join(" "))),
    }
}

/// Tries each case, and says which passed.
fn run_cases(cases: &[Case], address: SocketAddr) -> Result<(), Wrong> {
    let mut failed = 0;
    for (name, case) in cases {
        match case(address) {
            Ok(()) => println!("passed: {name}"),
            Err(wrong) => {
                println!("failed: {name}: {wrong}");
                failed += 1;
            }
        }
    }
    match failed {
        0 => Ok(()),
        _ => Err(format!("{failed} cases")),
    }
}

/// Reads a number or an address.
pub fn read<T: FromStr<Err: Display>>(word: &str) -> Result<T, Wrong> {
    word.parse().map_err(|error| format!("{word}: {error}"))
}
