//! What a message costs through the library, beside what one writes by hand and beside
//! `std::sync::mpsc`, which keeps no journal: `cargo run --release --example speed`. Three words
//! may follow `--`:
//!
//! - how many messages are passed, 200,000 without the word;
//! - only what has this in its name is measured, as `one thread: mpsc`, and all with an empty
//!   word;
//! - how many rounds there are, eleven without the word. All ways come in turn in each round.
//!
//! A line has a workload, a way, and the median of the rounds in nanoseconds a message, two spaces
//! apart at least. In `one thread` a thread sends and receives in turn; `typed` does that with
//! values of types. `pairs1` does it without a lock, by hand alone, as `cml_bench` does it on a
//! board. So does `cast8`, where eight readers receive each message of one thread. In `pipe2` one
//! thread sends to another, and in `fanin4` four to one. In `token8` and `token63` a token goes
//! round this many threads, and in `server32` and `server128` eight workers serve this many clients.
//! These four take a tenth of the messages, since a thread sleeps and is woken for each.
//!
//! The crate `speed_of_peers` beside this one measures crossbeam-channel and tokio.

mod cast;
mod mailboxes;
mod measure;
mod no_lock;
mod one_thread;
mod queue;
pub mod senders;
pub mod server;
pub mod together;
pub mod token;
mod typed;

pub use measure::Way;

#[allow(dead_code)]
fn main() {
    measure_all(|_, ways| ways.to_vec());
}

/// Measures each workload, in the ways that are chosen by its name and the ways here.
pub fn measure_all(choose: fn(&str, &[Way]) -> Vec<Way>) {
    let asked = measure::Asked::by_words();
    let many = asked.messages;
    let few = many.div_ceil(10);
    let measure = |workload, messages, ways: &[Way]| {
        asked.measure(workload, messages, &choose(workload, ways));
    };
    measure("one thread", many, &one_thread::WAYS);
    measure("typed: a u64", many, &typed::NUMBERS);
    measure("typed: a String of 32 bytes", many, &typed::STRINGS);
    measure("pairs1", many, &no_lock::NUMBERS);
    measure("pairs1_bytes64", many, &no_lock::BYTES);
    measure("cast8", many, &cast::NUMBERS);
    measure("cast8_bytes64", many, &cast::BYTES);
    measure("pipe2", many, &senders::ways::<1>());
    measure("fanin4", many, &senders::ways::<4>());
    measure("token8", few, &token::ways::<8>());
    measure("token63", few, &token::ways::<63>());
    measure("server32", few, &server::ways::<32>());
    measure("server128", few, &server::ways::<128>());
}
