//! What the example `speed` of the crate seryugo measures, with the same words, by the channels of
//! crossbeam and of tokio. None of these keeps a journal. Under tokio a task takes the place of a
//! thread. It is a program of its own, so that it changes nothing in what the example compiles to.

mod crossbeam;
mod seats_on_tokio;
mod tokio_tasks;

#[path = "../../seryugo/examples/speed/main.rs"]
mod speed;

use speed::Way;

fn main() {
    speed::measure_all(|workload, _| peers(workload));
}

/// How the peers do a workload.
fn peers(workload: &str) -> Vec<Way> {
    let ways: &[Way] = match workload {
        "one thread" => &[
            ("crossbeam", crossbeam::one_thread),
            ("tokio", tokio_tasks::one_task),
        ],
        "pipe2" => &senders::<1>(),
        "fanin4" => &senders::<4>(),
        "token8" => &tokens::<8>(),
        "token63" => &tokens::<63>(),
        "server32" => &servers::<32>(),
        "server128" => &servers::<128>(),
        _ => &[],
    };
    ways.to_vec()
}

fn senders<const SENDERS: u64>() -> [Way; 2] {
    [
        ("crossbeam", crossbeam::senders::<SENDERS>),
        ("tokio", tokio_tasks::senders::<SENDERS>),
    ]
}

fn tokens<const THREADS: usize>() -> [Way; 3] {
    [
        ("crossbeam", crossbeam::token::<THREADS>),
        ("tokio", tokio_tasks::token::<THREADS>),
        ("seats on tokio", seats_on_tokio::token::<THREADS>),
    ]
}

fn servers<const CLIENTS: usize>() -> [Way; 3] {
    [
        ("crossbeam", crossbeam::server::<CLIENTS>),
        ("tokio", tokio_tasks::server::<CLIENTS>),
        ("seats on tokio", seats_on_tokio::server::<CLIENTS>),
    ]
}
