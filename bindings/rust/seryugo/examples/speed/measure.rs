//! Measures several ways of doing a workload, in turn.

use std::time::Duration;

/// A way of passing this many messages, and how long that took.
pub type Way = (&'static str, fn(u64) -> Duration);

/// What the program's words ask for.
pub struct Asked {
    pub messages: u64,
    only: String,
    rounds: usize,
}

impl Asked {
    pub fn by_words() -> Asked {
        let mut words = std::env::args().skip(1);
        Asked {
            messages: words
                .next()
                .map_or(200_000, |word| word.parse().expect("a number of messages")),
            only: words.next().unwrap_or_default(),
            rounds: words.next().map_or(11, |word| word.parse().expect("a number of rounds")),
        }
    }

    /// Prints the nanoseconds that a message takes, a hop of the token, or a request with its
    /// answer, for each way whose name after its workload's has the words in it.
    pub fn measure(&self, workload: &str, messages: u64, ways: &[Way]) {
        let is_asked = |(name, _): &&Way| format!("{workload}: {name}").contains(&self.only);
        let ways: Vec<&Way> = ways.iter().filter(is_asked).collect();
        let mut times = vec![Vec::with_capacity(self.rounds); ways.len()];
        for _ in 0..self.rounds {
            for ((_, pass), times) in ways.iter().zip(&mut times) {
                times.push(pass(messages));
            }
        }
        for ((name, _), times) in ways.iter().zip(times) {
            println!(
                "{workload:<28}  {name:<26}  {:>9.1}",
                median(times).as_nanos() as f64 / messages as f64
            );
        }
    }
}

fn median(mut times: Vec<Duration>) -> Duration {
    times.sort();
    times[times.len() / 2]
}
