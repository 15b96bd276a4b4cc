//! A thread pool. Its threads apply one function to the jobs that are submitted. The answers come
//! in the order in which they are ready, and `finish` returns them in the order of the jobs.

use crossbeam_channel::{unbounded, Receiver, Sender};
use std::collections::BTreeMap;
use std::panic;
use std::thread::{self, JoinHandle};
use std::time::Duration;

/// What a thread has done.
#[derive(Default)]
struct Done {
    answered: u64,
    panicked: u64,
}

/// Threads that apply one function to jobs.
struct Pool<J, A> {
    threads: Vec<JoinHandle<Done>>,
    jobs: Sender<(u64, J)>,
    answers: Receiver<(u64, Option<A>)>,
    submitted: u64,
    /// The answers that were taken out of turn.
    ready: BTreeMap<u64, Option<A>>,
}

impl<J, A> Pool<J, A>
where
    J: Send + panic::UnwindSafe + 'static,
    A: Send + 'static,
{
    /// A pool of this many threads.
    fn new(count: usize, function: fn(J) -> A) -> Pool<J, A> {
        let (jobs, submitted) = unbounded();
        let (answered, answers) = unbounded();
        let start = |number| {
            let (submitted, answered) = (submitted.clone(), answered.clone());
            let thread = thread::Builder::new().name(format!("worker {number}"));
            thread.spawn(move || work(function, submitted, answered)).expect("a thread")
        };
        Pool {
            threads: (0..count).map(start).collect(),
            jobs,
            answers,
            submitted: 0,
            ready: BTreeMap::new(),
        }
    }

    /// Submits a job, and returns its number.
    fn submit(&mut self, job: J) -> u64 {
        let number = self.submitted;
        self.jobs.send((number, job)).expect("a thread is there");
        self.submitted += 1;
        number
    }

    /// How many jobs wait for a thread.
    fn backlog(&self) -> usize {
        self.jobs.len()
    }

    /// Takes the answers that are ready: how many jobs have one.
    fn poll(&mut self) -> usize {
        while let Ok((number, answer)) = self.answers.try_recv() {
            self.ready.insert(number, answer);
        }
        self.ready.len()
    }

    /// Waits for the answer of a job, and no longer than this for each answer before it.
    fn wait_for(&mut self, job: u64, limit: Duration) -> Option<&Option<A>> {
        while !self.ready.contains_key(&job) {
            let (number, answer) = self.answers.recv_timeout(limit).ok()?;
            self.ready.insert(number, answer);
        }
        self.ready.get(&job)
    }

    /// Waits for all answers, and ends the threads. The answer of a job that panicked is none.
    fn finish(mut self) -> (Vec<Option<A>>, Vec<Done>) {
        drop(self.jobs);
        for (number, answer) in &self.answers {
            self.ready.insert(number, answer);
        }
        let done = self.threads.into_iter().map(|thread| thread.join().unwrap()).collect();
        (self.ready.into_values().collect(), done)
    }
}

/// Answers jobs until nobody submits one more.
fn work<J, A>(
    function: fn(J) -> A,
    jobs: Receiver<(u64, J)>,
    answers: Sender<(u64, Option<A>)>,
) -> Done
where
    J: panic::UnwindSafe,
{
    let mut done = Done::default();
    for (number, job) in &jobs {
        let answer = panic::catch_unwind(|| function(job)).ok();
        match answer {
            Some(_) => done.answered += 1,
            None => done.panicked += 1,
        }
        if answers.send((number, answer)).is_err() {
            break;
        }
    }
    done
}

/// The prime factors of a number. It has none if it is 0, and so this panics.
fn factors(mut number: u64) -> Vec<u64> {
    assert!(number != 0, "0 has no factors");
    let mut factors = Vec::new();
    let mut next = 2;
    while next * next <= number {
        while number % next == 0 {
            factors.push(next);
            number /= next;
        }
        next += 1;
    }
    factors.extend((number > 1).then_some(number));
    factors
}

fn main() {
    panic::set_hook(Box::new(|_| ()));
    let mut pool = Pool::new(4, factors);
    let hard = pool.submit(1_000_003 * 1_000_033);
    for number in 0..2_000 {
        pool.submit(number);
    }
    assert!(pool.poll() <= 2_001 && pool.backlog() <= 2_001);
    match pool.wait_for(hard, Duration::from_secs(60)) {
        Some(Some(factors)) => println!("the hard one is {factors:?}"),
        _ => println!("the hard one takes long"),
    }
    let (answers, done) = pool.finish();
    let primes = answers.iter().flatten().filter(|factors| factors.len() == 1).count();
    let most = answers.iter().flatten().map(Vec::len).max();
    println!("{} jobs, {primes} primes, most factors: {most:?}", answers.len());
    let answered: u64 = done.iter().map(|done| done.answered).sum();
    let panicked: u64 = done.iter().map(|done| done.panicked).sum();
    println!("{} threads answered {answered}, and {panicked} panicked", done.len());
}
