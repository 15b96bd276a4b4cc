//! In which orders an exploration runs a program.

use super::choose::{Chooser, Priorities, Random};
use super::schedule::Schedule;
use super::state::Limits;
use super::tree::Tree;
use std::fmt;
use std::time::Duration;

/// In which orders a program is run, and how far.
///
/// | | runs | finds |
/// |---|---|---|
/// | [`Strategy::every`] | one of all orders that leave the same | every bad end, if the exploration ends |
/// | [`Strategy::random`] | at each step any thread that can go on | most bugs within some hundred runs |
/// | [`Strategy::priorities`] | the thread of the highest priority, which changes a few times | bugs of long runs that need few changes of threads |
/// | [`Strategy::again`] | one schedule | the same end |
///
/// ```
/// use seryugo::explore::Strategy;
/// use std::time::Duration;
///
/// let strategy = Strategy::every().steps(1_000).patience(Duration::from_secs(20));
/// assert_eq!(strategy.to_string(), "every order");
/// assert_eq!(Strategy::random(7).to_string(), "at random, by the seed 7");
/// assert_eq!(Strategy::every().preemptions(2).to_string(), "every order of at most 2 preemptions");
/// ```
#[derive(Clone, Debug)]
#[must_use = "a strategy does nothing before a program is explored by it"]
pub struct Strategy {
    pub(crate) order: Order,
    pub(crate) preemptions: Option<u32>,
    pub(crate) limits: Limits,
    pub(crate) patience: Duration,
}

/// The name that [`Strategy`] had before.
#[deprecated(note = "it is called `Strategy`")]
pub type Way = Strategy;

#[derive(Clone, Debug)]
pub(crate) enum Order {
    Every { sleeps: bool },
    Random(u64),
    Priorities { seed: u64, depth: u64 },
    Again(Schedule),
}

impl Strategy {
    /// Every order. It leaves out orders that leave the same as one that it has run: in them only
    /// steps are exchanged that commute.
    pub fn every() -> Strategy {
        Strategy::of(Order::Every { sleeps: true })
    }

    /// Really every order, also those in which only steps are exchanged that commute.
    pub fn every_plainly() -> Strategy {
        Strategy::of(Order::Every { sleeps: false })
    }

    /// At each step any thread that can go on. Equal seeds give equal runs.
    pub fn random(seed: u64) -> Strategy {
        Strategy::of(Order::Random(seed))
    }

    /// Priorities: the thread of the highest one goes on, and in each run the one that goes on gets
    /// the lowest at `depth - 1` steps. A bug is as deep as the number of orders between two steps
    /// that it needs: most have 1, 2 or 3. Others call this probabilistic concurrency testing.
    ///
    /// A loop that waits for another thread by polls doesn't end so.
    pub fn priorities(seed: u64, depth: u64) -> Strategy {
        Strategy::of(Order::Priorities { seed, depth })
    }

    /// The order of a schedule, which [`Bad::schedule`](super::Bad::schedule) has. Panics are
    /// printed as usual.
    ///
    /// # Panics
    ///
    /// If it isn't a line that a schedule was written as.
    pub fn again(schedule: &str) -> Strategy {
        let Some(read) = Schedule::read(schedule) else {
            panic!("{schedule:?} is no schedule");
        };
        let mut strategy = Strategy::of(Order::Again(read.clone()));
        strategy.limits.tells_stalls = read.tells_stalls;
        strategy.limits.open_waits_stall = read.open_waits_stall;
        strategy.limits.polls_are_steps = read.polls_are_steps;
        strategy.limits.time_outs = read.time_outs;
        strategy
    }

    fn of(order: Order) -> Strategy {
        Strategy {
            order,
            preemptions: None,
            limits: Limits {
                steps: 10_000,
                entries: 1 << 20,
                tells_stalls: false,
                open_waits_stall: false,
                polls_are_steps: false,
                time_outs: 0,
            },
            patience: Duration::from_secs(5),
        }
    }

    /// Every order in which a thread that could go on gives way to another one at most so often.
    /// Most bugs need one or two. It is for [`every`](Strategy::every), and then leaves out no order for
    /// another reason.
    pub fn preemptions(mut self, most: u32) -> Strategy {
        self.preemptions = Some(most);
        self
    }

    /// A run of more steps than this has no end. Until you say it, it is 10,000.
    pub fn steps(mut self, most: u64) -> Strategy {
        self.limits.steps = most;
        self
    }

    /// A run ends as [`End::Full`](super::End::Full) if its journal would have more entries. Until
    /// you say it, it is 2^20.
    pub fn entries(mut self, most: u64) -> Strategy {
        self.limits.entries = most.clamp(1, 1 << 32);
        self
    }

    /// If no thread can go on, and the library would let a call fail with
    /// [`Stalled`](crate::Error::Stalled), one fails so: each in turn. It is for programs whose
    /// receivers end by it.
    ///
    /// Until you say it, such a run ends as [`End::Stalled`](super::End::Stalled).
    pub fn stalls_are_told(mut self) -> Strategy {
        self.limits.tells_stalls = true;
        self
    }

    /// Explores the program on a switchboard of
    /// [`open_waits_stall`](crate::Switchboard::open_waits_stall): a future may fail with
    /// [`Stalled`](crate::Error::Stalled) too.
    pub fn open_waits_stall(mut self) -> Strategy {
        self.limits.open_waits_stall = true;
        self
    }

    /// In a run this many calls with a time limit may fail with
    /// [`TimedOut`](crate::Error::TimedOut) though something else can happen, also if they would be
    /// answered.
    ///
    /// Until you say it, a call's time passes only if no thread can go on.
    pub fn time_outs(mut self, most: u32) -> Strategy {
        self.limits.time_outs = most;
        self
    }

    /// If a thread makes no call for so long, standard error tells of it. Until you say it, it is
    /// five seconds.
    pub fn patience(mut self, patience: Duration) -> Strategy {
        self.patience = patience;
        self
    }

    pub(crate) fn chooser(&self) -> Chooser {
        match &self.order {
            Order::Every { sleeps } => Chooser::Every(Tree::new(*sleeps, self.preemptions)),
            Order::Random(seed) => Chooser::Random(Random::new(*seed)),
            Order::Priorities { seed, depth } => {
                Chooser::Priorities(Priorities::new(*seed, *depth))
            }
            Order::Again(schedule) => Chooser::Given(schedule.clone()),
        }
    }

    /// Every order of at most this many preemptions, within the same limits.
    pub(crate) fn bounded(&self, preemptions: u32) -> Strategy {
        Strategy {
            order: Order::Every { sleeps: false },
            preemptions: Some(preemptions),
            ..self.clone()
        }
    }

    pub(crate) fn is_again(&self) -> bool {
        matches!(self.order, Order::Again(_))
    }
}

impl fmt::Display for Strategy {
    fn fmt(&self, f: &mut fmt::Formatter<'_>) -> fmt::Result {
        match (&self.order, self.preemptions) {
            (Order::Every { .. }, Some(most)) => {
                write!(f, "every order of at most {most} preemptions")
            }
            (Order::Every { .. }, None) => f.write_str("every order"),
            (Order::Random(seed), _) => write!(f, "at random, by the seed {seed}"),
            (Order::Priorities { seed, depth }, _) => {
                write!(f, "by priorities, by the seed {seed}, to the depth {depth}")
            }
            (Order::Again(schedule), _) => write!(f, "the schedule {schedule}"),
        }
    }
}
