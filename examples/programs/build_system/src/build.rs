//! Makes the objects of the switchboard, starts the threads, and waits for the goals.

use crate::console::Console;
use crate::goal::Goal;
use crate::graph::{Graph, Object};
use crate::messages::{Job, Outcome, Verdict};
use crate::runner::{Runner, Settings};
use crate::worker::Worker;
use seryugo::explore::{self, Scope, Thread};
use seryugo::{Channel, Error, IVar, Mailbox, Port, Seat, Switchboard};
use std::fmt;
use std::io;
use std::thread::Builder;

/// An object's thread only waits and asks for a file's time. The memory that it doesn't touch costs nothing.
const GOAL_STACK: usize = 128 << 10;

/// How many objects a graph may have. Linux gives a process 65,530 parts of memory, and a thread takes four. If one is missing, the
/// standard library ends the process.
const MOST_OBJECTS: usize = 10_000;

/// Why the goals have no outcome.
#[derive(Debug)]
pub enum BuildError {
    TooManyObjects(usize),
    /// A call of the library failed.
    Board(Error),
    Thread(io::Error),
    Capture(io::Error),
    Panicked,
}

impl fmt::Display for BuildError {
    fn fmt(&self, f: &mut fmt::Formatter<'_>) -> fmt::Result {
        match self {
            BuildError::TooManyObjects(count) => {
                write!(f, "the goals need {count} objects, and there are threads for {MOST_OBJECTS}")
            }
            BuildError::Board(error) => write!(f, "the switchboard: {error}"),
            BuildError::Thread(error) => write!(f, "no thread was started: {error}"),
            BuildError::Capture(error) => write!(f, "no file for the output of commands: {error}"),
            BuildError::Panicked => f.write_str("a thread panicked"),
        }
    }
}

impl From<Error> for BuildError {
    fn from(error: Error) -> BuildError {
        BuildError::Board(error)
    }
}

/// Makes the goals, and returns the outcome of each, in their order.
pub fn build(graph: &Graph, settings: &Settings, console: &Console) -> Result<Vec<Outcome>, BuildError> {
    if graph.objects.len() > MOST_OBJECTS {
        return Err(BuildError::TooManyObjects(graph.objects.len()));
    }
    let board = Switchboard::new(most_entries(graph, workers_of(graph, settings)))?;
    build_on(&board, graph, settings, console)
}

/// Builds on a new switchboard, which has room for the entries. The tests explore this.
pub fn build_on(
    board: &Switchboard,
    graph: &Graph,
    settings: &Settings,
    console: &Console,
) -> Result<Vec<Outcome>, BuildError> {
    // All seats and ports are there before the first thread starts: no outcome is missed, and no call fails with `Stalled`.
    let mut seat = board.seat()?;
    let wires = Wires::new(&mut seat, graph.objects.len())?;
    let goals = wires.goals(board, &mut seat, graph, settings, console)?;
    let workers = wires.workers(board, graph, settings, console)?;
    let watched = wires.ports(&mut seat, &graph.goals)?;
    explore::scope(|scope| {
        let mut threads = Vec::new();
        let count = workers.len() as u64;
        // If a thread isn't started, its seat leaves, and so does this one. Then the threads that wait fail with `Stalled` and end.
        let started = start_all(scope, goals, workers, &mut threads);
        let outcomes = started.and_then(|()| Ok(watch(seat, &watched, wires.jobs, count)?));
        cause_of(outcomes, threads)
    })
}

/// How many workers there are.
fn workers_of(graph: &Graph, settings: &Settings) -> usize {
    settings.jobs.min(graph.objects.len())
}

/// How many calls are accepted at the most, so that the journal never becomes full.
fn most_entries(graph: &Graph, workers: usize) -> u64 {
    let objects = graph.objects.len();
    // A channel and an i-variable, an outcome, a job that is sent and received, and a verdict that is put and got.
    let of_objects = 7 * objects;
    // A port, and the outcome that is received from it.
    let of_ports = 2 * (graph.edges() + graph.goals.len());
    // The mailbox, and for each worker the end that is sent and received.
    (of_objects + of_ports + 2 * workers + 1) as u64
}

/// What the threads communicate by.
struct Wires {
    /// The channel of each object.
    outcomes: Vec<Channel<Outcome>>,
    /// The i-variable of each object.
    verdicts: Vec<IVar<Verdict>>,
    jobs: Mailbox<Job>,
}

impl Wires {
    fn new(seat: &mut Seat<'_>, objects: usize) -> Result<Wires, Error> {
        Ok(Wires {
            outcomes: (0..objects).map(|_| seat.channel()).collect::<Result<_, _>>()?,
            verdicts: (0..objects).map(|_| seat.ivar()).collect::<Result<_, _>>()?,
            jobs: seat.mailbox()?,
        })
    }

    /// A port of the channel of each of these objects.
    fn ports(&self, seat: &mut Seat<'_>, places: &[usize]) -> Result<Vec<Port<Outcome>>, Error> {
        places.iter().map(|place| seat.port(self.outcomes[*place])).collect()
    }

    fn goals<'a>(
        &self,
        board: &'a Switchboard,
        seat: &mut Seat<'_>,
        graph: &'a Graph,
        settings: &Settings,
        console: &'a Console,
    ) -> Result<Vec<Goal<'a>>, Error> {
        let goal_of = |(place, object): (usize, &'a Object)| {
            Ok(Goal {
                seat: board.seat()?,
                object,
                place,
                prerequisites: self.ports(seat, &object.prerequisites)?,
                outcome: self.outcomes[place],
                jobs: self.jobs,
                verdict: self.verdicts[place],
                console,
                is_dry_run: settings.is_dry_run,
            })
        };
        graph.objects.iter().enumerate().map(goal_of).collect()
    }

    fn workers<'a>(
        &'a self,
        board: &'a Switchboard,
        graph: &'a Graph,
        settings: &'a Settings,
        console: &'a Console,
    ) -> Result<Vec<Worker<'a>>, BuildError> {
        let worker = |_| {
            Ok(Worker {
                seat: board.seat()?,
                jobs: self.jobs,
                objects: &graph.objects,
                verdicts: &self.verdicts,
                runner: Runner::new(settings, console).map_err(BuildError::Capture)?,
            })
        };
        (0..workers_of(graph, settings)).map(worker).collect()
    }
}

type Running<'scope> = Thread<'scope, Result<(), BuildError>>;

/// Starts the threads of the objects, and then the workers. So no command runs before all threads are there.
fn start_all<'scope>(
    scope: Scope<'scope, '_>,
    goals: Vec<Goal<'scope>>,
    workers: Vec<Worker<'scope>>,
    threads: &mut Vec<Running<'scope>>,
) -> Result<(), BuildError> {
    for goal in goals {
        let builder = Builder::new().stack_size(GOAL_STACK);
        threads.push(scope.spawn_as(builder, || Ok(goal.run()?)).map_err(BuildError::Thread)?);
    }
    for worker in workers {
        threads.push(scope.spawn_as(Builder::new(), || Ok(worker.work()?)).map_err(BuildError::Thread)?);
    }
    Ok(())
}

/// Waits for the outcomes of the goals, and sends each worker its end.
fn watch(mut seat: Seat<'_>, goals: &[Port<Outcome>], jobs: Mailbox<Job>, workers: u64) -> Result<Vec<Outcome>, Error> {
    let mut outcomes = Vec::new();
    for port in goals {
        outcomes.push(seat.recv(*port)?.unwrap_or(Outcome::Failed));
    }
    for _ in 0..workers {
        seat.send(jobs, Job::None)?;
    }
    Ok(outcomes)
}

/// Joins the threads. One that fails leaves others stalled, so an error of another kind is the cause.
fn cause_of(outcomes: Result<Vec<Outcome>, BuildError>, threads: Vec<Running<'_>>) -> Result<Vec<Outcome>, BuildError> {
    let (outcomes, mut errors) = match outcomes {
        Ok(outcomes) => (outcomes, Vec::new()),
        Err(error) => (Vec::new(), vec![error]),
    };
    let ended = threads.into_iter().map(|thread| thread.join().unwrap_or(Err(BuildError::Panicked)));
    errors.extend(ended.filter_map(Result::err));
    errors.sort_by_key(|error| matches!(error, BuildError::Board(Error::Stalled)));
    errors.into_iter().next().map_or(Ok(outcomes), Err)
}
