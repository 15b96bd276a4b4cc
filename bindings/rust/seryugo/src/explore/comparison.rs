//! The gate of all that leaves out orders: on random programs it has the same outcomes as a search
//! that leaves out none.
//!
//! An outcome is what each seat has called and was answered, in its order, and how the run ended.
//! `SERYUGO_PROGRAMS=10000 cargo test --release --lib comparison` compares this many programs.

mod few_objects;
mod futures;
mod joins;
mod locks;
mod rings;
mod threads;

use super::board::{sum_of, Pass};
use super::choose::{mix, Random};
use super::end::End;
use super::runs::Explorer;
use super::state::{At, Joins, State};
use super::step::{Step, StepKind};
use super::strategy::Strategy;
use super::worker::Slot;
use crate::calls::Calls;
use crate::message::carries::Numbers;
use crate::message::names::{Channel, IVar, MVar, Mailbox, Object, Port};
use crate::raw::{self, EntrySource, Reader};
use crate::seat::owned::OwnedSeat;
use crate::switchboard::Switchboard;
use few_objects::{FewObjects, FIRST_ON_FEW};
use rings::{Rings, FIRST_RING};
use std::collections::{BTreeMap, BTreeSet};
use std::env;
use std::ops::Range;
use std::sync::Arc;

type Board = Arc<Switchboard<Numbers>>;

const THREADS: usize = 3;
const CALLS: usize = 3;
const PROGRAMS: u64 = 100;
/// Kinds of calls, of which a program has some. Those from `FIRST_LOOK` on are looks.
const KINDS: u64 = 30;
const FIRST_LOOK: u64 = 25;

/// A call of such a kind sets a flag that the threads share beside the board,
const FLAGS: u64 = 100;
/// and one of such a kind is another call if the flag is set.
const BY_FLAG: u64 = 200;
/// The other call: a send.
const OTHER: u64 = 0;

/// What each thread calls.
type Plan = Vec<Vec<u64>>;

/// A program uses few kinds, so that they meet.
fn plan(number: u64) -> Plan {
    let mut random = Random::new(mix(number, 7));
    let kinds: Vec<u64> = (0..4).map(|_| random.below(KINDS)).collect();
    let mut call = || kinds[random.below(4) as usize];
    (0..THREADS).map(|_| (0..CALLS).map(|_| call()).collect()).collect()
}

#[derive(Clone, Copy)]
struct Objects {
    mailbox: Mailbox<u64>,
    channel: Channel<u64>,
    port: Port<u64>,
    other_port: Port<u64>,
    ivar: IVar<u64>,
    empty: MVar<u64>,
    full: MVar<u64>,
}

fn objects(seat: &mut OwnedSeat<Numbers>) -> Objects {
    let channel = seat.channel().unwrap();
    Objects {
        mailbox: seat.mailbox().unwrap(),
        channel,
        port: seat.port(channel).unwrap(),
        other_port: seat.port(channel).unwrap(),
        ivar: seat.ivar().unwrap(),
        empty: seat.mvar().unwrap(),
        full: seat.mvar_init(3).unwrap(),
    }
}

fn call(seat: &mut OwnedSeat<Numbers>, kind: u64, of: Objects, message: u64) {
    match kind {
        0 | 1 => drop(seat.send(of.mailbox, message)),
        2 | 3 => drop(seat.recv(of.mailbox)),
        4 => drop(seat.recv_poll(of.mailbox)),
        5 => drop(seat.put(of.empty, message)),
        6 => drop(seat.take(of.empty)),
        7 => drop(seat.take_poll(of.empty)),
        8 => drop(seat.get(of.empty)),
        9 => drop(seat.get_poll(of.empty)),
        10 => drop(seat.swap(of.empty, message)),
        11 => drop(seat.swap(of.full, message)),
        12 => drop(seat.take(of.full)),
        13 => drop(seat.put(of.full, message)),
        14 => drop(seat.get_poll(of.full)),
        15 | 16 => drop(seat.multicast(of.channel, message)),
        17 => drop(seat.recv(of.port)),
        18 => drop(seat.recv_poll(of.port)),
        19 => drop(seat.recv(of.other_port)),
        20 => drop(seat.close(of.port)),
        21 => drop(seat.put(of.ivar, message)),
        22 => drop(seat.get(of.ivar)),
        23 => drop(seat.port(of.channel)),
        _ => drop(seat.copy(of.port)),
    }
}

/// What a look of this kind sees. It has no entry. A port that is closed is owed nothing.
fn look(board: &Switchboard<Numbers>, kind: u64, of: Objects) -> u64 {
    match kind {
        25 => board.owed(of.mailbox),
        26 => board.owed(of.port),
        27 => board.held(of.empty).map(Option::unwrap_or_default),
        28 => board.is_open(of.port).map(u64::from),
        _ => board.sent(of.channel),
    }
    .unwrap_or(u64::MAX)
}

/// The step that a call of this kind is.
fn step(kind: u64, of: Objects) -> Step {
    let (mailbox, channel) = (of.mailbox.number(), of.channel.number());
    let (port, empty, full) = (of.port.number(), of.empty.number(), of.full.number());
    match kind {
        0 | 1 => StepKind::Send.on(mailbox),
        2 | 3 => StepKind::Recv.on(mailbox),
        4 => StepKind::Poll.on(mailbox),
        5 => StepKind::Put.on(empty),
        6 => StepKind::Take.on(empty),
        7 => StepKind::TakePoll.on(empty),
        8 => StepKind::Get.on(empty),
        9 => StepKind::GetPoll.on(empty),
        10 => StepKind::Swap.on(empty),
        11 => StepKind::Swap.on(full),
        12 => StepKind::Take.on(full),
        13 => StepKind::Put.on(full),
        14 => StepKind::GetPoll.on(full),
        15 | 16 => StepKind::Multicast.on(channel),
        17 => StepKind::Recv.on(port),
        18 => StepKind::Poll.on(port),
        19 => StepKind::Recv.on(of.other_port.number()),
        20 => StepKind::Close.on(port),
        21 => StepKind::Put.on(of.ivar.number()),
        22 => StepKind::Get.on(of.ivar.number()),
        23 => StepKind::Port.on(channel),
        24 => StepKind::Copy.on(port),
        25 => StepKind::Look.on(mailbox),
        26 | 28 => StepKind::Look.on(port),
        27 => StepKind::Look.on(empty),
        _ => StepKind::Look.on(channel),
    }
}

/// A program whose threads are played by one thread, which is fast.
struct Played<'p> {
    plan: &'p Plan,
    is_timed: bool,
    board: Board,
    seats: Vec<OwnedSeat<Numbers>>,
    of: Objects,
    /// What lanes and feeds each thread has, if the program has some.
    rings: Vec<Rings>,
    few_objects: FewObjects,
    /// How many calls each thread has made, and what it has seen.
    made: Vec<usize>,
    seen: Vec<u64>,
    /// The call that each thread is at.
    at: Vec<u64>,
    /// What the threads share beside the board.
    flag: bool,
}

impl Played<'_> {
    fn new(plan: &Plan, is_timed: bool) -> Played<'_> {
        let board = Arc::new(Switchboard::of_numbers(1_000).unwrap());
        let of = objects(&mut board.seat_owned().unwrap());
        Played {
            plan,
            is_timed,
            of,
            rings: rings::of(&board, plan, of),
            few_objects: FewObjects::of(plan),
            seats: plan.iter().map(|_| board.seat_owned().unwrap()).collect(),
            board,
            made: vec![0; plan.len()],
            seen: vec![0; plan.len()],
            at: vec![0; plan.len()],
            flag: false,
        }
    }

    /// A run begins, in which the first thread has started the others.
    fn begin(&self, state: &mut State, run: u64) {
        let slot = Arc::new(Slot::default());
        state.begin(Arc::clone(&self.board) as Arc<dyn super::board::Board>, &slot, run);
        for _ in self.plan {
            state.add(Arc::clone(&slot), 1);
        }
        if !self.rings.is_empty() {
            // In a program of threads the first one opens them, as steps.
            state.chooser.tree_mut().iter_mut().for_each(|tree| tree.ask_for_all());
        }
        state.tasks[0].at = At::Joins(Joins::Scope(1));
    }

    /// Runs it: whether it is done, and not stalled.
    fn run(&mut self, state: &mut State, run: u64) -> bool {
        self.begin(state, run);
        let mut has_come = vec![false; self.plan.len()];
        loop {
            let task = state.pick();
            if task == 0 || state.end.is_some() {
                return state.end.is_none();
            }
            let thread = task - 1;
            if std::mem::replace(&mut has_come[thread], true) {
                let answer = self.go(thread, state.tasks[task].pass);
                if let Some(answer) = answer {
                    state.saw(task, answer);
                }
                let seen =
                    self.few_objects.locks.after(thread, self.made[thread] - 1, self.plan, state);
                self.seen[thread] = mix(self.seen[thread], seen);
            }
            match self.plan[thread].get(self.made[thread]) {
                Some(kind) => {
                    let kind = self.decide(thread, *kind);
                    let seat = self.seats[thread].number();
                    // Every other thread waits with a time limit.
                    let is_timed = self.is_timed && thread % 2 == 0;
                    let step = match self.rings.get(thread) {
                        _ if kind >= FIRST_ON_FEW => self.few_objects.step(thread, kind, self.of),
                        Some(rings) if kind >= FIRST_RING => rings.step(kind),
                        _ => step(kind, self.of),
                    };
                    state.arrive(task, seat, step, is_timed && step.kind != StepKind::Lock);
                }
                None => locks::finish(state, task),
            }
        }
    }

    /// The call that a thread makes next. Some depend on the flag.
    fn decide(&mut self, thread: usize, kind: u64) -> u64 {
        let is_other = kind >= BY_FLAG && self.flag;
        self.at[thread] = if is_other { OTHER } else { kind % FLAGS };
        self.at[thread]
    }

    /// Makes the call that the thread is at. Returns what was answered, if that has no entry.
    fn go(&mut self, thread: usize, pass: Pass) -> Option<u64> {
        let (at, kind) = (self.made[thread], self.at[thread]);
        self.flag |= (FLAGS..BY_FLAG).contains(&self.plan[thread][at]);
        self.made[thread] += 1;
        if pass != Pass::Go {
            self.seen[thread] = mix(self.seen[thread], at as u64 + 1);
        } else if kind >= FIRST_ON_FEW {
            let on = (&self.board, &mut self.seats[thread]);
            let seen = self.few_objects.call(thread, kind, self.of, on);
            self.seen[thread] = mix(self.seen[thread], seen);
        } else if kind >= FIRST_RING {
            let (board, seat) = (&self.board, &mut self.seats[thread]);
            let (saw, seen) = self.rings[thread].call(board, seat, kind, message(thread, at));
            self.seen[thread] = mix(self.seen[thread], seen);
            return saw;
        } else if kind >= FIRST_LOOK {
            self.seen[thread] = mix(self.seen[thread], look(&self.board, kind, self.of));
        } else {
            call(&mut self.seats[thread], kind, self.of, message(thread, at));
        }
        None
    }

    /// What each seat has called and was answered, each thread has seen, and is left, as one number.
    fn outcome(&mut self, is_done: bool) -> u64 {
        let mut callers = BTreeMap::new();
        self.leave();
        let entry = |at| Numbers::entry(&mut self.board.lock().handle, EntrySource::Room, at).ok();
        let entries = (0..).map_while(entry);
        for entry in entries {
            let caller = callers.entry(entry.who).or_default();
            *caller = mix(*caller, mix(sum_of(&entry.call), sum_of(&entry.reply)));
        }
        let callers = callers.iter().map(|(who, sum)| mix(sum_of(who), *sum));
        // Where a port begins is seen by nobody who doesn't receive from it.
        let starts = (self.first_made()..)
            .map_while(|port| raw::read(&mut self.board.lock().handle, Reader::Start, port).ok());
        callers.chain(self.seen.iter().copied()).chain(starts).fold(u64::from(is_done), mix)
    }

    /// Receives what is left.
    fn leave(&mut self) {
        let mut seat = self.board.seat_owned().unwrap();
        for rings in std::mem::take(&mut self.rings) {
            rings.leave(&mut seat);
        }
        while seat.recv_poll(self.of.mailbox).unwrap().is_some() {}
        while seat.recv_poll(self.of.port).unwrap().is_some() {}
        while seat.recv_poll(self.of.other_port).unwrap().is_some() {}
        for variable in [self.of.empty, self.of.full] {
            seat.get_poll(variable).unwrap();
        }
        seat.get_poll(self.of.ivar).unwrap();
    }

    /// The number of the first object that a thread makes.
    fn first_made(&self) -> u64 {
        self.of.full.number() + 1
    }
}

fn message(thread: usize, at: usize) -> u64 {
    (10 * thread + at + 100) as u64
}

/// The outcomes of all runs, and how many runs there were.
fn outcomes(strategy: &Strategy, plan: &Plan, is_timed: bool) -> (BTreeSet<u64>, u64) {
    let (outcomes, runs, beside) = all_outcomes(strategy, plan, is_timed);
    assert_eq!(beside, None, "{plan:?}");
    (outcomes, runs)
}

/// The same, and why something beside the board decides.
fn all_outcomes(
    strategy: &Strategy,
    plan: &Plan,
    is_timed: bool,
) -> (BTreeSet<u64>, u64, Option<String>) {
    let mut state = State::new(strategy.chooser(), strategy.limits);
    let mut outcomes = BTreeSet::new();
    for number in 0.. {
        let mut played = Played::new(plan, is_timed);
        let is_done = played.run(&mut state, number);
        outcomes.insert(played.outcome(is_done));
        if !state.chooser.next_run() {
            return (outcomes, number + 1, state.beside);
        }
    }
    unreachable!("there are fewer runs than numbers")
}

/// Compares programs with these numbers: how many runs there were, plainly and not.
fn compare(
    numbers: Range<u64>,
    plan: impl Fn(u64) -> Plan,
    is_timed: bool,
    change: impl Fn(Strategy) -> Strategy,
) -> (u64, u64) {
    let mut all = (0, 0);
    for number in numbers {
        let plan = plan(number);
        let (plainly, plain_runs) = outcomes(&change(Strategy::every_plainly()), &plan, is_timed);
        let (slept, runs) = outcomes(&change(Strategy::every()), &plan, is_timed);
        let both = plainly.intersection(&slept).count();
        assert!(
            plainly == slept,
            "program {number}, {plan:?}: {} outcomes and {}, of which {both} are the same",
            plainly.len(),
            slept.len()
        );
        all = (all.0 + plain_runs, all.1 + runs);
        if number % 500 == 499 {
            println!("the same up to program {number}: {all:?} runs");
        }
    }
    all
}

/// Where the numbers of the programs begin.
fn first() -> u64 {
    env::var("SERYUGO_FIRST").map_or(0, |first| first.parse().unwrap())
}

fn programs() -> u64 {
    env::var("SERYUGO_PROGRAMS").map_or(PROGRAMS, |count| count.parse().unwrap())
}

#[test]
fn every_leaves_out_no_outcome() {
    let count = programs();
    let (plain, slept) = compare(first()..first() + count, plan, false, |strategy| strategy);
    println!("{count} programs: {plain} runs of every order, and {slept} of those that differ");
    assert!(slept < plain);
}

#[test]
fn nor_if_calls_meet_more() {
    let numbers = 400_000 + first()..400_000 + first() + programs() / 4;
    let (plain, slept) = compare(numbers.clone(), few_objects::plan, false, |strategy| strategy);
    println!("{plain} runs of every order, and {slept} of those that differ");
    assert!(slept < plain);
    let (plain, slept) = compare(numbers, few_objects::plan, true, |strategy| strategy);
    assert!(slept < plain);
}

#[test]
fn nor_if_calls_end_by_a_time_limit_or_as_stalled() {
    let numbers = 100_000 + first()..100_000 + first() + programs() / 4;
    let (plain, slept) = compare(numbers.clone(), plan, true, |strategy| strategy);
    assert!(slept < plain);
    let (plain, slept) = compare(numbers, plan, false, Strategy::stalls_are_told);
    assert!(slept < plain);
}

#[test]
fn nor_if_a_time_limit_passes_early() {
    let numbers = 500_000 + first()..500_000 + first() + programs() / 4;
    let (plain, slept) = compare(numbers, plan, true, |strategy| strategy.time_outs(1));
    println!("{plain} runs of every order, and {slept} of those that differ");
    assert!(slept < plain);
}

#[test]
fn nor_with_lanes_and_feeds() {
    let numbers = 300_000 + first()..300_000 + first() + programs() / 12;
    let (plain, slept) = compare(numbers.clone(), rings::plan, false, |strategy| strategy);
    println!("{plain} runs of every order, and {slept} of those that differ");
    assert!(slept < plain);
    let (plain, slept) = compare(numbers.clone(), rings::plan, true, |strategy| strategy);
    assert!(slept < plain);
    let (plain, slept) = compare(numbers, rings::plan, false, Strategy::stalls_are_told);
    assert!(slept < plain);
}

/// A call whose time passes has no entry, and so no message that is known.
#[test]
fn a_call_whose_time_passes_is_no_other_call() {
    let plan = vec![vec![11, 11, 12], vec![18, 12, 4], vec![18, 11, 12]];
    let (plainly, _) = outcomes(&Strategy::every_plainly(), &plan, true);
    let (slept, _) = outcomes(&Strategy::every(), &plan, true);
    assert_eq!(plainly, slept);
}

/// Of programs that share a flag beside the board, and of which `every` leaves out an outcome,
/// most are seen to share something.
#[test]
fn what_threads_share_beside_the_board_is_mostly_seen() {
    let (mut differ, mut unseen) = (0, 0);
    for number in 200_000..200_000 + programs() / 2 {
        let mut plan = plan(number);
        let mut random = Random::new(number);
        for thread in [0, 1] {
            plan[thread][random.below(CALLS as u64) as usize] += FLAGS * (thread as u64 + 1);
        }
        let (plainly, ..) = all_outcomes(&Strategy::every_plainly(), &plan, false);
        let (slept, _, beside) = all_outcomes(&Strategy::every(), &plan, false);
        differ += u64::from(plainly != slept);
        unseen += u64::from(plainly != slept && beside.is_none());
    }
    println!("{differ} programs lose an outcome, of which {unseen} aren't seen");
    assert!(differ > 0 && 10 * unseen <= differ, "{unseen} of {differ}");
}

/// Threads have as many runs, and end as often by a stall, as if one thread plays them.
#[test]
fn threads_do_as_they_are_played() {
    let count = programs() / 20;
    for plan in (0..count).map(plan).chain((0..count).map(rings::plan)) {
        let mut state = State::new(Strategy::every().chooser(), Strategy::every().limits);
        let explorer = Explorer::new(Strategy::every());
        let program = |board: &Board| run_threads(board, &plan);
        for run in 0.. {
            let is_done = Played::new(&plan, false).run(&mut state, run);
            let end = explorer.run(run, &program).end;
            assert_eq!(matches!(end, End::Done), is_done, "{plan:?}, run {run}: {end}");
            assert_eq!(explorer.schedule(), state.schedule(), "{plan:?}, run {run}");
            let is_last = !state.chooser.next_run();
            assert_eq!(explorer.next_run(), !is_last, "{plan:?}, run {run}");
            if is_last {
                break;
            }
        }
    }
}

fn run_threads(board: &Board, plan: &Plan) {
    let of = objects(&mut board.seat_owned().unwrap());
    let mut rings: Vec<_> = rings::of(board, plan, of).into_iter().map(Some).collect();
    rings.resize_with(plan.len(), || None);
    super::scope(|threads| {
        for (thread, (calls, rings)) in plan.iter().zip(&mut rings).enumerate() {
            let mut seat = board.seat_owned().unwrap();
            threads.spawn(move || {
                for (at, kind) in calls.iter().enumerate() {
                    match rings {
                        Some(rings) if *kind >= FIRST_RING => {
                            rings.call(board, &mut seat, *kind, message(thread, at));
                        }
                        _ if *kind >= FIRST_LOOK => drop(look(board, *kind, of)),
                        _ => call(&mut seat, *kind, of, message(thread, at)),
                    }
                }
            });
        }
    });
}
