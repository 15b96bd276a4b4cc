//! Random programs whose threads have locks over calls, and wait for a condition.

use super::{compare, first, programs, Plan};
use crate::explore::choose::{mix, Random};
use crate::explore::state::State;
use crate::explore::step::{Step, StepKind};
use crate::explore::strategy::Strategy;

/// The steps of this file are the kinds from this one on.
pub(super) const FIRST_LOCK: u64 = 60;

/// A thread has the one lock, or the other, over its next call, or over two.
const ONE: u64 = 60;
const OTHER: u64 = 61;
const ONE_FOR_TWO: u64 = 62;
const OTHER_FOR_TWO: u64 = 63;
const AWAIT: u64 = 64;
const RELOCK: u64 = 65;
const NOTIFY_ONE: u64 = 66;
const NOTIFY_ALL: u64 = 67;
/// These three: it takes the one lock, waits for the condition, and takes the lock again.
const WAITS: u64 = 68;

/// The numbers of the locks, and of the condition.
const NUMBERS: [u64; 3] = [1_000, 1_001, 1_002];

const FAMILIES: [&[u64]; 8] = [
    &[ONE, OTHER, 0, 2],
    &[ONE, OTHER, ONE_FOR_TWO, OTHER_FOR_TWO],
    &[ONE_FOR_TWO, OTHER, 5, 6, 7],
    &[ONE_FOR_TWO, 15, 17, 18, 20],
    &[ONE_FOR_TWO, 11, 12, 27, 51],
    &[WAITS, NOTIFY_ONE, ONE],
    &[WAITS, NOTIFY_ONE, NOTIFY_ALL, 0, 2],
    &[WAITS, ONE, OTHER_FOR_TWO, NOTIFY_ONE, 5, 6],
];

/// How many calls each thread has.
const SHAPES: [&[usize]; 4] = [&[3, 3], &[2, 2, 2], &[4, 3], &[3, 2, 2]];

fn plan(number: u64) -> Plan {
    let mut random = Random::new(mix(number, 19));
    let mut one_of = |count: usize| random.below(count as u64) as usize;
    let shape = SHAPES[one_of(SHAPES.len())];
    let family = FAMILIES[one_of(FAMILIES.len())];
    let mut calls = |count: &usize| {
        let mut list = Vec::new();
        while list.len() < *count {
            match family[one_of(family.len())] {
                WAITS => list.extend([ONE, AWAIT, RELOCK]),
                kind => list.push(kind),
            }
        }
        list
    };
    shape.iter().map(&mut calls).collect()
}

/// The step that this kind is.
pub(super) fn step(kind: u64) -> Step {
    let [one, other, condition] = NUMBERS;
    match kind {
        ONE | ONE_FOR_TWO => StepKind::Lock.on(one),
        OTHER | OTHER_FOR_TWO => StepKind::Lock.on(other),
        AWAIT => StepKind::Await.on(condition),
        RELOCK => StepKind::Relock.on(one),
        NOTIFY_ONE => StepKind::NotifyOne.on(condition),
        _ => StepKind::NotifyAll.on(condition),
    }
}

/// Over how many steps a thread has the lock of this kind.
fn steps(kind: u64) -> Option<usize> {
    match kind {
        ONE | OTHER | RELOCK => Some(1),
        ONE_FOR_TWO | OTHER_FOR_TWO => Some(2),
        _ => None,
    }
}

/// What is behind each lock: who has had it.
#[derive(Default)]
pub(super) struct Values([u64; 2]);

impl Values {
    /// A thread has made the step at this place. It lets locks go. Returns what it saw.
    pub fn after(&mut self, thread: usize, at: usize, plan: &Plan, state: &mut State) -> u64 {
        let plan = &plan[thread];
        let mut seen = 0;
        if steps(plan[at]).is_some() {
            let value = &mut self.0[(step(plan[at]).object - NUMBERS[0]) as usize];
            seen = *value;
            *value = mix(*value, thread as u64 + 1);
        }
        for (place, kind) in plan.iter().enumerate().take(at) {
            if steps(*kind).is_some_and(|steps| place + steps == at) {
                state.release(thread + 1, step(*kind).object);
            }
        }
        seen
    }
}

/// A thread is at its end, and has no lock any more.
pub(super) fn finish(state: &mut State, task: usize) {
    for lock in NUMBERS {
        state.release(task, lock);
    }
    state.finish(task);
}

#[test]
fn nor_with_locks_and_conditions() {
    let numbers = 600_000 + first()..600_000 + first() + programs() / 3;
    let (plain, slept) = compare(numbers.clone(), plan, false, |strategy| strategy);
    println!("{plain} runs of every order, and {slept} of those that differ");
    assert!(slept < plain);
    let (plain, slept) = compare(numbers.clone(), plan, true, |strategy| strategy);
    assert!(slept < plain);
    let (plain, slept) = compare(numbers, plan, false, Strategy::stalls_are_told);
    assert!(slept < plain);
}
