//! Random programs whose threads start others, and join some before their end. They are run by
//! threads.

use super::threads::{keep, outcomes};
use super::{call, objects, programs, Board, Objects, Plan};
use crate::explore::choose::{mix, Random};
use crate::explore::strategy::Strategy;
use crate::explore::{scope, Thread};
use crate::message::carries::Numbers;
use crate::seat::owned::OwnedSeat;
use std::sync::Mutex;

/// The thread starts its next one,
const STARTS: u64 = 90;
/// and joins the one that it has started last.
const JOINS: u64 = 91;
const FAMILIES: [&[u64]; 4] = [
    &[0, 2, 4],
    &[11, 12, 13, 14],
    &[5, 6, 7, 10],
    &[15, 17, 18, 20, 24],
];

/// The first thread starts two others, of which the first one starts another.
fn plan(number: u64) -> Plan {
    let mut random = Random::new(mix(number, 17));
    let family = FAMILIES[random.below(FAMILIES.len() as u64) as usize];
    let mut calls = |mut list: Vec<u64>, count: usize| {
        for _ in 0..count {
            let at = random.below(list.len() as u64 + 1) as usize;
            list.insert(at, family[random.below(family.len() as u64) as usize]);
        }
        list
    };
    let joins = if number % 2 == 0 { JOINS } else { STARTS };
    let last = if number % 4 < 2 {
        vec![STARTS, JOINS]
    } else {
        vec![STARTS]
    };
    vec![
        calls(vec![STARTS, joins, STARTS], 2),
        calls(last, 2),
        calls(vec![], 2),
        calls(vec![], 1),
    ]
}

/// What the threads of a run share: their seats are made before.
struct Shared<'p> {
    plan: &'p Plan,
    seats: Vec<Mutex<Option<OwnedSeat<Numbers>>>>,
    of: Objects,
}

/// A thread starts two at the most.
fn run(thread: usize, shared: &Shared<'_>) {
    let mut seat = shared.seats[thread].lock().unwrap().take().unwrap();
    scope(|threads| {
        let mut started = Vec::new();
        let mut next = 2 * thread + 1;
        for (at, kind) in shared.plan[thread].iter().enumerate() {
            match *kind {
                STARTS if next < shared.plan.len().min(2 * thread + 3) => {
                    started.push(threads.spawn(move || run(next, shared)));
                    next += 1;
                }
                STARTS => (),
                JOINS => drop(started.pop().map(Thread::join)),
                kind => call(&mut seat, kind, shared.of, super::message(thread, at)),
            }
        }
    });
}

fn run_plan(board: &Board, plan: &Plan, kept: &Mutex<String>) {
    let of = objects(&mut board.seat_owned().unwrap());
    let seat = |_: &Vec<u64>| Mutex::new(Some(board.seat_owned().unwrap()));
    let shared = Shared {
        plan,
        seats: plan.iter().map(seat).collect(),
        of,
    };
    run(0, &shared);
    keep(board, kept);
}

#[test]
fn threads_that_start_and_join_others_have_all_outcomes() {
    let mut all = (0, 0);
    for number in super::first()..super::first() + programs() / 5 {
        let plan = plan(number);
        let run = |board: &Board, kept: &Mutex<String>| run_plan(board, &plan, kept);
        let (plainly, plain_runs) = outcomes(&Strategy::every_plainly(), &plan, run);
        let (asked, runs) = outcomes(&Strategy::every(), &plan, run);
        assert!(plainly == asked, "program {number}, {plan:?}");
        all = (all.0 + plain_runs, all.1 + runs);
        if number % 100 == 99 {
            println!("the same up to program {number}: {all:?} runs");
        }
    }
    println!("{all:?} runs");
    assert!(all.1 < all.0);
}
