//! Random programs of futures, run by threads.

use super::threads::{keep, outcomes};
use super::{programs, Board};
use crate::explore::choose::{mix, Random};
use crate::explore::scope;
use crate::explore::strategy::Strategy;
use crate::explore::tree::CHECKS;
use crate::message::carries::Numbers;
use crate::message::names::{MVar, Mailbox};
use crate::seat::owned::OwnedSeat;
use std::future::{poll_fn, Future};
use std::pin::{pin, Pin};
use std::sync::{Arc, Mutex};
use std::task::{Context, Poll, Wake, Waker};
use std::thread::{self, Thread};

struct Unparks(Thread);

impl Wake for Unparks {
    fn wake(self: Arc<Self>) {
        self.0.unpark();
    }
}

fn block_on<T>(future: impl Future<Output = T>) -> T {
    let waker = Waker::from(Arc::new(Unparks(thread::current())));
    let mut context = Context::from_waker(&waker);
    let mut future = pin!(future);
    loop {
        if let Poll::Ready(done) = future.as_mut().poll(&mut context) {
            return done;
        }
        thread::park();
    }
}

type Task<'t> = Pin<Box<dyn Future<Output = ()> + 't>>;

/// Polls each in turn until this many are done. The others are dropped.
fn run(mut tasks: Vec<Task<'_>>, most: usize) -> impl Future<Output = ()> + use<'_> {
    let mut done = 0;
    poll_fn(move |context| {
        tasks.retain_mut(|task| {
            let is_ready = done < most && task.as_mut().poll(context).is_ready();
            done += usize::from(is_ready);
            !is_ready
        });
        if done < most {
            return Poll::Pending;
        }
        tasks.clear();
        Poll::Ready(())
    })
}

/// Gives the others of its thread their turn.
async fn yields() {
    let mut has_yielded = false;
    poll_fn(|context| {
        context.waker().wake_by_ref();
        match std::mem::replace(&mut has_yielded, true) {
            true => Poll::Ready(()),
            false => Poll::Pending,
        }
    })
    .await;
}

#[derive(Clone, Copy)]
struct Objects {
    one: Mailbox<u64>,
    other: Mailbox<u64>,
    variable: MVar<u64>,
}

/// Those before this one have one future at a time.
const FIRST_OF_SEVERAL: u64 = 6;
const KINDS: u64 = 14;

/// What a thread with two seats does.
fn act(kind: u64, seats: &mut [OwnedSeat<Numbers>; 2], of: Objects, number: u64) {
    let [a, b] = &mut *seats;
    match kind {
        0 => drop(a.send(of.one, number)),
        1 => drop(a.send(of.other, number)),
        2 => drop(a.put(of.variable, number)),
        3 => drop(block_on(a.recv_async(of.one))),
        4 => drop(block_on(a.take_async(of.variable))),
        5 => drop(block_on(b.swap_async(of.variable, number))),
        6 => drop(a.recv_poll(of.one)),
        // Polled once, and dropped.
        7 => {
            let mut context = Context::from_waker(Waker::noop());
            let _ = pin!(a.recv_async(of.one)).poll(&mut context);
        }
        _ => act_by_two(kind, seats, of, number),
    }
}

/// What two tasks of a thread do.
fn act_by_two(kind: u64, seats: &mut [OwnedSeat<Numbers>; 2], of: Objects, number: u64) {
    let [a, b] = seats;
    let first = async move {
        if kind >= 12 {
            yields().await;
        }
        drop(a.recv_async(of.one).await);
        if kind % 2 == 1 {
            drop(a.send(of.other, number));
        }
    };
    let second = async move {
        match kind {
            8 | 9 => drop(b.recv_async(of.other).await),
            10 | 11 => drop(b.take_async(of.variable).await),
            _ => {
                drop(b.send(of.one, number + 1));
                yields().await;
                drop(b.put(of.variable, number));
            }
        }
    };
    let most = if kind % 4 < 2 { 2 } else { 1 };
    block_on(run(vec![Box::pin(first), Box::pin(second)], most));
}

/// What each of two threads does, and a third one.
fn plan(number: u64, kinds: u64) -> Vec<Vec<u64>> {
    let mut random = Random::new(mix(number, 13));
    let mut some = |count| (0..count).map(|_| random.below(kinds)).collect();
    vec![some(2), some(2), some(1)]
}

/// Runs a plan, and keeps the journal if no thread is left waiting.
fn run_plan(board: &Board, plan: &[Vec<u64>], kept: &Mutex<String>) {
    let mut main = board.seat_owned().unwrap();
    let of = Objects {
        one: main.mailbox().unwrap(),
        other: main.mailbox().unwrap(),
        variable: main.mvar_init(7).unwrap(),
    };
    scope(|threads| {
        for (thread, kinds) in plan.iter().enumerate() {
            let mut seats = [board.seat_owned().unwrap(), board.seat_owned().unwrap()];
            threads.spawn(move || {
                for (at, kind) in kinds.iter().enumerate() {
                    act(*kind, &mut seats, of, (10 * thread + 2 * at) as u64);
                }
            });
        }
    });
    keep(board, kept);
}

#[test]
fn futures_have_the_outcomes_of_every_order() {
    let mut all = (0, 0);
    let count = programs() / 10;
    for number in 0..count {
        let plan = plan(number, KINDS);
        let change = match number % 2 {
            0 => |strategy| strategy,
            _ => Strategy::stalls_are_told,
        };
        let run = |board: &Board, kept: &Mutex<String>| run_plan(board, &plan, kept);
        let (plainly, plain_runs) = outcomes(&change(Strategy::every_plainly()), &plan, run);
        let (slept, runs) = outcomes(&change(Strategy::every()), &plan, run);
        assert_eq!(plainly, slept, "program {number}, {plan:?}");
        all = (all.0 + plain_runs, all.1 + runs);
        if number % 50 == 49 {
            println!("the same up to program {number}: {all:?} runs");
        }
    }
    println!("{all:?} runs");
    assert!(all.1 < all.0);
}

#[test]
fn a_future_at_a_time_waits_as_a_call() {
    for number in 0..programs() / 10 {
        let plan = plan(number, FIRST_OF_SEVERAL);
        let run = |board: &Board, kept: &Mutex<String>| run_plan(board, &plan, kept);
        let (waits, runs) = outcomes(&Strategy::every(), &plan, run);
        let mut strategy = Strategy::every();
        strategy.limits.polls_are_steps = true;
        let (polled, polled_runs) = outcomes(&strategy, &plan, run);
        assert_eq!(waits, polled, "program {number}, {plan:?}");
        assert!(runs <= polled_runs + CHECKS);
    }
}
