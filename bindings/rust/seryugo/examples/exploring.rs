//! How fast a program is explored. Run it with `--release`.

use seryugo::explore::{self, explore, Strategy};
use seryugo::{MVar, Mailbox, Numbers, OwnedSeat, Switchboard};
use std::future::{poll_fn, Future};
use std::pin::pin;
use std::sync::Arc;
use std::task::{Context, Poll, Wake, Waker};
use std::thread::{self, Thread};
use std::time::Instant;

type Board = Arc<Switchboard<Numbers>>;

fn main() {
    for (name, is_ordered) in [
        ("take the left fork", false),
        ("have an order of forks", true),
    ] {
        let name = format!("three philosophers who {name}");
        let dine = |board: &Board| philosophers(board, is_ordered);
        measure(&name, Strategy::every(), dine);
        measure(&name, Strategy::every_plainly(), dine);
    }
    measure("a ring of three threads, 30 calls", Strategy::random(1), ring);
    measure("the same", Strategy::priorities(1, 3), ring);
    measure("the same", Strategy::every(), ring);
    measure("the ring by futures, a task a thread", Strategy::random(1), ring_of_futures);
    measure("the same", Strategy::every(), ring_of_futures);
    measure("the ring by futures, in one thread", Strategy::random(1), ring_in_one_thread);
    measure("the same", Strategy::every(), ring_in_one_thread);
    for way in [Strategy::every(), Strategy::every_plainly()] {
        measure("two who send four, and one who receives", way, |board| senders(board, 4));
    }
    measure("two who send six, and one who receives", Strategy::every(), |board| senders(board, 6));
    measure_up_to(200_000, "two who send ten", Strategy::every(), |board| senders(board, 10));
    measure("one who multicasts, one who receives, one who closes", Strategy::every(), closer);
}

fn measure(name: &str, way: Strategy, program: impl Fn(&Board)) {
    measure_up_to(20_000, name, way, program);
}

fn measure_up_to(runs: u64, name: &str, way: Strategy, program: impl Fn(&Board)) {
    let start = Instant::now();
    let found = explore(way.clone(), runs, program);
    let time = start.elapsed();
    let each = found.runs() as f64 / time.as_secs_f64();
    let end = found.bad().map_or("no bad end", |_| "a bad end");
    println!(
        "{name}, {way}: {} runs ({} repeats) in {:.1} ms, {each:.0} a second, {end}",
        found.runs(),
        found.repeats(),
        time.as_secs_f64() * 1e3
    );
}

fn philosophers(board: &Board, is_ordered: bool) {
    let mut main = board.seat().unwrap();
    let forks: Vec<MVar<u64>> = (0..3).map(|_| main.mvar_init(0).unwrap()).collect();
    let forks = &forks;
    explore::scope(|threads| {
        for left in 0..3 {
            let (mut first, mut second) = (forks[left], forks[(left + 1) % 3]);
            if is_ordered && left == 2 {
                (first, second) = (second, first);
            }
            let mut seat = board.seat().unwrap();
            threads.spawn(move || {
                seat.take(first).unwrap();
                seat.take(second).unwrap();
                seat.put(second, 0).unwrap();
                seat.put(first, 0).unwrap();
            });
        }
    });
}

/// Each sends to the next, and receives.
fn ring(board: &Board) {
    let mut main = board.seat().unwrap();
    let mailboxes: Vec<Mailbox<u64>> = (0..3).map(|_| main.mailbox().unwrap()).collect();
    let mailboxes = &mailboxes;
    explore::scope(|threads| {
        for own in 0..3 {
            let mut seat = board.seat().unwrap();
            threads.spawn(move || {
                for message in 0..5 {
                    seat.send(mailboxes[(own + 1) % 3], message).unwrap();
                    seat.recv(mailboxes[own]).unwrap();
                }
            });
        }
    });
}

/// A task of the ring.
async fn pass_on(mut seat: OwnedSeat<Numbers>, mailboxes: [Mailbox<u64>; 3], own: usize) {
    for message in 0..5 {
        seat.send(mailboxes[(own + 1) % 3], message).unwrap();
        seat.recv_async(mailboxes[own]).await.unwrap();
    }
}

fn ring_of_futures(board: &Board) {
    let mut main = board.seat().unwrap();
    let mailboxes = [(); 3].map(|()| main.mailbox().unwrap());
    explore::scope(|threads| {
        for own in 0..3 {
            let seat = board.seat_owned().unwrap();
            threads.spawn(move || block_on(pass_on(seat, mailboxes, own)));
        }
    });
}

fn ring_in_one_thread(board: &Board) {
    let mut main = board.seat().unwrap();
    let mailboxes = [(); 3].map(|()| main.mailbox().unwrap());
    let tasks = [0, 1, 2].map(|own| pass_on(board.seat_owned().unwrap(), mailboxes, own));
    let mut tasks: Vec<_> = tasks.into_iter().map(Box::pin).collect();
    block_on(poll_fn(|context| {
        tasks.retain_mut(|task| task.as_mut().poll(context).is_pending());
        match tasks.is_empty() {
            true => Poll::Ready(()),
            false => Poll::Pending,
        }
    }));
}

/// Polls a future until it is done, and sleeps until it is woken.
fn block_on(future: impl Future<Output = ()>) {
    let waker = Waker::from(Arc::new(Unparks(thread::current())));
    let mut context = Context::from_waker(&waker);
    let mut future = pin!(future);
    while future.as_mut().poll(&mut context).is_pending() {
        thread::park();
    }
}

struct Unparks(Thread);

impl Wake for Unparks {
    fn wake(self: Arc<Self>) {
        self.0.unpark();
    }
}

/// Each of two sends this many, and one receives all.
fn senders(board: &Board, count: u64) {
    let mailbox = board.seat().unwrap().mailbox().unwrap();
    explore::scope(|threads| {
        for sender in 0..2 {
            let mut seat = board.seat().unwrap();
            threads.spawn(move || {
                (0..count).for_each(|n| seat.send(mailbox, 10 * sender + n).unwrap());
            });
        }
        let mut seat = board.seat().unwrap();
        threads.spawn(move || {
            for _ in 0..2 * count {
                seat.recv(mailbox).unwrap();
            }
        });
    });
}

/// One multicasts, one receives until the port is closed, and one closes it after some calls of its
/// own: ten calls each.
fn closer(board: &Board) {
    let mut main = board.seat().unwrap();
    let channel = main.channel().unwrap();
    let (port, other) = (main.port(channel).unwrap(), main.mailbox().unwrap());
    let seats = [(); 3].map(|()| board.seat().unwrap());
    let [mut sends, mut receives, mut closes] = seats;
    explore::scope(|threads| {
        threads.spawn(move || (0..10).for_each(|n| sends.multicast(channel, n).unwrap()));
        threads.spawn(move || (0..10).all(|_| receives.recv(port).unwrap().is_some()));
        threads.spawn(move || {
            (0..9).for_each(|n| closes.send(other, n).unwrap());
            closes.close(port).unwrap();
        });
    });
}
