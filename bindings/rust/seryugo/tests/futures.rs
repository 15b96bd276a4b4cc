//! Calls as futures, on executors that are written here. If a turn or a wake is lost, a test here
//! doesn't end.

mod common;

use common::{
    block_on, let_them_wait, poll_once, seats, without_a_hang, Board, Mailbox, Random, Seat,
};
use seryugo::{Error, Switchboard};
use std::collections::VecDeque;
use std::future::Future;
use std::pin::{pin, Pin};
use std::sync::atomic::{AtomicU64, Ordering};
use std::sync::{Arc, Condvar, Mutex};
use std::task::{Context, Poll, Wake, Waker};
use std::thread;
use std::time::Duration;

/// Counts how often it is woken.
#[derive(Default)]
struct Count(AtomicU64);

impl Wake for Count {
    fn wake(self: Arc<Self>) {
        self.0.fetch_add(1, Ordering::Relaxed);
    }
}

impl Count {
    fn get(&self) -> u64 {
        self.0.load(Ordering::Relaxed)
    }
}

type Task<'t> = Pin<Box<dyn Future<Output = ()> + Send + 't>>;

/// Tasks by number that are ready to run.
#[derive(Default)]
struct Ready {
    tasks: Mutex<VecDeque<usize>>,
    changed: Condvar,
}

impl Ready {
    fn push(&self, task: usize) {
        self.tasks.lock().unwrap().push_back(task);
        self.changed.notify_one();
    }

    fn pop(&self) -> usize {
        let mut tasks = self.tasks.lock().unwrap();
        loop {
            match tasks.pop_front() {
                Some(task) => return task,
                None => tasks = self.changed.wait(tasks).unwrap(),
            }
        }
    }
}

/// Has a task run again.
struct Again {
    task: usize,
    ready: Arc<Ready>,
}

impl Wake for Again {
    fn wake(self: Arc<Self>) {
        self.ready.push(self.task);
    }
}

/// Runs all these tasks on this thread.
fn run_all(tasks: Vec<Task<'_>>) {
    let ready = Arc::new(Ready::default());
    let mut left = tasks.len();
    let mut tasks: Vec<_> = tasks.into_iter().map(Some).collect();
    (0..left).for_each(|task| ready.push(task));
    while left > 0 {
        let task = ready.pop();
        let again = Waker::from(Arc::new(Again {
            task,
            ready: Arc::clone(&ready),
        }));
        let Some(future) = &mut tasks[task] else {
            continue;
        };
        if future.as_mut().poll(&mut Context::from_waker(&again)).is_ready() {
            tasks[task] = None;
            left -= 1;
        }
    }
}

#[test]
fn each_call_is_a_future() {
    without_a_hang(|| {
        let board = Switchboard::of_numbers(100).unwrap().open_waits_stall();
        let (mut seat, mut other) = (board.seat().unwrap(), board.seat().unwrap());
        let mailbox = seat.mailbox().unwrap();
        let channel = seat.channel().unwrap();
        let port = seat.port(channel).unwrap();
        let (once, often) = (seat.ivar().unwrap(), seat.mvar().unwrap());
        thread::scope(|scope| {
            scope.spawn(move || {
                block_on(async {
                    assert_eq!(seat.recv_async(mailbox).await, Ok(1));
                    assert_eq!(seat.recv_async(port).await, Ok(Some(2)));
                    assert_eq!(seat.get_async(once).await, Ok(3));
                    assert_eq!(seat.swap_async(often, 5).await, Ok(4));
                    assert_eq!(seat.take_async(often).await, Ok(5));
                    assert_eq!(seat.recv_async(port).await, Ok(None));
                    assert_eq!(seat.recv_async(mailbox).await, Err(Error::Stalled));
                });
            });
            other.send(mailbox, 1).unwrap();
            let_them_wait();
            other.multicast(channel, 2).unwrap();
            let_them_wait();
            other.put(once, 3).unwrap();
            let_them_wait();
            other.put(often, 4).unwrap();
            let_them_wait();
            while board.got(port) != Ok(1) {
                thread::yield_now();
            }
            other.close(port).unwrap();
            let_them_wait();
            drop(other);
        });
    });
}

#[test]
fn a_future_may_go_to_another_thread() {
    fn is_send<T: Send>(value: T) -> T {
        value
    }

    without_a_hang(|| {
        let board = Switchboard::of_numbers(100).unwrap();
        let (mut seat, mut other) = (board.seat().unwrap(), board.seat().unwrap());
        let mailbox = seat.mailbox().unwrap();
        let mut future = Box::pin(is_send(seat.recv_async(mailbox)));
        assert_eq!(poll_once(future.as_mut()), Poll::Pending);
        thread::scope(|scope| {
            let received = scope.spawn(move || block_on(future));
            let_them_wait();
            other.send(mailbox, 7).unwrap();
            assert_eq!(received.join().unwrap(), Ok(7));
        });
    });
}

#[test]
fn only_the_last_waker_is_called_and_once() {
    let board = Switchboard::of_numbers(100).unwrap();
    let (mut seat, mut other) = (board.seat().unwrap(), board.seat().unwrap());
    let mailbox = seat.mailbox().unwrap();
    let (first, last) = (Arc::new(Count::default()), Arc::new(Count::default()));
    let (former, latter) = (Waker::from(Arc::clone(&first)), Waker::from(Arc::clone(&last)));
    let mut future = pin!(seat.recv_async(mailbox));
    assert!(future.as_mut().poll(&mut Context::from_waker(&former)).is_pending());
    assert!(future.as_mut().poll(&mut Context::from_waker(&latter)).is_pending());
    assert!(future.as_mut().poll(&mut Context::from_waker(&latter)).is_pending());
    other.send(mailbox, 1).unwrap();
    other.send(mailbox, 2).unwrap();
    assert_eq!((first.get(), last.get()), (0, 1));
    assert_eq!(future.as_mut().poll(&mut Context::from_waker(&latter)), Poll::Ready(Ok(1)));
    drop((former, latter));
    assert_eq!((Arc::strong_count(&first), Arc::strong_count(&last)), (1, 1), "no waker is kept");
}

/// A call that makes all of them due wakes each task, though none of them is polled meanwhile.
#[test]
fn each_task_that_is_due_is_woken() {
    type Event = fn(&Board, Seat<'_>);
    let events: [(Event, Result<u64, Error>); 3] = [
        (|board, mut seat| assert_eq!(seat.put(board.ivar(0).unwrap(), 5), Ok(true)), Ok(5)),
        (
            |board, mut seat| while seat.send(board.mailbox(1).unwrap(), 5).is_ok() {},
            Err(Error::JournalFull),
        ),
        (|_, seat| drop(seat), Err(Error::Stalled)),
    ];
    for (event, expected) in events {
        let board = Switchboard::of_numbers(20).unwrap().open_waits_stall();
        let mut first = board.seat().unwrap();
        let variable = first.ivar().unwrap();
        first.mailbox().unwrap();
        let counts = [(); 4].map(|()| Arc::new(Count::default()));
        let mut seats = seats(&board, 4);
        let mut futures: Vec<_> =
            seats.iter_mut().map(|seat| Box::pin(seat.get_async(variable))).collect();
        for (future, count) in futures.iter_mut().zip(&counts) {
            let waker = Waker::from(Arc::clone(count));
            assert!(future.as_mut().poll(&mut Context::from_waker(&waker)).is_pending());
        }
        event(&board, first);
        assert!(counts.iter().all(|count| count.get() == 1));
        // Once the first is refused as stalled, its seat is free, and could answer the others.
        let answered = if expected == Err(Error::Stalled) {
            1
        } else {
            4
        };
        for (at, future) in futures.iter_mut().enumerate() {
            let polled = poll_once(future.as_mut());
            assert_eq!(
                polled,
                if at < answered {
                    Poll::Ready(expected.clone())
                } else {
                    Poll::Pending
                }
            );
        }
    }
}

/// A thread that waits after tasks is woken, and so is a task after it, though the first tasks
/// aren't polled.
#[test]
fn tasks_that_sleep_on_hold_up_no_thread() {
    without_a_hang(|| {
        let board = Switchboard::of_numbers(100).unwrap();
        let mut first = board.seat().unwrap();
        let variable = first.ivar().unwrap();
        let [mut one, mut two, mut three] = [(); 3].map(|()| board.seat().unwrap());
        let (mut thread, last) = (board.seat().unwrap(), Arc::new(Count::default()));
        let (mut early, mut late) = (pin!(one.get_async(variable)), pin!(two.get_async(variable)));
        assert!(poll_once(early.as_mut()).is_pending() && poll_once(late.as_mut()).is_pending());
        thread::scope(|scope| {
            let read = scope.spawn(move || thread.get(variable));
            let_them_wait();
            let waker = Waker::from(Arc::clone(&last));
            let mut behind = pin!(three.get_async(variable));
            assert!(behind.as_mut().poll(&mut Context::from_waker(&waker)).is_pending());
            first.put(variable, 5).unwrap();
            assert_eq!(read.join().unwrap(), Ok(5));
            assert_eq!(last.get(), 1);
            assert_eq!(poll_once(behind), Poll::Ready(Ok(5)));
        });
        assert_eq!((poll_once(early), poll_once(late)), (Poll::Ready(Ok(5)), Poll::Ready(Ok(5))));
    });
}

#[test]
fn a_dropped_future_does_nothing() {
    let board = Switchboard::of_numbers(100).unwrap();
    let (mut seat, mut other) = (board.seat().unwrap(), board.seat().unwrap());
    let mailbox = seat.mailbox().unwrap();
    let variable = seat.mvar().unwrap();
    let count = Arc::new(Count::default());
    let waker = Waker::from(Arc::clone(&count));
    drop(seat.recv_async(mailbox));
    for _ in 0..3 {
        let mut future = Box::pin(seat.swap_async(variable, 9));
        assert!(future.as_mut().poll(&mut Context::from_waker(&waker)).is_pending());
        drop(future);
    }
    drop(waker);
    assert_eq!(Arc::strong_count(&count), 1, "no waker is kept");
    let entries = board.entries();
    other.put(variable, 1).unwrap();
    assert_eq!((board.entries(), board.held(variable)), (entries + 1, Ok(Some(1))));
    assert_eq!(seat.take(variable), Ok(1));
    assert_eq!(count.get(), 0);
}

/// A future that is due and is never polled again hands its turn on as it is dropped: to a thread,
/// and to another future.
#[test]
fn a_dropped_future_hands_its_turn_on() {
    without_a_hang(|| {
        for _ in 0..200 {
            let board = Switchboard::of_numbers(100).unwrap();
            let mut first = board.seat().unwrap();
            let mailbox = first.mailbox().unwrap();
            let (mut dropped, mut patient, mut last) =
                (board.seat().unwrap(), board.seat().unwrap(), board.seat().unwrap());
            let count = Arc::new(Count::default());
            let waker = Waker::from(Arc::clone(&count));
            let mut future = Box::pin(dropped.recv_async(mailbox));
            let mut other = pin!(last.recv_async(mailbox));
            assert!(poll_once(future.as_mut()).is_pending());
            assert!(other.as_mut().poll(&mut Context::from_waker(&waker)).is_pending());
            first.send(mailbox, 1).unwrap();
            assert_eq!(count.get(), 0);
            drop(future);
            assert_eq!(count.get(), 1, "it is the next that waits");
            assert_eq!(poll_once(other), Poll::Ready(Ok(1)));

            let mut future = Box::pin(dropped.recv_async(mailbox));
            assert!(poll_once(future.as_mut()).is_pending());
            thread::scope(|scope| {
                let received = scope.spawn(move || patient.recv(mailbox));
                let_them_wait();
                first.send(mailbox, 2).unwrap();
                drop(future);
                assert_eq!(received.join().unwrap(), Ok(2));
            });
        }
    });
}

/// What a forgotten future waited for is withdrawn by the next call of its seat, or as the seat
/// leaves.
#[test]
fn a_future_may_be_forgotten() {
    without_a_hang(|| {
        let board = Switchboard::of_numbers(100).unwrap();
        let (mut seat, mut other) = (board.seat().unwrap(), board.seat().unwrap());
        let mailbox = seat.mailbox().unwrap();
        let forget = |seat: &mut Seat<'_>| {
            let mut future = Box::pin(seat.recv_async(mailbox));
            assert!(poll_once(future.as_mut()).is_pending());
            std::mem::forget(future);
        };
        forget(&mut seat);
        assert_eq!(seat.send(mailbox, 5), Ok(()));
        assert_eq!(seat.recv(mailbox), Ok(5));
        forget(&mut seat);
        assert_eq!(seat.recv_timeout(mailbox, Duration::ZERO), Err(Error::TimedOut));
        forget(&mut seat);
        assert_eq!(poll_once(pin!(seat.recv_async(mailbox))), Poll::Pending);
        forget(&mut seat);
        let mut messages = seat.try_iter(mailbox);
        assert_eq!((messages.next(), messages.error()), (None, None));
        forget(&mut seat);
        other.send(mailbox, 6).unwrap();
        drop(seat);
        assert_eq!(other.recv(mailbox), Ok(6));
        assert_eq!(other.recv(mailbox), Err(Error::Stalled));
    });
}

/// Calls from a seat as it is woken: no lock is held then.
struct Calls<'a>(Mutex<Option<(Seat<'a>, Mailbox)>>);

impl Wake for Calls<'static> {
    fn wake(self: Arc<Self>) {
        let (mut seat, mailbox) = self.0.lock().unwrap().take().unwrap();
        seat.send(mailbox, 8).unwrap();
    }
}

#[test]
fn a_waker_may_make_calls() {
    without_a_hang(|| {
        let board: &'static Board = Box::leak(Box::new(Switchboard::of_numbers(100).unwrap()));
        let mut seats = seats(board, 3);
        let mailbox = seats[0].mailbox().unwrap();
        let waker = Waker::from(Arc::new(Calls(Mutex::new(Some((seats.pop().unwrap(), mailbox))))));
        let (mut one, mut two) = (seats.pop().unwrap(), seats.pop().unwrap());
        let mut future = pin!(one.recv_async(mailbox));
        assert!(future.as_mut().poll(&mut Context::from_waker(&waker)).is_pending());
        two.send(mailbox, 7).unwrap();
        assert_eq!(board.owed(mailbox), Ok(2));
        assert_eq!(poll_once(future), Poll::Ready(Ok(7)));
    });
}

/// A token goes round tasks on two threads, and threads that block.
#[test]
fn a_token_goes_round_tasks_and_threads() {
    const SEATS: usize = 24;
    const ROUNDS: u64 = 200;

    without_a_hang(|| {
        let board = Switchboard::of_numbers(1 << 32).unwrap();
        let mut first = board.seat().unwrap();
        let mailboxes: Vec<Mailbox> = (0..SEATS).map(|_| first.mailbox().unwrap()).collect();
        let mailboxes = &mailboxes;
        let mut tasks: [Vec<Task>; 2] = Default::default();
        thread::scope(|scope| {
            for (at, mut seat) in seats(&board, SEATS).into_iter().enumerate() {
                let next = mailboxes[(at + 1) % SEATS];
                if at % 3 == 2 {
                    scope.spawn(move || {
                        for _ in 0..ROUNDS {
                            let token = seat.recv(mailboxes[at]).unwrap();
                            seat.send(next, token + 1).unwrap();
                        }
                    });
                } else {
                    tasks[at % 3].push(Box::pin(async move {
                        for _ in 0..ROUNDS {
                            let token = seat.recv_async(mailboxes[at]).await.unwrap();
                            seat.send(next, token + 1).unwrap();
                        }
                    }));
                }
            }
            for tasks in tasks {
                scope.spawn(move || run_all(tasks));
            }
            first.send(mailboxes[0], 0).unwrap();
        });
        assert_eq!(first.recv_poll(mailboxes[0]), Ok(Some(SEATS as u64 * ROUNDS)));
    });
}

/// Receives until all were received by someone. Futures that aren't ready at once are dropped as
/// often as not.
fn receive_all(
    seat: &mut Seat<'_>,
    mailbox: Mailbox,
    received: &AtomicU64,
    all: u64,
    seed: u64,
) -> u64 {
    let (mut random, mut sum) = (Random::new(seed), 0);
    while received.load(Ordering::Relaxed) < all {
        let message = match random.below(3) {
            0 => seat.recv_timeout(mailbox, Duration::from_micros(random.below(60))).ok(),
            polls => {
                let mut future = pin!(seat.recv_async(mailbox));
                let mut message = None;
                for _ in 0..=polls {
                    if let Poll::Ready(answer) = poll_once(future.as_mut()) {
                        message = Some(answer.unwrap());
                        break;
                    }
                    thread::sleep(Duration::from_micros(random.below(30)));
                }
                message
            }
        };
        if let Some(message) = message {
            sum += message;
            received.fetch_add(1, Ordering::Relaxed);
        }
    }
    sum
}

/// Some send at random times. Of those that receive some drop their futures, some have short
/// limits, and one blocks on a future for each message. Nothing is lost, and each ends.
#[test]
fn futures_are_dropped_while_messages_are_sent() {
    const EACH: u64 = 4_000;
    const BLOCKS: u64 = 1_000;

    without_a_hang(|| {
        let board = &Switchboard::of_numbers(1 << 32).unwrap();
        let mut first = board.seat().unwrap();
        let mailbox = first.mailbox().unwrap();
        let received = &AtomicU64::new(0);
        let (senders, receivers, mut blocks) =
            (seats(board, 3), seats(board, 3), board.seat().unwrap());
        let sum: u64 = thread::scope(|scope| {
            let mut receiving: Vec<_> = (10..)
                .zip(receivers)
                .map(|(seed, mut seat)| {
                    scope.spawn(move || {
                        receive_all(&mut seat, mailbox, received, 3 * EACH - BLOCKS, seed)
                    })
                })
                .collect();
            receiving.push(scope.spawn(move || {
                (0..BLOCKS).map(|_| block_on(blocks.recv_async(mailbox)).unwrap()).sum()
            }));
            for (sender, mut seat) in (0..).zip(senders) {
                scope.spawn(move || {
                    let mut random = Random::new(sender);
                    for n in 0..EACH {
                        seat.send(mailbox, 3 * n + sender).unwrap();
                        if random.below(4) == 0 {
                            thread::sleep(Duration::from_micros(random.below(80)));
                        }
                    }
                });
            }
            receiving.into_iter().map(|thread| thread.join().unwrap()).sum()
        });
        let left: u64 = first.try_iter(mailbox).sum();
        assert_eq!(sum + left, (0..3 * EACH).sum());
    });
}
