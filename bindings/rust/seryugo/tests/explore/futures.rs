//! Futures in an exploration.

use crate::programs::{seat, Board};
use seryugo::explore::{self, again, explore, End, Found, Strategy};
use seryugo::{Error, MVar, Request, Switchboard};
use std::cell::{Cell, RefCell};
use std::collections::BTreeSet;
use std::future::{poll_fn, Future};
use std::pin::{pin, Pin};
use std::sync::{Arc, Mutex};
use std::task::{Context, Poll, Wake, Waker};
use std::thread::{self, Thread};

struct Unparks(Thread);

impl Wake for Unparks {
    fn wake(self: Arc<Self>) {
        self.0.unpark();
    }
}

/// Polls a future until it is done, and sleeps until it is woken.
fn block_on<T>(future: impl Future<Output = T>) -> T {
    let waker = Waker::from(Arc::new(Unparks(thread::current())));
    let mut context = Context::from_waker(&waker);
    let mut future = pin!(future);
    loop {
        match future.as_mut().poll(&mut context) {
            Poll::Ready(done) => return done,
            Poll::Pending => thread::park(),
        }
    }
}

/// Polls two tasks until this many of them are done. The rest is dropped.
fn together<'t>(
    most: usize,
    one: impl Future<Output = ()> + 't,
    other: impl Future<Output = ()> + 't,
) -> impl Future<Output = ()> + 't {
    let mut tasks: Vec<Pin<Box<dyn Future<Output = ()> + 't>>> =
        vec![Box::pin(one), Box::pin(other)];
    poll_fn(move |context| {
        let mut left = most + tasks.len() - 2;
        tasks.retain_mut(|task| {
            let is_done = left != 0 && task.as_mut().poll(context).is_ready();
            left -= usize::from(is_done);
            !is_done
        });
        if left != 0 {
            return Poll::Pending;
        }
        tasks.clear();
        Poll::Ready(())
    })
}

/// Each way finds that it ends by a panic that says this, and its schedule leads there again.
fn panics(program: impl Fn(&Board), says: &str) -> Found {
    let found = explore(Strategy::every(), 10_000, &program);
    println!("{found}");
    assert_eq!(found.beside(), None);
    for way in [
        Strategy::every(),
        Strategy::every_plainly(),
        Strategy::every().preemptions(2),
        Strategy::random(1),
        Strategy::priorities(1, 3),
    ] {
        let found = explore(way, 10_000, &program);
        let bad = found.bad().unwrap_or_else(|| panic!("{found}"));
        let End::Panicked { message, .. } = bad.end() else {
            panic!("{found}")
        };
        assert!(message.contains(says), "{message}");
        let once_more = again(bad.schedule(), &program);
        let same = once_more.bad().expect("the same");
        assert_eq!((same.end(), same.journal()), (bad.end(), bad.journal()));
    }
    found
}

/// No order ends badly. Returns how many runs were no repeats, and how many there were plainly.
fn clean(program: impl Fn(&Board)) -> (u64, u64) {
    let found = explore(Strategy::every(), 100_000, &program);
    assert!(found.is_clean() && found.is_whole() && found.beside().is_none(), "{found}");
    let plainly = explore(Strategy::every_plainly(), 100_000, &program);
    assert!(plainly.is_clean() && plainly.is_whole(), "{plainly}");
    for way in [Strategy::random(3), Strategy::priorities(3, 3)] {
        let some = explore(way, 300, &program);
        assert!(some.is_clean() && !some.is_whole(), "{some}");
    }
    (found.runs() - found.repeats(), plainly.runs())
}

/// As the philosophers whose calls block.
#[test]
fn one_future_at_a_time_has_the_runs_of_a_call_that_blocks() {
    let dine = |board: &Board| {
        let mut main = seat(board);
        let forks: Vec<MVar<u64>> = (0..3).map(|_| main.mvar_init(0).unwrap()).collect();
        explore::scope(|threads| {
            for left in 0..3 {
                let mut forks = [forks[left], forks[(left + 1) % 3]];
                forks.sort_by_key(|fork| seryugo::Object::number(*fork));
                let mut seat = seat(board);
                threads.spawn(move || {
                    block_on(async {
                        seat.take_async(forks[0]).await.unwrap();
                        seat.take_async(forks[1]).await.unwrap();
                        seat.put(forks[1], 0).unwrap();
                        seat.put(forks[0], 0).unwrap();
                    });
                });
            }
        });
    };
    assert_eq!(clean(dine), (6, 142));
}

#[test]
fn a_lost_update() {
    let program = |board: &Board| {
        let mut main = seat(board);
        let account = main.mvar_init(100).unwrap();
        explore::scope(|threads| {
            for sum in [10, 20] {
                let mut seat = seat(board);
                threads.spawn(move || {
                    block_on(async {
                        let held = seat.get_async(account).await.unwrap();
                        seat.swap_async(account, held + sum).await.unwrap();
                    });
                });
            }
        });
        assert_eq!(main.take(account), Ok(130), "an update is lost");
    };
    let found = panics(program, "an update is lost");
    assert_eq!(found.bad().unwrap().schedule(), "122");
    // A rerun doesn't know futures.
    let reran = found.bad().unwrap().rerun(program).unwrap();
    assert!(!reran.is_followed(), "{reran}");
}

/// Two tasks of one thread: one needs what the other one receives.
fn settings(board: &Board, waits: bool) {
    let mut main = seat(board);
    let (letters, settings) = (main.mailbox().unwrap(), main.mailbox().unwrap());
    let [mut writes, mut sets, mut reads, mut learns] = [(); 4].map(|()| seat(board));
    explore::scope(|threads| {
        threads.spawn(move || writes.send(letters, 5).unwrap());
        threads.spawn(move || sets.send(settings, 7).unwrap());
        threads.spawn(move || {
            let set = Cell::new(None);
            let learn = async { set.set(Some(learns.recv_async(settings).await.unwrap())) };
            let read = async {
                let letter = reads.recv_async(letters).await.unwrap();
                assert_eq!((letter, set.get()), (5, Some(7)), "the letter came first");
            };
            match waits {
                true => block_on(async {
                    learn.await;
                    read.await;
                }),
                false => block_on(together(2, learn, read)),
            }
        });
    });
}

#[test]
fn two_tasks_of_one_thread() {
    let found = panics(|board| settings(board, false), "the letter came first");
    assert!(found.bad().unwrap().schedule().starts_with('*'), "{found}");
}

#[test]
fn two_tasks_one_after_the_other() {
    let (runs, plain_runs) = clean(|board| settings(board, true));
    assert!(runs < plain_runs, "{runs}, {plain_runs}");
}

/// The first of two that is answered. The other one is dropped, and its seat calls again.
#[test]
fn a_future_that_is_dropped() {
    let seen = Mutex::new(BTreeSet::new());
    let program = |board: &Board| {
        let mut main = seat(board);
        let (one, other) = (main.mailbox().unwrap(), main.mailbox().unwrap());
        let [mut sends, mut also_sends, mut a, mut b] = [(); 4].map(|()| seat(board));
        explore::scope(|threads| {
            threads.spawn(move || sends.send(one, 1).unwrap());
            threads.spawn(move || also_sends.send(other, 2).unwrap());
            let first = Cell::new(0);
            block_on(together(1, async { first.set(a.recv_async(one).await.unwrap()) }, async {
                first.set(b.recv_async(other).await.unwrap());
            }));
            let second = match first.get() {
                1 => b.recv(other),
                _ => a.recv(one),
            };
            assert_eq!(first.get() + second.unwrap(), 3);
            seen.lock().unwrap().insert(first.get());
        });
    };
    clean(program);
    assert_eq!(*seen.lock().unwrap(), [1, 2].into());
}

/// A poll finds the message or not.
#[test]
fn a_future_that_is_polled_once() {
    let seen = Mutex::new(BTreeSet::new());
    let program = |board: &Board| {
        let letters = seat(board).mailbox().unwrap();
        let (mut sends, mut polls) = (seat(board), seat(board));
        explore::scope(|threads| {
            threads.spawn(move || sends.send(letters, 1).unwrap());
            let polled = {
                let mut context = Context::from_waker(Waker::noop());
                pin!(polls.recv_async(letters)).poll(&mut context)
            };
            let is_ready = polled == Poll::Ready(Ok(1));
            assert!(is_ready || polls.recv(letters) == Ok(1));
            seen.lock().unwrap().insert(is_ready);
        });
    };
    clean(program);
    assert_eq!(*seen.lock().unwrap(), [false, true].into());
}

/// It lists the calls of both futures.
#[test]
fn two_tasks_that_wait_for_ever() {
    let program = |board: &Board| {
        let mut main = seat(board);
        let (one, other) = (main.mailbox::<u64>().unwrap(), main.mailbox::<u64>().unwrap());
        let (mut a, mut b) = (seat(board), seat(board));
        drop(main);
        block_on(together(2, async { assert_eq!(a.recv_async(one).await, Ok(1)) }, async {
            assert_eq!(b.recv_async(other).await, Err(Error::Stalled));
        }));
    };
    let found = explore(Strategy::every(), 10, program);
    let End::Stalled {
        waits,
        fails_as_stalled,
        ..
    } = found.bad().unwrap().end()
    else {
        panic!("{found}")
    };
    let at: Vec<String> = waits.iter().map(ToString::to_string).collect();
    assert_eq!(at, ["thread 0 (seat 1) at recv 0", "thread 0 (seat 2) at recv 1"]);
    // Something else may end a future. Where nothing does, a call fails.
    assert!(!fails_as_stalled, "{found}");
    let strictly = Strategy::every().open_waits_stall();
    let found = explore(strictly.clone(), 10, program);
    let told = found.bad().unwrap().end().to_string();
    assert!(told.ends_with("one of these calls fails with `Stalled`"), "{told}");
    // If calls are told, each of them fails in turn.
    let told = explore(Strategy::every().stalls_are_told(), 10, program);
    assert!(matches!(told.bad().unwrap().end(), End::Stalled { .. }), "{told}");
    let found = explore(strictly.stalls_are_told(), 10, program);
    let bad = found.bad().unwrap();
    let End::Panicked { message, .. } = bad.end() else {
        panic!("{found}")
    };
    assert!(message.contains("left: Err(Stalled)"), "{message}");
    assert_eq!(again(bad.schedule(), program).bad().unwrap().end(), bad.end());
}

/// One thread waits for two futures, and another one drops one of them.
#[test]
fn a_future_that_two_threads_use() {
    type Slot = Mutex<Option<Pin<Box<dyn Future<Output = ()> + Send>>>>;
    let found = explore(Strategy::every(), 10, |board: &Board| {
        let letters = seat(board).mailbox::<u64>().unwrap();
        let slots: Vec<Slot> = (0..2)
            .map(|_| {
                let mut receives = seat(board);
                let receive = async move { drop(receives.recv_async(letters).await) };
                Mutex::new(Some(Box::pin(receive) as Pin<Box<_>>))
            })
            .collect();
        let poll = |slot: &Slot| {
            let own = slot.lock().unwrap().take();
            let Some(mut own) = own else { return };
            let mut context = Context::from_waker(Waker::noop());
            if own.as_mut().poll(&mut context).is_pending() {
                *slot.lock().unwrap() = Some(own);
            }
        };
        explore::scope(|threads| {
            let mut other = seat(board);
            threads.spawn(|| (0..100).for_each(|_| slots.iter().for_each(poll)));
            let last = &slots[1];
            threads.spawn(move || {
                other.send(letters, 1).unwrap();
                drop(last.lock().unwrap().take());
            });
        });
    });
    let End::UnknownThread(why) = found.bad().unwrap().end() else {
        panic!("{found}")
    };
    assert!(why.contains("is used by two threads"), "{why}");
}

/// What two tasks of one thread do, in their order, while two other threads send and receive.
fn logged(board: &Board) -> Vec<u64> {
    let mut main = seat(board);
    let [one, other, back] = [(); 3].map(|()| main.mailbox().unwrap());
    let [mut sends, mut also_sends, mut a, mut b] = [(); 4].map(|()| seat(board));
    let log = RefCell::new(Vec::new());
    explore::scope(|threads| {
        threads.spawn(move || (1..3).for_each(|letter| sends.send(one, letter).unwrap()));
        threads.spawn(move || {
            also_sends.send(other, 3).unwrap();
            let answer = also_sends.recv_poll(back).unwrap();
            also_sends.send(one, 10 + answer.unwrap_or_default()).unwrap();
        });
        let first = async {
            for _ in 0..2 {
                let letter = a.recv_async(one).await.unwrap();
                log.borrow_mut().push(letter);
                a.send(back, 5).unwrap();
            }
        };
        let second = async {
            let letter = b.recv_async(other).await.unwrap();
            log.borrow_mut().push(letter);
            yields().await;
            log.borrow_mut().push(20);
            let letter = b.recv_async(one).await.unwrap();
            log.borrow_mut().push(letter);
        };
        block_on(together(2, first, second));
    });
    log.into_inner()
}

/// Gives the other task its turn.
async fn yields() {
    let mut has_yielded = false;
    poll_fn(|context| {
        context.waker().wake_by_ref();
        match std::mem::replace(&mut has_yielded, true) {
            true => Poll::Ready(()),
            false => Poll::Pending,
        }
    })
    .await;
}

#[test]
fn runs_of_real_threads_are_among_those_that_are_explored() {
    let seen = Mutex::new(BTreeSet::new());
    let program = |board: &Board| {
        let log = logged(board);
        seen.lock().unwrap().insert(log);
    };
    let found = explore(Strategy::every(), 100_000, program);
    assert!(found.is_clean() && found.is_whole(), "{found}");
    let mut met = BTreeSet::new();
    for _ in 0..1_000 {
        let board = Arc::new(Switchboard::of_numbers(1_000).unwrap());
        met.insert(logged(&board));
    }
    let seen = seen.into_inner().unwrap();
    println!("{} logs in {} runs, of which {} were met", seen.len(), found.runs(), met.len());
    assert!(met.is_subset(&seen), "{:?}", met.difference(&seen).collect::<Vec<_>>());
}

#[test]
fn requests() {
    let program = |board: &Arc<Switchboard>| {
        let mut server = board.seat_owned().unwrap();
        let doubles = server.mailbox::<Request<u64, u64>>().unwrap();
        let mut client = board.seat_owned().unwrap();
        explore::scope(|threads| {
            threads.spawn(move || assert_eq!(block_on(client.request_async(doubles, 4)), Ok(8)));
            threads.spawn(move || {
                let request = block_on(server.recv_async(doubles)).unwrap();
                request.answer_with(&mut server, |question| 2 * question).unwrap();
            });
        });
    };
    let found = explore(Strategy::every(), 1_000, program);
    assert!(found.is_clean() && found.is_whole(), "{found}");
}
