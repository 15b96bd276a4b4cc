//! Programs whose threads have locks over calls, and wait for conditions.

use crate::bugs::{found, panics};
use crate::clean::clean;
use crate::programs::{seat, Board};
use seryugo::explore::{explore, scope, Condition, End, Lock, Shared, Strategy};
use std::thread;
use std::time::Duration;

const LONG: Duration = Duration::from_secs(3_600);

/// Each thread makes a call while it has the one lock, and then takes the other one.
fn two_locks(board: &Board, is_ordered: bool) {
    let (left, right) = (Lock::new(0), Lock::new(0));
    let letters = seat(board).mailbox().unwrap();
    scope(|threads| {
        for is_turned in [false, !is_ordered] {
            let mut seat = seat(board);
            let (first, second) = if is_turned {
                (&right, &left)
            } else {
                (&left, &right)
            };
            threads.spawn(move || {
                let mut first = first.lock();
                seat.send(letters, 1).unwrap();
                *second.lock() += 1;
                *first += 1;
            });
        }
    });
    assert_eq!((left.into_inner(), right.into_inner()), (2, 2));
}

#[test]
fn two_locks_in_both_orders_are_named() {
    let found = found(|board| two_locks(board, false));
    let bad = found.bad().unwrap();
    let End::Stalled {
        waits,
        fails_as_stalled,
        ..
    } = bad.end()
    else {
        panic!("{found}")
    };
    let at: Vec<&str> = waits.iter().filter_map(|waits| waits.call.as_deref()).collect();
    let [first, second] = at[..] else {
        panic!("{at:?}")
    };
    for (at, lock, holder) in [(first, 2, 2), (second, 1, 1)] {
        assert!(at.starts_with(&format!("lock {lock} of {}:", file!())), "{at}");
        assert!(at.ends_with(&format!(", which thread {holder} has")), "{at}");
    }
    assert!(!fails_as_stalled, "{found}");
    assert_eq!(bad.schedule(), "112");
}

#[test]
fn two_locks_in_one_order() {
    clean(|board| two_locks(board, true), 7, 5, 2);
}

/// Two threads pay in while they have a lock: over both calls, or over each.
fn bank(board: &Board, is_over_both: bool) {
    let mut main = seat(board);
    let account = main.mvar_init(100).unwrap();
    let lock = Lock::default();
    scope(|threads| {
        for sum in [10, 20] {
            let (mut seat, lock) = (seat(board), &lock);
            threads.spawn(move || {
                let mut guard: seryugo::explore::Guard<'_, ()> = lock.lock();
                let held = seat.get(account).unwrap();
                if !is_over_both {
                    drop(guard);
                    guard = lock.lock();
                }
                seat.swap(account, held + sum).unwrap();
                drop(guard);
            });
        }
    });
    assert_eq!(main.take(account).unwrap(), 130, "a payment is lost");
}

#[test]
fn what_is_read_and_written_with_a_lock_between_is_lost() {
    panics(|board| bank(board, false), "a payment is lost");
}

#[test]
fn what_is_read_and_written_under_one_lock_is_kept() {
    clean(|board| bank(board, true), 7, 5, 2);
}

/// Two send while they have a lock, and the third one elsewhere.
#[test]
fn what_is_done_under_a_lock_races_with_nobody_who_waits_for_it() {
    let program = |board: &Board| {
        let lock = Lock::new(());
        let mut main = seat(board);
        let letters: [_; 2] = [(); 2].map(|()| main.mailbox().unwrap());
        scope(|threads| {
            for to in [0, 0, 1] {
                let (mut seat, lock) = (seat(board), &lock);
                threads.spawn(move || {
                    let _guard = (to == 0).then(|| lock.lock());
                    (0..2).for_each(|letter| seat.send(letters[to], letter).unwrap());
                });
            }
        });
    };
    clean(program, 7, 5, 56);
}

/// The same with a value beside the board.
#[test]
fn a_value_that_is_read_and_written_with_a_lock_between_is_lost() {
    let program = |_: &Board| {
        let count = Lock::new(0);
        scope(|threads| {
            for _ in 0..2 {
                threads.spawn(|| {
                    let seen = *count.lock();
                    *count.lock() = seen + 1;
                });
            }
        });
        assert_eq!(count.into_inner(), 2, "an update is lost");
    };
    panics(program, "an update is lost");
}

#[test]
fn a_thread_that_takes_its_lock_twice() {
    let found = found(|_| {
        let lock = Lock::new(());
        let _guard = lock.lock();
        drop(lock.lock());
    });
    assert!(found.to_string().contains("which thread 0 has"), "{found}");
}

/// One waits until the other has come, which says so. It may look without the lock first.
fn meets(is_careless: bool) {
    let (has_come, comes) = (Lock::new(false), Condition::new());
    scope(|threads| {
        threads.spawn(|| {
            if is_careless && *has_come.lock() {
                return;
            }
            let mut may_wait = is_careless;
            let holds = |has_come: &mut bool| !*has_come || std::mem::take(&mut may_wait);
            drop(comes.wait_while(has_come.lock(), holds));
        });
        threads.spawn(|| {
            *has_come.lock() = true;
            comes.notify_all();
        });
    });
}

#[test]
fn a_notification_comes_before_the_wait() {
    let found = found(|_| meets(true));
    assert!(found.to_string().contains("thread 1 at condition 2 of"), "{found}");
}

#[test]
fn a_wait_under_the_lock_misses_no_notification() {
    clean(|_| meets(false), 3, 1, 3);
}

/// Two wait for a number each, and are notified by one condition.
fn wakes(notify: impl Fn(&Condition) + Sync) {
    let (number, changes) = (Lock::new(0), Condition::new());
    scope(|threads| {
        for own in [1, 2] {
            let (number, changes, notify) = (&number, &changes, &notify);
            threads.spawn(move || {
                let mut number = changes.wait_while(number.lock(), |number| *number != own);
                *number += 1;
                drop(number);
                notify(changes);
            });
        }
        *number.lock() = 1;
        notify(&changes);
    });
    assert_eq!(number.into_inner(), 3);
}

#[test]
fn a_notification_of_one_wakes_the_wrong_one() {
    let found = found(|_| wakes(Condition::notify_one));
    assert!(matches!(found.bad().unwrap().end(), End::Stalled { .. }), "{found}");
}

#[test]
fn a_notification_of_all_wakes_the_right_one() {
    let found = explore(Strategy::every(), 10_000, |_: &Board| wakes(Condition::notify_all));
    assert!(found.is_clean() && found.is_whole() && found.beside().is_none(), "{found}");
    let plainly =
        explore(Strategy::every_plainly(), 10_000, |_: &Board| wakes(Condition::notify_all));
    assert!(plainly.is_clean() && plainly.is_whole(), "{plainly}");
    assert!(found.runs() < plainly.runs(), "{found}, {plainly}");
}

/// Nobody notifies. Or it may be too late.
#[test]
fn a_wait_ends_by_its_time() {
    let program = |is_notified: bool| {
        let (has_come, comes) = (Lock::new(false), Condition::new());
        scope(|threads| {
            let waits = threads
                .spawn(|| comes.wait_timeout_while(has_come.lock(), LONG, |has_come| !*has_come).1);
            if is_notified {
                *has_come.lock() = true;
                comes.notify_one();
            }
            assert_eq!(waits.join().unwrap(), !is_notified, "it is late");
        });
    };
    for is_notified in [false, true] {
        let found = explore(Strategy::every(), 1_000, |_: &Board| program(is_notified));
        assert!(found.is_clean() && found.is_whole(), "{found}");
    }
    let found = explore(Strategy::every().time_outs(1), 1_000, |_: &Board| program(true));
    assert!(found.to_string().contains("it is late"), "{found}");
}

/// The time of a wait has passed, and another thread has the lock for ever.
#[test]
fn a_wait_that_is_late_has_its_lock_again() {
    let found = found(|board| {
        let (lock, never) = (Lock::new(()), Condition::new());
        let letters = seat(board).mailbox().unwrap();
        scope(|threads| {
            threads.spawn(|| drop(never.wait_timeout_while(lock.lock(), LONG, |()| true)));
            let (mut seat, lock) = (seat(board), &lock);
            threads.spawn(move || {
                let _guard = lock.lock();
                seat.recv(letters).unwrap();
            });
        });
    });
    assert!(found.to_string().contains("thread 2 (seat 1) at recv 0"), "{found}");
}

/// Each thread makes a lock and a value that it alone uses.
#[test]
fn threads_make_locks_in_any_order() {
    let program = |board: &Board| {
        let letters = seat(board).mailbox().unwrap();
        scope(|threads| {
            for _ in 0..2 {
                let mut seat = seat(board);
                threads.spawn(move || {
                    seat.send(letters, 1).unwrap();
                    let (lock, value) = (Lock::new(()), Shared::new(()));
                    let _guard = lock.lock();
                    value.with(|()| ());
                });
            }
        });
    };
    clean(program, 7, 5, 20);
}

/// A lock that a test has outside of the runs.
#[test]
fn a_lock_is_of_all_runs() {
    let runs = Lock::new(0);
    let found = explore(Strategy::every(), 100, |_: &Board| {
        scope(|threads| {
            for _ in 0..2 {
                threads.spawn(|| *runs.lock() += 1);
            }
        });
    });
    assert!(found.is_clean() && found.is_whole(), "{found}");
    assert_eq!(runs.into_inner(), 2 * found.runs());
}

/// Outside an exploration these are a mutex and a condition variable.
#[test]
fn threads_of_the_system_wait_for_each_other() {
    let (turn, turns) = (Lock::new(0), Condition::new());
    let is_late = scope(|threads| {
        for own in 0..3 {
            let (turn, turns) = (&turn, &turns);
            threads.spawn(move || {
                for _ in 0..100 {
                    let mut turn = turns.wait_while(turn.lock(), |turn| *turn % 3 != own);
                    *turn += 1;
                    drop(turn);
                    turns.notify_all();
                }
            });
        }
        turns.wait_timeout_while(turn.lock(), LONG, |turn| *turn < 300).1
    });
    assert!(!is_late);
    let (_, is_late) = turns.wait_timeout_while(turn.lock(), Duration::ZERO, |_| true);
    assert!(is_late);
    let panics = || {
        let _turn = turn.lock();
        panic!("there is no poison")
    };
    thread::scope(|threads| threads.spawn(panics).join()).unwrap_err();
    assert_eq!(*turn.lock(), 300);
}
