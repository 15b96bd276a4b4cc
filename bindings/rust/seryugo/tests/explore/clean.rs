//! Programs without a bug: none is found, and it is said in how many runs.

use crate::programs::{philosophers, seat, Board};
use seryugo::explore::{self, explore, scope, Shared, Strategy};

/// No order ends badly, and these are the runs of every order, with those that were repeats, and
/// plainly.
pub fn clean(program: impl Fn(&Board), runs: u64, repeats: u64, plain_runs: u64) {
    let found = explore(Strategy::every(), 10_000, &program);
    println!("{found}");
    assert!(found.is_clean() && found.is_whole() && found.beside().is_none(), "{found}");
    assert_eq!((found.runs(), found.repeats()), (runs, repeats));
    let text = format!("no bad end in {runs} runs of every order");
    assert_eq!(found.to_string(), text);
    let plainly = explore(Strategy::every_plainly(), 10_000, &program);
    assert!(plainly.is_clean() && plainly.is_whole(), "{plainly}");
    assert_eq!(plainly.runs(), plain_runs);
    for way in [Strategy::random(3), Strategy::priorities(3, 3)] {
        let some = explore(way, 300, &program);
        assert!(some.is_clean() && !some.is_whole(), "{some}");
    }
}

#[test]
fn philosophers_with_an_order_of_forks() {
    clean(|board| philosophers(board, 3, 1, true), 15, 9, 142);
}

#[test]
fn one_that_sends_and_one_that_receives() {
    let program = |board: &Board| {
        let letters = seat(board).mailbox().unwrap();
        explore::scope(|threads| {
            let (mut sends, mut receives) = (seat(board), seat(board));
            threads.spawn(move || (0..5).for_each(|letter| sends.send(letters, letter).unwrap()));
            let received = threads.spawn(move || {
                (0..5).map(|_| receives.recv(letters).unwrap()).collect::<Vec<u64>>()
            });
            assert_eq!(received.join().unwrap(), [0, 1, 2, 3, 4]);
        });
    };
    // Whether a message waits as the next one is sent makes no difference.
    clean(program, 5, 4, 42);
}

#[test]
fn threads_and_seats_that_come_and_go() {
    let program = |board: &Board| {
        let mut main = seat(board);
        let letters = main.mailbox().unwrap();
        explore::scope(|threads| {
            for number in 0..2 {
                threads.spawn(move || {
                    let inner = explore::scope(|inner| {
                        inner.spawn(|| seat(board).send(letters, number).unwrap()).join()
                    });
                    inner.unwrap();
                });
            }
        });
        assert_eq!(main.recv(letters).unwrap() + main.recv(letters).unwrap(), 1);
    };
    clean(program, 7, 5, 2);
}

#[test]
fn receivers_that_end_by_a_stall() {
    let program = |board: &Board| {
        let mut main = seat(board);
        let letters = main.mailbox().unwrap();
        explore::scope(|threads| {
            let receivers = [seat(board), seat(board)]
                .map(|mut seat| threads.spawn(move || seat.iter(letters).sum::<u64>()));
            (1..=2).for_each(|letter| main.send(letters, letter).unwrap());
            drop(main);
            let sums = receivers.map(|receiver| receiver.join().unwrap());
            assert_eq!(sums.iter().sum::<u64>(), 3);
        });
    };
    let found = explore(Strategy::every().stalls_are_told(), 10_000, program);
    assert!(found.is_clean() && found.is_whole(), "{found}");
    println!("{found}");
}

#[test]
fn halves_of_a_mailbox() {
    let program = |board: &Board| {
        let (sender, receiver) = board.unbounded::<u64>().unwrap();
        explore::scope(|threads| {
            for number in 1..3 {
                let sender = sender.clone();
                threads.spawn(move || sender.send(number).unwrap());
            }
            drop(sender);
            let sum = threads.spawn(move || receiver.iter().sum::<u64>());
            assert_eq!(sum.join().unwrap(), 3);
        });
    };
    let found = explore(Strategy::every().stalls_are_told(), 1_000, program);
    assert!(found.is_clean() && found.is_whole(), "{found}");
}

/// Each value that threads share has steps apart from those of others, made in the run or before.
#[test]
fn values_that_are_shared() {
    let before = Shared::new(0);
    let runs = |is_one: bool| {
        let found = explore(Strategy::every(), 100, |_: &Board| {
            let one = Shared::new(0);
            let other = Shared::<u64>::default();
            let second = if is_one { &one } else { &other };
            scope(|threads| {
                threads.spawn(|| one.with(|number| *number += 1));
                threads.spawn(|| second.with(|number| *number += 1));
                threads.spawn(|| before.with(|number| *number += 1));
            });
            assert_eq!(one.into_inner() + other.into_inner(), 2);
        });
        assert!(found.is_clean() && found.is_whole(), "{found}");
        found.runs() - found.repeats()
    };
    assert_eq!((runs(false), runs(true)), (1, 2));
    assert!(before.into_inner() > 2);
}

/// One of them makes it, and the other finds it.
#[test]
fn an_object_that_two_make_again() {
    let program = |board: &Board| {
        explore::scope(|threads| {
            for own in 0..2 {
                let mut seat = seat(board);
                threads.spawn(move || {
                    let mailbox = seat.mailbox_again(0).unwrap();
                    seat.send(mailbox, own).unwrap();
                });
            }
        });
        let mailbox = board.mailbox(0).unwrap();
        assert_eq!((board.owed(mailbox), board.entries()), (Ok(2), 3));
    };
    let found = explore(Strategy::every(), 100, program);
    assert!(found.is_clean() && found.is_whole() && found.beside().is_none(), "{found}");
    let plainly = explore(Strategy::every_plainly(), 100, program);
    assert!(plainly.is_clean() && plainly.is_whole(), "{plainly}");
}
