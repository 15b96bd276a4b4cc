//! The tests of `docs/EXPLORE.md`, word for word.

use seryugo::explore::{again, explore, scope, Rerun, Strategy};
use seryugo::{Numbers, Switchboard};
use std::sync::Arc;

#[test]
fn a_letter_arrives() {
    let found = explore(Strategy::every(), 1_000, |board: &Arc<Switchboard>| {
        let (mut ann, mut ben) = (board.seat().unwrap(), board.seat().unwrap());
        let letters = ben.mailbox::<String>().unwrap();
        scope(|threads| {
            threads.spawn(move || ann.send(letters, "Dear Ben").unwrap());
            threads.spawn(move || assert_eq!(ben.recv(letters).unwrap(), "Dear Ben"));
        });
    });
    assert!(found.is_clean(), "{found}");
}

fn bank(board: &Arc<Switchboard<Numbers>>) {
    let mut seat = board.seat().unwrap();
    let account = seat.mvar_init(100).unwrap();
    scope(|threads| {
        for sum in [10, 20] {
            let mut seat = board.seat().unwrap();
            threads.spawn(move || {
                let held = seat.get(account).unwrap();
                seat.swap(account, held + sum).unwrap();
            });
        }
    });
    assert_eq!(seat.take(account).unwrap(), 130, "a payment is lost");
}

#[test]
fn a_payment_is_lost() {
    let found = explore(Strategy::every(), 1_000, bank);
    let bad = found.bad().unwrap();
    assert_eq!(bad.schedule(), "122");
    let once_more = again("122", bank);
    assert_eq!(once_more.bad().unwrap().journal(), bad.journal());
}

#[test]
fn a_payment_is_lost_with_threads_of_the_system() {
    let found = explore(Strategy::every(), 1_000, bank);
    let reran = found.bad().unwrap().rerun(bank).unwrap();
    assert!(reran.is_same(), "{reran}");
    assert!(reran.panics()[0].contains("a payment is lost"));
}

#[test]
fn a_journal_of_another_process_is_followed() {
    let journal = &explore(Strategy::every(), 1_000, bank).bad().unwrap().journal().to_string();
    let reran = Rerun::read(journal.as_bytes()).unwrap().run(bank);
    assert!(reran.is_followed(), "{reran}");
    println!("{reran}");
}

/// What the page shows of it.
#[test]
fn the_page_shows_what_is_found() {
    let found = explore(Strategy::every(), 1_000, bank).to_string();
    let (head, tail) = SHOWN.split_once("src/bank.rs:14").unwrap();
    assert!(found.starts_with(head) && found.ends_with(tail), "{found}");
}

const SHOWN: &str = "run 2 of every order: thread 0 panicked at src/bank.rs:14: assertion \
    `left == right` failed: a payment is lost
  left: 110
 right: 130
to run it again: explore::again(\"122\", program)
to rerun its journal with threads of the system: bad.rerun(program)
journal 1
seat 0 mvar 100: made 0
seat 1 get 0: 100
seat 2 get 0: 100
seat 2 swap 0 120: 100
seat 1 swap 0 110: 120
seat 0 take 0: 110
end 6
";
