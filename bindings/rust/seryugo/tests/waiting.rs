//! Who waits at a switchboard, and at what.

mod common;

use common::{asking, seats, without_a_hang, Board};
use seryugo::{Error, Switchboard, Waiting, WaitsAt};
use std::thread::{self, Builder};
use std::time::Duration;

const SHORT: Duration = Duration::from_millis(2);

fn board() -> Board {
    Switchboard::of_numbers(1_000).unwrap()
}

/// The seats that wait, once there are so many.
fn once_so_many(board: &Board, count: usize) -> Vec<Waiting> {
    loop {
        let waiting = board.waiting();
        if waiting.len() == count {
            return waiting;
        }
        thread::yield_now();
    }
}

#[test]
fn each_call_is_listed_with_its_object_and_its_thread() {
    without_a_hang(|| {
        let board = board();
        let mut first = board.seat().unwrap();
        let (mailbox, mvar) = (first.mailbox().unwrap(), first.mvar().unwrap());
        let channel = first.channel().unwrap();
        let (port, ivar) = (first.port(channel).unwrap(), first.ivar().unwrap());
        let [ann, ben, carl, dora, eve] = seats(&board, 5).try_into().unwrap();
        thread::scope(|scope| {
            let named = |name: &str| Builder::new().name(name.to_string());
            let (mut ann, mut ben, mut carl) = (ann, ben, carl);
            let (mut dora, mut eve) = (dora, eve);
            let spawned = [
                named("ann").spawn_scoped(scope, move || ann.recv(mailbox).map(drop)),
                named("ben").spawn_scoped(scope, move || {
                    ben.recv_timeout(port, Duration::from_secs(60)).map(drop)
                }),
                named("carl").spawn_scoped(scope, move || carl.get(ivar).map(drop)),
                Builder::new().spawn_scoped(scope, move || dora.take(mvar).map(drop)),
                named("eve").spawn_scoped(scope, move || {
                    common::block_on(eve.swap_async(mvar, 7)).map(drop).map_err(Error::from)
                }),
            ];
            let told = once_so_many(&board, 5);
            let texts: Vec<String> = told.iter().map(ToString::to_string).collect();
            let each = [
                "seat 1 (thread ann) at recv 0 since entry 5",
                "seat 2 (thread ben) at recv 3 since entry 5",
                "seat 3 (thread carl) at get 4 since entry 5",
                "seat 4 at take 1 since entry 5",
                "seat 5 (thread eve) at swap 1 since entry 5",
            ];
            assert_eq!(texts, each);
            let are_open: Vec<bool> = told.iter().map(|waiting| waiting.is_open).collect();
            assert_eq!(are_open, [false, true, false, false, true]);
            assert_eq!(told[4].at, WaitsAt::Swap(1));
            assert_eq!(told[4].at.object(), 1);
            let shown = format!("{board:?}");
            assert!(
                shown.contains("at: Recv(3), since: 5") && shown.contains("\"eve\""),
                "{shown}"
            );
            first.send(mailbox, 1).unwrap();
            first.multicast(channel, 2).unwrap();
            first.put(ivar, 3).unwrap();
            let left = once_so_many(&board, 2);
            assert_eq!([left[0].seat, left[1].seat], [4, 5]);
            while !board.waiting().is_empty() {
                first.put(mvar, 4).unwrap();
                thread::yield_now();
            }
            for thread in spawned {
                thread.unwrap().join().unwrap().unwrap();
            }
        });
        assert_eq!(board.waiting(), []);
    });
}

#[test]
fn a_wait_that_ends_without_an_answer_is_listed_no_longer() {
    let board = board();
    let (mut seat, mut other) = (board.seat().unwrap(), board.seat().unwrap());
    let mailbox = seat.mailbox::<u64>().unwrap();
    assert_eq!(seat.recv_timeout(mailbox, SHORT), Err(Error::TimedOut));
    assert_eq!(board.waiting(), []);
    drop(asking(seat.recv_async(mailbox)));
    assert_eq!(board.waiting(), []);
    std::mem::forget(asking(seat.recv_async(mailbox)));
    assert_eq!(board.waiting().len(), 1);
    assert_eq!(seat.recv_poll(mailbox), Ok(None));
    assert_eq!(board.waiting(), []);
    std::mem::forget(asking(seat.recv_async(mailbox)));
    drop(seat);
    assert_eq!(board.waiting(), []);
    // Alone: the library has the seat as free, and it is listed nevertheless.
    let future = asking(other.recv_async(mailbox));
    let waiting = board.waiting();
    assert_eq!((waiting.len(), waiting[0].seat, waiting[0].is_open), (1, 1, true));
    drop(future);
    assert_eq!(other.recv(mailbox), Err(Error::Stalled));
    assert_eq!(board.waiting(), []);
}

/// A seat keeps its list's name up to date as it moves between threads.
#[test]
fn a_seat_that_moves_has_the_name_of_its_thread() {
    without_a_hang(|| {
        let board = board();
        let mut main = board.seat().unwrap();
        let mut seat = board.seat().unwrap();
        let mailbox = main.mailbox().unwrap();
        for name in ["one", "other", "one"] {
            seat = thread::scope(|scope| {
                let thread = Builder::new().name(name.to_string()).spawn_scoped(scope, move || {
                    seat.recv(mailbox).unwrap();
                    seat
                });
                assert_eq!(once_so_many(&board, 1)[0].thread.as_deref(), Some(name));
                main.send(mailbox, 5).unwrap();
                thread.unwrap().join().unwrap()
            });
        }
    });
}

/// A sink runs under the lock.
#[test]
fn a_switchboard_is_shown_also_while_it_is_locked() {
    use std::sync::{Arc, OnceLock};
    let own: Arc<OnceLock<Arc<Board>>> = Arc::default();
    let known = Arc::clone(&own);
    let shown = Arc::new(OnceLock::new());
    let kept = Arc::clone(&shown);
    let sink = seryugo::WhenFull::call(move |_: &seryugo::Journal<_>| {
        let board = known.get().map(|board| format!("{board:?}"));
        kept.set(board.unwrap()).map_err(std::io::Error::other)
    });
    let board = Arc::new(Switchboard::of_numbers(1).unwrap().when_full(sink));
    own.set(Arc::clone(&board)).unwrap();
    let mut seat = board.seat().unwrap();
    let mailbox = seat.mailbox::<u64>().unwrap();
    seat.send(mailbox, 5).unwrap();
    assert!(shown.get().unwrap().contains("waiting: <locked>"), "{shown:?}");
}
