//! Whether askers still wait, and until when.

mod common;

use common::{answered, asking, without_a_hang};
use seryugo::explore::{explore, scope, Strategy};
use seryugo::{Asker, Error, Mailbox, Message, Request, Seat, Switchboard};
use std::sync::Arc;
use std::thread;
use std::time::{Duration, Instant};

type Doubles = Mailbox<Request<u64, u64>>;

const SHORT: Duration = Duration::from_millis(4);

fn board() -> Switchboard {
    Switchboard::new(1_000_000).unwrap()
}

/// The next request's asker, and a second one of the same question.
fn next_asker(seat: &mut Seat<'_>, doubles: Doubles) -> (Asker<u64>, Asker<u64>) {
    let asker = seat.recv(doubles).unwrap().asker;
    let mut bytes = Vec::new();
    asker.write_to(&mut bytes);
    (asker, Asker::from_bytes(&bytes).unwrap())
}

#[test]
fn an_asker_waits_until_it_has_its_answer() {
    let board = board();
    let (mut ann, mut ben) = (board.seat().unwrap(), board.seat().unwrap());
    let doubles: Doubles = ben.mailbox().unwrap();
    let asked = asking(ann.request_async(doubles, 4));
    let (asker, again) = next_asker(&mut ben, doubles);
    assert!(asker.is_waiting(&ben));
    assert_eq!(asker.gives_up_at(&ben), None);
    asker.answer(&mut ben, 8).unwrap();
    assert!(again.is_waiting(&ben), "it hasn't looked yet");
    assert_eq!(answered(asked).unwrap(), 8);
    assert!(!again.is_waiting(&ben));
    let asked = asking(ann.request_async(doubles, 5));
    let (other, _) = next_asker(&mut ben, doubles);
    assert!(other.is_waiting(&ben) && !again.is_waiting(&ben));
    other.decline(&mut ben).unwrap();
    assert!(answered(asked).is_err_and(|refused| refused.error == Error::Declined));
}

#[test]
fn who_has_given_up_waits_no_longer() {
    let board = board();
    let (mut ann, mut ben) = (board.seat().unwrap(), board.seat().unwrap());
    let doubles: Doubles = ben.mailbox().unwrap();
    assert!(ann.request_timeout(doubles, 4, Duration::ZERO).is_err());
    let (late, _) = next_asker(&mut ben, doubles);
    assert!(!late.is_waiting(&ben));
    drop(asking(ann.request_async(doubles, 5)));
    let (dropped, _) = next_asker(&mut ben, doubles);
    assert!(!dropped.is_waiting(&ben));
    std::mem::forget(asking(ann.request_async(doubles, 6)));
    let (forgotten, _) = next_asker(&mut ben, doubles);
    assert!(forgotten.is_waiting(&ben));
    drop(ann);
    assert!(!forgotten.is_waiting(&ben));
    // The next seat has the same mailbox for its answers.
    let mut carl = board.seat().unwrap();
    let asked = asking(carl.request_async(doubles, 7));
    let (next, _) = next_asker(&mut ben, doubles);
    assert!(next.is_waiting(&ben) && !forgotten.is_waiting(&ben) && !late.is_waiting(&ben));
    drop(asked);
}

#[test]
fn a_deadline_is_that_of_the_call() {
    without_a_hang(|| {
        let board = Arc::new(board());
        let (sender, receiver) = board.unbounded::<Request<u64, u64>>().unwrap();
        let mut ann = board.seat_owned().unwrap();
        let doubles = sender.mailbox();
        let deadline = Instant::now() + Duration::from_secs(60);
        let asks = thread::spawn(move || ann.request_deadline(doubles, 4, deadline));
        let Request { question, asker } = receiver.recv().unwrap();
        assert!(receiver.is_waiting(&asker));
        assert_eq!(receiver.gives_up_at(&asker), Some(deadline));
        receiver.answer(asker, 2 * question).unwrap();
        assert_eq!(asks.join().unwrap().unwrap(), 8);
    });
}

#[test]
fn after_a_restore_nobody_waits() {
    let board = board();
    let (mut ann, mut ben) = (board.seat().unwrap(), board.seat().unwrap());
    let doubles: Doubles = ben.mailbox().unwrap();
    let asked = asking(ann.request_async(doubles, 4));
    let mut text = Vec::new();
    board.take_journal().unwrap().write_to(&mut text).unwrap();
    let restored: Switchboard = Switchboard::restore(&text[..], 1_000).unwrap();
    let mut carl = restored.seat().unwrap();
    let (asker, _) = next_asker(&mut carl, restored.mailbox(0).unwrap());
    assert!(!asker.is_waiting(&carl));
    drop(asked);
}

/// Its clients ask more often than it could answer, so that it would only answer who has given up.
#[test]
fn a_slow_server_answers_those_who_wait() {
    const CLIENTS: usize = 8;
    without_a_hang(|| {
        let board = board();
        let mut server = board.seat().unwrap();
        let doubles: Doubles = server.mailbox().unwrap();
        let clients: Vec<_> = (0..CLIENTS).map(|_| board.seat().unwrap()).collect();
        thread::scope(|scope| {
            for mut client in clients {
                scope.spawn(move || {
                    let mut answers = 0;
                    while answers < 3 {
                        match client.request_timeout(doubles, 4, SHORT) {
                            Ok(answer) => answers += answer / 8,
                            Err(late) => assert_eq!(late.error, Error::TimedOut),
                        }
                    }
                });
            }
            while let Ok(Request { question, asker }) = server.recv(doubles) {
                if asker.is_waiting(&server) {
                    thread::sleep(Duration::from_millis(1));
                    asker.answer(&mut server, 2 * question).unwrap();
                }
            }
        });
    });
}

/// In an exploration it is a look at the asker's mailbox: it is true in some orders.
#[test]
fn an_exploration_sees_both() {
    use std::collections::BTreeSet;
    use std::sync::Mutex;
    let seen = Mutex::new(BTreeSet::new());
    let found = explore(Strategy::every().time_outs(1), 1_000, |board: &Arc<Switchboard>| {
        let (mut ann, mut ben) = (board.seat().unwrap(), board.seat().unwrap());
        let doubles: Doubles = ben.mailbox().unwrap();
        scope(|threads| {
            threads.spawn(move || drop(ann.request_timeout(doubles, 4, SHORT)));
            threads.spawn(|| {
                let Request { question, asker } = ben.recv(doubles).unwrap();
                seen.lock().unwrap().insert(asker.is_waiting(&ben));
                asker.answer(&mut ben, 2 * question).unwrap();
            });
        });
    });
    assert!(found.is_clean() && found.is_whole(), "{found}");
    assert_eq!(seen.into_inner().unwrap(), [false, true].into());
}
