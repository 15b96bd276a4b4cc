//! Questions beside full journals, after a restart, and in a storm.

mod common;

use common::{answered, asking, is_waiting, let_them_wait, without_a_hang, Random};
use seryugo::{Checker, Error, Mailbox, Object, Request, Seat, Switchboard, WhenFull};
use std::sync::{Arc, Mutex};
use std::thread;
use std::time::Duration;

type Doubles = Mailbox<Request<u64, u64>>;

/// The questions that a server receives, with nobody's answer.
fn asked(seat: &mut Seat<'_>, doubles: Doubles) -> Vec<u64> {
    seat.try_iter(doubles).map(|request| request.question).collect()
}

/// The limits of the journal at which each call of a question is refused in its turn: to make the
/// mailbox, to send, to receive, to answer, to receive the answer.
#[test]
fn a_full_journal_refuses_each_call_and_the_error_says_which() {
    without_a_hang(|| {
        for limit in [1, 2] {
            let board = Switchboard::new(limit).unwrap();
            let (mut client, mut server) = (board.seat().unwrap(), board.seat().unwrap());
            let doubles: Doubles = server.mailbox().unwrap();
            let unsent = client.request(doubles, 5).unwrap_err();
            assert_eq!((&unsent.error, unsent.was_sent), (&Error::JournalFull, false));
            assert_eq!(unsent.to_string(), format!("the question wasn't sent: {}", unsent.error));
            board.cut().unwrap();
            assert_eq!(asked(&mut server, doubles), []);
        }

        let board = Switchboard::new(3).unwrap();
        let (mut client, mut server) = (board.seat().unwrap(), board.seat().unwrap());
        let doubles: Doubles = server.mailbox().unwrap();
        let unanswered = client.request(doubles, 5).unwrap_err();
        assert_eq!((unanswered.error, unanswered.was_sent), (Error::JournalFull, true));
        board.cut().unwrap();

        let waiting = asking(client.request_async(doubles, 6));
        assert_eq!(server.recv(doubles).unwrap().question, 5);
        let request = server.recv(doubles).unwrap();
        let refused = request.answer(&mut server, 12).unwrap_err();
        assert_eq!(refused.error, Error::JournalFull);
        board.cut().unwrap();
        let (asker, answer) = refused.into_message();
        asker.answer(&mut server, answer).unwrap();
        assert_eq!(answered(waiting), Ok(12));
        board.cut().unwrap();

        let unanswered = client.request_timeout(doubles, 7, Duration::ZERO).unwrap_err();
        assert_eq!((unanswered.error, unanswered.was_sent), (Error::TimedOut, true));
        let refused = server.recv(doubles).unwrap().decline(&mut server);
        assert!(refused.is_ok());
        let refused = client.request(doubles, 8).unwrap_err();
        assert_eq!((refused.error, refused.was_sent), (Error::JournalFull, false));
    });
}

/// A question of before is answered after, to a mailbox where nobody waits.
#[test]
fn questions_and_numbers_go_on_after_a_restart() {
    without_a_hang(|| {
        let mut text = Vec::new();
        let board = Switchboard::new(100).unwrap();
        let (mut client, mut server) = (board.seat().unwrap(), board.seat().unwrap());
        let doubles: Doubles = server.mailbox().unwrap();
        let _waiting = asking(client.request_async(doubles, 4));
        let unanswered = server.recv(doubles).unwrap();
        server.send(doubles, &unanswered).unwrap();
        board.take_journal().unwrap().write_to(&mut text).unwrap();

        let after: Switchboard = Switchboard::restore(&text[..], 100).unwrap();
        let (mut client, mut server) = (after.seat().unwrap(), after.seat().unwrap());
        let doubles: Doubles = after.mailbox(doubles.number()).unwrap();
        let mut waiting = asking(client.request_async(doubles, 5));
        let old = server.recv(doubles).unwrap();
        assert_eq!(old, unanswered);
        old.answer(&mut server, 8).unwrap();
        assert!(is_waiting(&mut waiting));
        server.recv(doubles).unwrap().answer(&mut server, 10).unwrap();
        assert_eq!(answered(waiting), Ok(10));
        let old_answers = after.mailbox::<Vec<u8>>(1).unwrap();
        assert_eq!(after.owed(old_answers), Ok(1));

        after.take_journal().unwrap().write_to(&mut text).unwrap();
        let mut checker = Checker::new().unwrap();
        checker.read(&text[..]).unwrap();
        assert_eq!((checker.entries(), checker.is_whole()), (after.entries(), true));
    });
}

/// Clients that give up at random times, and servers that answer at once, late, never, or decline.
/// No client has another answer than its own.
fn client(seat: &mut Seat<'_>, doubles: Doubles, seed: u64) -> [u64; 3] {
    let mut random = Random::new(seed);
    let mut ends = [0; 3];
    for question in 0..300 {
        let question = 1_000 * seed + question;
        // Most are in the time that an answer takes, and some surely longer.
        let most = if random.below(4) == 0 { 8_000 } else { 200 };
        let limit = Duration::from_micros(random.below(most));
        let end = match seat.request_timeout(doubles, question, limit) {
            Ok(answer) => {
                assert_eq!(answer, 2 * question);
                0
            }
            Err(refused) => {
                assert!(refused.was_sent);
                match refused.error {
                    Error::Declined => 1,
                    Error::TimedOut => 2,
                    error => panic!("{error}"),
                }
            }
        };
        ends[end] += 1;
    }
    ends
}

fn server(seat: &mut Seat<'_>, doubles: Doubles, seed: u64) {
    let mut random = Random::new(seed);
    let mut late = Vec::new();
    loop {
        let request = match seat.recv(doubles) {
            Ok(request) => request,
            Err(error) => break assert_eq!(error, Error::Stalled),
        };
        match random.below(8) {
            0 => drop(request),
            1 => request.decline(seat).unwrap(),
            2 => late.push(request),
            _ => request.answer_with(seat, |question| 2 * question).unwrap(),
        }
        if random.below(4) == 0 {
            for request in late.drain(..) {
                request.answer_with(seat, |question| 2 * question).unwrap();
            }
        }
    }
}

#[test]
fn in_a_storm_each_answer_is_to_its_question() {
    without_a_hang(|| {
        let text = Arc::new(Mutex::new(Vec::new()));
        let kept = text.clone();
        let sink = WhenFull::call(move |journal| journal.write_to(&mut *kept.lock().unwrap()));
        let board = Switchboard::new(50).unwrap().when_full(sink);
        let mut seats: Vec<_> = (0..7).map(|_| board.seat().unwrap()).collect();
        let mut last = board.seat().unwrap();
        let doubles: Doubles = last.mailbox().unwrap();
        let clients = seats.split_off(3);
        let ends = thread::scope(|scope| {
            for (seed, mut seat) in seats.into_iter().enumerate() {
                scope.spawn(move || server(&mut seat, doubles, seed as u64));
            }
            let clients = clients.into_iter().enumerate().map(|(seed, mut seat)| {
                scope.spawn(move || client(&mut seat, doubles, seed as u64 + 10))
            });
            let clients: Vec<_> = clients.collect();
            // While this seat is there, no call fails with `Stalled`.
            let ends: Vec<_> = clients.into_iter().map(|client| client.join().unwrap()).collect();
            let_them_wait();
            assert_eq!(last.mailbox::<u64>().unwrap().number(), 1 + 4);
            drop(last);
            ends
        });
        let total = |end: usize| ends.iter().map(|ends| ends[end]).sum::<u64>();
        assert_eq!(total(0) + total(1) + total(2), 4 * 300);
        assert!((0..3).all(|end| total(end) > 0), "each end was met: {ends:?}");
        board.keep().unwrap();
        let mut checker = Checker::new().unwrap();
        checker.read(&text.lock().unwrap()[..]).unwrap();
        assert_eq!((checker.entries(), checker.is_whole()), (board.entries(), true));
    });
}
