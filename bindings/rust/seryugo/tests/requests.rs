//! Questions and their answers. If a wake is lost, a test here doesn't end.

mod common;

use common::{answered, asking, block_on, is_waiting, let_them_wait, without_a_hang};
use seryugo::{
    Asker, Bytes, Call, Error, Holds, Kind, Mailbox, Message, Misfit, Missing, Object, Request,
    Seat, Switchboard,
};
use std::mem;
use std::panic::{self, AssertUnwindSafe};
use std::sync::Arc;
use std::thread;
use std::time::{Duration, Instant};

type Lengths = Mailbox<Request<String, u64>>;

/// Asks, and gives up at once.
fn ask_in_vain(seat: &mut Seat<'_>, lengths: Lengths, question: &str) {
    let late = seat.request_timeout(lengths, question, Duration::ZERO).unwrap_err();
    assert_eq!((late.error, late.was_sent, late.question), (Error::TimedOut, true, question));
}

/// Answers all that is asked until nothing could be asked.
fn serve(seat: &mut Seat<'_, Bytes, impl Holds<Bytes>>, lengths: Lengths) -> u64 {
    let mut served = 0;
    while let Ok(request) = seat.recv(lengths) {
        request.answer_with(seat, |question| question.len() as u64).unwrap();
        served += 1;
    }
    served
}

/// How many objects a switchboard has: the next one has that number.
fn objects(board: &Switchboard) -> u64 {
    board.seat().unwrap().mailbox::<u64>().unwrap().number()
}

/// The bytes of each message that was sent to a mailbox.
fn sent_to(board: &Switchboard, mailbox: u64) -> Vec<Vec<u8>> {
    let entries = (board.cut_at()..board.entries()).filter_map(|at| board.entry(at));
    entries
        .filter_map(|entry| match entry.call {
            Call::Send(to, bytes) if to == mailbox => Some(bytes),
            _ => None,
        })
        .collect()
}

#[test]
fn each_form_asks_and_is_answered_on_seats_of_both_kinds() {
    without_a_hang(|| {
        let board = Arc::new(Switchboard::new(1_000).unwrap());
        let mut server = board.seat_owned().unwrap();
        let (mut borrowed, mut owned) = (board.seat().unwrap(), board.seat_owned().unwrap());
        let lengths: Lengths = server.mailbox().unwrap();
        let served = thread::spawn(move || serve(&mut server, lengths));
        for (n, question) in ["", "one", "three"].into_iter().map(String::from).enumerate() {
            let length = question.len() as u64;
            let hour = Duration::from_secs(3_600);
            assert_eq!(borrowed.request(lengths, &question), Ok(length));
            assert_eq!(owned.request_timeout(lengths, &question, hour), Ok(length));
            assert_eq!(owned.request_timeout(lengths, &question, Duration::MAX), Ok(length));
            assert_eq!(
                borrowed.request_deadline(lengths, &question, Instant::now() + hour),
                Ok(length)
            );
            assert_eq!(block_on(borrowed.request_async(lengths, &question)), Ok(length));
            assert_eq!(block_on(owned.request_async(lengths, question)), Ok(length));
            assert_eq!(board.sent(lengths), Ok(6 * (n as u64 + 1)));
        }
        drop((borrowed, owned));
        assert_eq!(served.join().unwrap(), 18);
    });
}

/// What an answer is, with none of its bytes.
#[test]
fn answers_of_no_bytes_are_no_declines() {
    fn through<A: Message>(answer: A) -> Result<A, Error> {
        let board = Switchboard::new(100).unwrap();
        let (mut client, mut server) = (board.seat().unwrap(), board.seat().unwrap());
        let mailbox = server.mailbox::<Request<(), A>>().unwrap();
        let asked = asking(client.request_async(mailbox, ()));
        server.recv(mailbox).unwrap().answer(&mut server, answer).unwrap();
        Ok(answered(asked)?)
    }

    assert_eq!(through(()), Ok(()));
    assert_eq!(through(None::<u8>), Ok(None));
    assert_eq!(through(Some(())), Ok(Some(())));
    assert_eq!(through(String::new()), Ok(String::new()));
    assert_eq!(through((5_u8, vec![1_u8; 100])), Ok((5, vec![1; 100])));
}

#[test]
fn the_bytes_are_as_documented() {
    let board = Switchboard::new(100).unwrap();
    let (mut client, mut server) = (board.seat().unwrap(), board.seat().unwrap());
    let lengths: Lengths = server.mailbox().unwrap();
    for answers in [true, false] {
        let asked = asking(client.request_async(lengths, "hi"));
        let request = server.recv(lengths).unwrap();
        match answers {
            true => request.answer(&mut server, 2).unwrap(),
            false => request.decline(&mut server).unwrap(),
        }
        assert_eq!(answered(asked).is_ok(), answers);
    }
    let asked = |number| {
        [
            &[1, 0, 0, 0, 0, 0, 0, 0, number, 0, 0, 0, 0, 0, 0, 0],
            &b"hi"[..],
        ]
        .concat()
    };
    assert_eq!(sent_to(&board, 0), [asked(1), asked(2)]);
    assert_eq!(
        sent_to(&board, 1),
        [
            &[1, 0, 0, 0, 0, 0, 0, 0, 1, 2, 0, 0, 0, 0, 0, 0, 0][..],
            &[2, 0, 0, 0, 0, 0, 0, 0]
        ]
    );
}

/// Programs in other languages see numbers and bytes alone.
#[test]
fn others_ask_and_answer_by_the_bytes() {
    let board = Switchboard::new(100).unwrap();
    let (mut ours, mut other) = (board.seat().unwrap(), board.seat().unwrap());
    let lengths: Lengths = ours.mailbox().unwrap();
    let bytes = board.mailbox::<Vec<u8>>(lengths.number()).unwrap();

    let asked = asking(ours.request_async(lengths, "four"));
    let question = other.recv(bytes).unwrap();
    let answers = u64::from_le_bytes(question[..8].try_into().unwrap());
    let answers = board.mailbox::<Vec<u8>>(answers).unwrap();
    let answer = [&question[8..16], &[1, 4, 0, 0, 0, 0, 0, 0, 0]].concat();
    other.send(answers, answer).unwrap();
    assert_eq!(answered(asked), Ok(4));

    let answers = other.mailbox::<Vec<u8>>().unwrap();
    let question = (answers.number().to_le_bytes(), 77_u64.to_le_bytes(), b"four");
    other.send(bytes, [&question.0[..], &question.1, question.2].concat()).unwrap();
    ours.recv(lengths).unwrap().answer(&mut ours, 5).unwrap();
    let answer = [&77_u64.to_le_bytes()[..], &[1], &5_u64.to_le_bytes()].concat();
    assert_eq!(other.recv(answers), Ok(answer));
}

#[test]
fn no_question_takes_what_is_late() {
    let board = Switchboard::new(100).unwrap();
    let (mut client, mut server) = (board.seat().unwrap(), board.seat().unwrap());
    let lengths: Lengths = server.mailbox().unwrap();
    let shouts = server.mailbox::<Request<String, String>>().unwrap();
    ask_in_vain(&mut client, lengths, "one");
    ask_in_vain(&mut client, lengths, "three");
    let (one, three) = (server.recv(lengths).unwrap(), server.recv(lengths).unwrap());

    // Of another type, and of a question that was declined too late.
    let mut asked = asking(client.request_async(shouts, "eleven"));
    three.decline(&mut server).unwrap();
    assert!(is_waiting(&mut asked));
    one.answer_with(&mut server, |question| question.len() as u64).unwrap();
    assert!(is_waiting(&mut asked));
    server.recv(shouts).unwrap().answer_with(&mut server, |text| text.to_uppercase()).unwrap();
    assert_eq!(answered(asked).as_deref(), Ok("ELEVEN"));

    // A limit that has passed drops them too.
    ask_in_vain(&mut client, lengths, "one");
    server.recv(lengths).unwrap().answer(&mut server, 3).unwrap();
    ask_in_vain(&mut client, lengths, "three");
    let answers = board.mailbox::<Vec<u8>>(2).unwrap();
    assert_eq!((board.sent(answers), board.owed(answers)), (Ok(4), Ok(0)));
}

/// The second answer to a question comes late for the next one.
#[test]
fn a_question_that_is_answered_twice_has_the_first_answer() {
    let board = Switchboard::new(100).unwrap();
    let (mut client, mut server) = (board.seat().unwrap(), board.seat().unwrap());
    let lengths: Lengths = server.mailbox().unwrap();
    let asked = asking(client.request_async(lengths, "one"));
    let request = server.recv(lengths).unwrap();
    server.send(lengths, &request).unwrap();
    request.answer(&mut server, 3).unwrap();
    assert_eq!(answered(asked), Ok(3));
    let mut asked = asking(client.request_async(lengths, "three"));
    server.recv(lengths).unwrap().answer(&mut server, 4).unwrap();
    assert!(is_waiting(&mut asked));
    server.recv(lengths).unwrap().answer(&mut server, 5).unwrap();
    assert_eq!(answered(asked), Ok(5));
}

#[test]
fn an_answer_that_is_none_is_unreadable() {
    let board = Switchboard::new(100).unwrap();
    let (mut client, mut other) = (board.seat().unwrap(), board.seat().unwrap());
    let lengths: Lengths = other.mailbox().unwrap();
    ask_in_vain(&mut client, lengths, "one");
    let answers = board.mailbox::<Vec<u8>>(1).unwrap();
    let to = |question: u8, answer: &[u8]| [&[question, 0, 0, 0, 0, 0, 0, 0], answer].concat();
    // The next question is the second one.
    for wrong in [vec![], vec![3; 7], to(4, &[2]), to(5, &[1, 5]), to(6, &[0])] {
        other.send(answers, &wrong).unwrap();
        let unread = client.request(lengths, "one").unwrap_err();
        let (wanted, bytes) = ("u64", wrong);
        assert_eq!(unread.error, Error::Unreadable { wanted, bytes });
        assert!(unread.was_sent);
    }
}

#[test]
fn a_question_that_is_none_is_unreadable() {
    let board = Switchboard::new(100).unwrap();
    let mut seat = board.seat().unwrap();
    let lengths: Lengths = seat.mailbox().unwrap();
    let bytes = board.mailbox::<Vec<u8>>(lengths.number()).unwrap();
    for wrong in [vec![], vec![1; 15], [&[0; 16][..], &[255]].concat()] {
        seat.send(bytes, &wrong).unwrap();
        let unreadable = seat.recv(lengths);
        assert!(matches!(unreadable, Err(Error::Unreadable { bytes, .. }) if bytes == wrong));
    }
    // A request of another program, which names no mailbox.
    let channel = seat.channel::<u64>().unwrap().number();
    let (is, wanted) = (Kind::Channel, Kind::Mailbox);
    let misfit = Misfit::Kind {
        number: channel,
        is,
        wanted,
    };
    for (object, error) in [
        (7, Error::NoSuch(Missing::Object(7))),
        (channel, Error::WrongKind(misfit)),
    ] {
        seat.send(bytes, [object.to_le_bytes(), [0; 8]].concat()).unwrap();
        let asker = seat.recv(lengths).unwrap().asker;
        let refused = asker.answer(&mut seat, 5).unwrap_err();
        assert_eq!((refused.error, refused.message.1), (error.clone(), 5));
        assert_eq!(refused.message.0.decline(&mut seat).unwrap_err().error, error);
    }
}

#[test]
fn a_mailbox_of_another_switchboard_leaves_nothing() {
    let (board, other) = (Switchboard::new(100).unwrap(), Switchboard::new(100).unwrap());
    let lengths: Lengths = other.seat().unwrap().mailbox().unwrap();
    let unsent = board.seat().unwrap().request(lengths, "one").unwrap_err();
    let elsewhere = Error::NoSuch(Missing::Elsewhere(Kind::Mailbox, 0));
    assert_eq!((unsent.error, unsent.was_sent, unsent.question), (elsewhere, false, "one"));
    assert_eq!(board.entries(), 0);
}

/// If it has left by a panic, too. Then nobody has the question.
#[test]
fn who_asks_one_that_leaves_is_stalled() {
    without_a_hang(|| {
        for panics in [false, true] {
            let board = Switchboard::new(100).unwrap();
            let (mut client, mut server) = (board.seat().unwrap(), board.seat().unwrap());
            let lengths: Lengths = server.mailbox().unwrap();
            thread::scope(|scope| {
                let server = scope.spawn(move || {
                    let _request = server.recv(lengths).unwrap();
                    let_them_wait();
                    assert!(!panics, "a server that panics, on purpose");
                });
                let unanswered = client.request(lengths, "one").unwrap_err();
                assert_eq!((unanswered.error, unanswered.was_sent), (Error::Stalled, true));
                assert_eq!(server.join().is_err(), panics);
            });
            let mut late = board.seat().unwrap();
            ask_in_vain(&mut client, lengths, "three");
            assert_eq!(late.recv(lengths).unwrap().question, "three");
        }
    });
}

#[test]
fn a_function_that_panics_declines() {
    without_a_hang(|| {
        let board = Switchboard::new(100).unwrap();
        let (mut client, mut server) = (board.seat().unwrap(), board.seat().unwrap());
        let lengths: Lengths = server.mailbox().unwrap();
        thread::scope(|scope| {
            scope.spawn(move || {
                let declined = client.request(lengths, "one").unwrap_err();
                assert_eq!((declined.error, declined.was_sent), (Error::Declined, true));
                assert_eq!(client.request(lengths, "three"), Ok(5));
            });
            let request = server.recv(lengths).unwrap();
            let panicked = panic::catch_unwind(AssertUnwindSafe(|| {
                request.answer_with(&mut server, |question| panic!("on purpose: {question}"))
            }));
            let words = panicked.unwrap_err().downcast::<String>().unwrap();
            assert_eq!(*words, "on purpose: one");
            assert_eq!(serve(&mut server, lengths), 1);
        });
    });
}

#[test]
fn several_serve_one_mailbox() {
    without_a_hang(|| {
        let board = Switchboard::new(10_000).unwrap();
        let mut seats: Vec<_> = (0..7).map(|_| board.seat().unwrap()).collect();
        let lengths: Lengths = seats[0].mailbox().unwrap();
        let clients = seats.split_off(3);
        let served = thread::scope(|scope| {
            let servers: Vec<_> = seats
                .into_iter()
                .map(|mut seat| scope.spawn(move || serve(&mut seat, lengths)))
                .collect();
            for mut seat in clients {
                scope.spawn(move || {
                    for length in 0..100 {
                        assert_eq!(seat.request(lengths, "x".repeat(length)), Ok(length as u64));
                    }
                });
            }
            servers.into_iter().map(|server| server.join().unwrap()).sum::<u64>()
        });
        assert_eq!(served, 400);
    });
}

/// Through another mailbox of requests, and as an asker beside another message.
#[test]
fn a_question_is_sent_on() {
    without_a_hang(|| {
        let board = Switchboard::new(1_000).unwrap();
        let mut client = board.seat().unwrap();
        let (mut first, mut second, mut third) =
            (board.seat().unwrap(), board.seat().unwrap(), board.seat().unwrap());
        let lengths: Lengths = first.mailbox().unwrap();
        let long: Lengths = second.mailbox().unwrap();
        let counted = third.mailbox::<(Asker<u64>, u32)>().unwrap();
        thread::scope(|scope| {
            scope.spawn(move || {
                while let Ok(request) = first.recv(lengths) {
                    match request.question.len() > 3 {
                        true => first.send(long, request).unwrap(),
                        false => request.answer(&mut first, 0).unwrap(),
                    }
                }
            });
            scope.spawn(move || {
                while let Ok(Request { question, asker }) = second.recv(long) {
                    second.send(counted, (asker, question.len() as u32)).unwrap();
                }
            });
            scope.spawn(move || {
                while let Ok((asker, count)) = third.recv(counted) {
                    asker.answer(&mut third, u64::from(count)).unwrap();
                }
            });
            assert_eq!(client.request(lengths, "one"), Ok(0));
            assert_eq!(client.request(lengths, "three"), Ok(5));
            drop(client);
        });
    });
}

#[test]
fn a_future_that_is_dropped_has_asked_once_it_was_polled() {
    let board = Switchboard::new(100).unwrap();
    let (mut client, mut server) = (board.seat().unwrap(), board.seat().unwrap());
    let lengths: Lengths = server.mailbox().unwrap();
    drop(client.request_async(lengths, "never"));
    assert_eq!(board.entries(), 1);
    for forgets in [false, true] {
        let asked = asking(client.request_async(lengths, "one"));
        match forgets {
            true => mem::forget(asked),
            false => drop(asked),
        }
        server.recv(lengths).unwrap().answer(&mut server, 3).unwrap();
        let asked = asking(client.request_async(lengths, "three"));
        server.recv(lengths).unwrap().answer(&mut server, 5).unwrap();
        assert_eq!(answered(asked), Ok(5));
    }
}

#[test]
fn a_future_goes_to_another_thread() {
    without_a_hang(|| {
        let board = Arc::new(Switchboard::new(100).unwrap());
        let (mut client, mut server) = (board.seat_owned().unwrap(), board.seat_owned().unwrap());
        let lengths: Lengths = server.mailbox().unwrap();
        let asking = thread::spawn(move || {
            block_on(async move { client.request_async(lengths, "one").await })
        });
        assert_eq!(serve(&mut server, lengths), 1);
        assert_eq!(asking.join().unwrap(), Ok(3));
    });
}

#[test]
fn questions_leave_no_object() {
    let board = Switchboard::new(100_000).unwrap();
    let (mut client, mut server) = (board.seat().unwrap(), board.seat().unwrap());
    let lengths: Lengths = server.mailbox().unwrap();
    for _ in 0..1_000 {
        ask_in_vain(&mut client, lengths, "one");
        server.recv(lengths).unwrap().answer(&mut server, 3).unwrap();
    }
    assert_eq!(objects(&board), 2);
    // Each takes the mailbox of the one before.
    for _ in 0..100 {
        drop(client);
        client = board.seat().unwrap();
        let asked = asking(client.request_async(lengths, "three"));
        server.recv(lengths).unwrap().answer(&mut server, 5).unwrap();
        assert_eq!(answered(asked), Ok(5));
        server.recv_poll(lengths).unwrap();
    }
    assert_eq!(objects(&board), 3, "`objects` makes one");
    assert!(board.kept(board.mailbox::<Vec<u8>>(1).unwrap()).unwrap() <= 32);
}

/// The seat's mailbox is that of a seat that has left, whose answer comes late.
#[test]
fn no_seat_takes_an_answer_of_the_seat_before() {
    let board = Switchboard::new(100).unwrap();
    let (mut client, mut server) = (board.seat().unwrap(), board.seat().unwrap());
    let lengths: Lengths = server.mailbox().unwrap();
    ask_in_vain(&mut client, lengths, "one");
    drop(client);
    let mut client = board.seat().unwrap();
    let mut asked = asking(client.request_async(lengths, "three"));
    for is_late in [true, false] {
        assert!(is_waiting(&mut asked));
        let request = server.recv(lengths).unwrap();
        assert_eq!(request.question == "one", is_late);
        request.answer_with(&mut server, |question| question.len() as u64).unwrap();
    }
    assert_eq!(answered(asked), Ok(5));
    assert_eq!(objects(&board), 2);
}

/// As a thread with other channels has it: the server ends once all senders are dropped.
#[test]
fn clones_of_a_sender_ask_and_a_receiver_answers() {
    without_a_hang(|| {
        let board = Arc::new(Switchboard::new(10_000).unwrap());
        let (sender, receiver) = board.unbounded::<Request<String, u64>>().unwrap();
        let threads: Vec<_> = (0..4)
            .map(|_| {
                let sender = sender.clone();
                thread::spawn(move || {
                    for length in 1..50 {
                        assert_eq!(sender.request("x".repeat(length)), Ok(length as u64));
                    }
                    sender.request("").unwrap_err().error
                })
            })
            .collect();
        drop(sender);
        for Request { question, asker } in &receiver {
            match question.len() {
                0 => receiver.decline(asker).unwrap(),
                length => receiver.answer(asker, length as u64).unwrap(),
            }
        }
        for thread in threads {
            assert_eq!(thread.join().unwrap(), Error::Declined);
        }
        assert_eq!(receiver.recv(), Err(Error::Stalled));
        // A sender that asks after another one has gone takes its mailbox.
        assert!((2..=5).contains(&objects(&board)));
    });
}
