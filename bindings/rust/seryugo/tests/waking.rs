//! Threads that wait, each woken by one of the others: where a wake is lost a test here doesn't
//! end.

mod common;

use common::{
    let_them_wait, seats, without_a_hang, Board, Channel, Feed, Lane, MVar, Mailbox, Port, Random,
    Seat,
};
use seryugo::{Error, Switchboard};
use std::sync::atomic::{AtomicU64, Ordering};
use std::sync::Barrier;
use std::thread;

fn mailboxes(seat: &mut Seat<'_>, count: usize) -> Vec<Mailbox> {
    (0..count).map(|_| seat.mailbox().unwrap()).collect()
}

#[test]
fn a_token_goes_round() {
    const THREADS: usize = 16;
    const ROUNDS: u64 = 1_000;

    without_a_hang(|| {
        let board = Switchboard::of_numbers(1 << 32).unwrap();
        let mut first = board.seat().unwrap();
        let mailboxes = &mailboxes(&mut first, THREADS);
        thread::scope(|scope| {
            for (at, mut seat) in seats(&board, THREADS).into_iter().enumerate() {
                scope.spawn(move || {
                    for _ in 0..ROUNDS {
                        let token = seat.recv(mailboxes[at]).unwrap();
                        seat.send(mailboxes[(at + 1) % THREADS], token + 1).unwrap();
                    }
                });
            }
            first.send(mailboxes[0], 0).unwrap();
        });
        assert_eq!(first.recv_poll(mailboxes[0]), Ok(Some(THREADS as u64 * ROUNDS)));
    });
}

/// Uses these variables as locks round a count, and gives how much of the count it took out.
fn count_in(seat: &mut Seat<'_>, variables: &[MVar], at: usize, times: usize) -> u64 {
    let mut out = 0;
    for n in 0..times {
        let variable = variables[(at + n) % variables.len()];
        let count = seat.take(variable).unwrap();
        seat.put(variable, count + 1).unwrap();
        seat.get(variables[n % variables.len()]).unwrap();
        out += seat.swap(variable, 0).unwrap();
    }
    out
}

#[test]
fn variables_are_locks() {
    const THREADS: usize = 8;
    const TIMES: usize = 2_000;

    without_a_hang(|| {
        let board = Switchboard::of_numbers(1 << 32).unwrap();
        let mut first = board.seat().unwrap();
        let variables = &[(); 3].map(|()| first.mvar_init(0).unwrap());
        let out = &AtomicU64::new(0);
        thread::scope(|scope| {
            for (at, mut seat) in seats(&board, THREADS).into_iter().enumerate() {
                scope.spawn(move || {
                    out.fetch_add(count_in(&mut seat, variables, at, TIMES), Ordering::Relaxed)
                });
            }
        });
        let left: u64 = variables.iter().map(|&variable| first.take(variable).unwrap()).sum();
        assert_eq!(left + out.load(Ordering::Relaxed), (THREADS * TIMES) as u64);
    });
}

/// Each message is answered by all before the next one is sent, so that each port is waited at
/// again and again; and none answers before all have received it. Two threads wait at each port in
/// the end, and both return as it closes.
#[test]
fn a_channel_has_eight_ports() {
    const PORTS: usize = 8;
    const MESSAGES: u64 = 1_000;

    without_a_hang(|| {
        let board = Switchboard::of_numbers(1 << 32).unwrap();
        let mut first = board.seat().unwrap();
        let (channel, answers) = (first.channel().unwrap(), first.mailbox().unwrap());
        let ports = &[(); PORTS].map(|()| first.port(channel).unwrap());
        let late = seats(&board, PORTS);
        let all = &Barrier::new(PORTS);
        thread::scope(|scope| {
            for (&port, mut seat) in ports.iter().zip(seats(&board, PORTS)) {
                scope.spawn(move || {
                    for n in 0..MESSAGES {
                        assert_eq!(seat.recv(port), Ok(Some(n)));
                        all.wait();
                        seat.send(answers, n).unwrap();
                    }
                    assert_eq!(seat.recv(port), Ok(None));
                });
            }
            for n in 0..MESSAGES {
                first.multicast(channel, n).unwrap();
                for _ in 0..PORTS {
                    assert_eq!(first.recv(answers), Ok(n));
                }
            }
            for (&port, mut seat) in ports.iter().zip(late) {
                scope.spawn(move || assert_eq!(seat.recv(port), Ok(None)));
            }
            let_them_wait();
            for &port in ports {
                assert_eq!(first.close(port), Ok(true));
            }
        });
    });
}

/// None calls again before all have read it.
#[test]
fn all_that_read_a_variable_are_woken() {
    const THREADS: usize = 8;

    without_a_hang(|| {
        for n in 0..200 {
            let board = Switchboard::of_numbers(100).unwrap();
            let mut first = board.seat().unwrap();
            let variable = first.ivar().unwrap();
            let all = &Barrier::new(THREADS);
            thread::scope(|scope| {
                for mut seat in seats(&board, THREADS) {
                    scope.spawn(move || {
                        assert_eq!(seat.get(variable), Ok(n));
                        all.wait();
                    });
                }
                let_them_wait();
                assert_eq!(first.put(variable, n), Ok(true));
            });
        }
    });
}

/// Makes a call until the journal has room for it. Where it has none this thread cuts it.
fn with_room<T>(board: &Board, full: &AtomicU64, mut call: impl FnMut() -> Result<T, Error>) -> T {
    loop {
        match call() {
            Err(Error::JournalFull) => {
                full.fetch_add(1, Ordering::Relaxed);
                board.cut().unwrap();
            }
            answer => return answer.unwrap(),
        }
    }
}

/// Four threads send and four receive, by a journal that takes this many entries between two cuts:
/// how often it was full.
fn four_send_and_four_receive(limit: u64) -> u64 {
    const EACH: u64 = 3_000;

    let board = &Switchboard::of_numbers(limit).unwrap();
    let mut first = board.seat().unwrap();
    let mailbox = first.mailbox().unwrap();
    let (sum, full) = (&AtomicU64::new(0), &AtomicU64::new(0));
    let (senders, receivers) = (seats(board, 4), seats(board, 4));
    drop(first);
    thread::scope(|scope| {
        for (sender, mut seat) in (0..).zip(senders) {
            scope.spawn(move || {
                for n in 0..EACH {
                    with_room(board, full, || Ok(seat.send(mailbox, 4 * n + sender)?));
                }
            });
        }
        for mut seat in receivers {
            scope.spawn(move || {
                let mut last = [None; 4];
                for _ in 0..EACH {
                    let message = with_room(board, full, || seat.recv(mailbox));
                    let last = &mut last[(message % 4) as usize];
                    assert!(last.replace(message) < Some(message));
                    sum.fetch_add(message, Ordering::Relaxed);
                }
            });
        }
    });
    assert_eq!(board.owed(mailbox), Ok(0));
    assert_eq!(sum.load(Ordering::Relaxed), (0..4 * EACH).sum());
    full.load(Ordering::Relaxed)
}

#[test]
fn four_send_to_four() {
    without_a_hang(|| assert_eq!(four_send_and_four_receive(1 << 32), 0));
}

#[test]
fn the_journal_is_cut_while_others_wait() {
    without_a_hang(|| {
        for limit in [1, 2, 3, 50] {
            assert!(four_send_and_four_receive(limit) > 0);
        }
    });
}

/// A call that makes the journal full, on a board with this channel, and this mailbox that has a
/// message. A feed that it opens comes back, since its end is a call too.
type Filling = for<'a> fn(&'a Board, &mut Seat<'_>, Channel, Mailbox) -> Option<Feed<'a>>;

const FILLINGS: [Filling; 5] = [
    |_, seat, _, mailbox| seat.recv(mailbox).map(|_| None).unwrap(),
    |_, seat, _, mailbox| seat.send(mailbox, 2).map(|()| None).unwrap(),
    |_, seat, channel, _| seat.port(channel).map(|_| None).unwrap(),
    |board, _, channel, _| board.feed(channel, 1).map(Some).unwrap(),
    |board, _, _, mailbox| {
        let mut lane = board.lane(mailbox, 1).unwrap();
        lane.send(2).unwrap();
        assert_eq!(lane.drain(), Ok(1));
        None
    },
];

/// Whichever call makes the journal full, each call that waits fails. No seat calls again before
/// all have failed.
#[test]
fn all_that_wait_are_refused_where_the_journal_is_full() {
    without_a_hang(|| {
        for fill in FILLINGS.iter().cycle().take(200) {
            let board = Switchboard::of_numbers(6).unwrap();
            let mut first = board.seat().unwrap();
            let (channel, full, empty) =
                (first.channel().unwrap(), first.mailbox().unwrap(), first.mailbox().unwrap());
            let variable = first.mvar().unwrap();
            first.send(full, 1).unwrap();
            let all = &Barrier::new(6);
            let _open = thread::scope(|scope| {
                for (n, mut seat) in seats(&board, 6).into_iter().enumerate() {
                    scope.spawn(move || {
                        let told = match n {
                            0..=2 => seat.recv(empty).map(drop),
                            _ => seat.take(variable).map(drop),
                        };
                        assert_eq!(told, Err(Error::JournalFull));
                        all.wait();
                    });
                }
                let_them_wait();
                fill(&board, &mut first, channel, full)
            });
        }
    });
}

/// A pump too may make the journal full.
#[test]
fn all_that_wait_are_refused_where_a_pump_fills_the_journal() {
    without_a_hang(|| {
        for _ in 0..50 {
            let board = Switchboard::of_numbers(5).unwrap();
            let mut first = board.seat().unwrap();
            let (channel, mailbox) = (first.channel().unwrap(), first.mailbox().unwrap());
            let mut feed = board.feed(channel, 1).unwrap();
            first.multicast(channel, 7).unwrap();
            let all = &Barrier::new(3);
            thread::scope(|scope| {
                for mut seat in seats(&board, 3) {
                    scope.spawn(move || {
                        assert_eq!(seat.recv(mailbox), Err(Error::JournalFull));
                        all.wait();
                    });
                }
                let_them_wait();
                assert_eq!(feed.pump(), Ok(1));
            });
            assert_eq!(feed.recv(), Ok(Some(7)));
        }
    });
}

/// What moves the three messages of a lane into the journal. A lane that is still open comes back,
/// since its end is a call too.
type Moving = for<'a> fn(Lane<'a>) -> Option<Lane<'a>>;

const MOVINGS: [Moving; 3] = [
    |mut lane| {
        assert_eq!(lane.drain(), Ok(3));
        Some(lane)
    },
    |lane| lane.close().map(|()| None).unwrap(),
    |_| None,
];

/// Three receive from a lane what moves at once, and none calls again before all have received.
#[test]
fn messages_of_a_lane_wake_all_that_receive_them() {
    without_a_hang(|| {
        for moves in MOVINGS.iter().cycle().take(150) {
            let board = Switchboard::of_numbers(100).unwrap();
            let mut first = board.seat().unwrap();
            let mailbox = first.mailbox().unwrap();
            let mut lane = board.lane(mailbox, 3).unwrap();
            let all = &Barrier::new(3);
            let _open = thread::scope(|scope| {
                for mut seat in seats(&board, 3) {
                    scope.spawn(move || {
                        assert_eq!(seat.recv(mailbox), Ok(7));
                        all.wait();
                    });
                }
                for _ in 0..3 {
                    lane.send(7).unwrap();
                }
                let_them_wait();
                moves(lane)
            });
        }
    });
}

/// Several threads wait, each at an object of another kind or with others, and the last that could
/// go on leaves.
#[test]
fn all_that_wait_are_refused_where_they_are_stalled() {
    without_a_hang(|| {
        for _ in 0..200 {
            let board = Switchboard::of_numbers(100).unwrap();
            let mut first = board.seat().unwrap();
            let mailbox = first.mailbox().unwrap();
            let channel = first.channel().unwrap();
            let port = first.port(channel).unwrap();
            let (once, often) = (first.ivar().unwrap(), first.mvar().unwrap());
            let waiting = seats(&board, 10);
            thread::scope(|scope| {
                for (n, mut seat) in waiting.into_iter().enumerate() {
                    scope.spawn(move || {
                        let told = match n {
                            0..=2 => seat.recv(mailbox).map(drop),
                            3..=4 => seat.recv(port).map(drop),
                            5..=6 => seat.get(once).map(drop),
                            7 => seat.get(often).map(drop),
                            8 => seat.take(often).map(drop),
                            _ => seat.swap(often, 1).map(drop).map_err(Error::from),
                        };
                        assert_eq!(told, Err(Error::Stalled));
                    });
                }
                let_them_wait();
                drop(first);
            });
        }
    });
}

/// A lane holds off the stall. As it is dropped, all that wait are refused.
#[test]
fn the_last_lane_leaves_all_stalled() {
    without_a_hang(|| {
        for n in 0..200 {
            let board = Switchboard::of_numbers(100).unwrap();
            let mut waiting = seats(&board, 6);
            let mailbox = waiting[0].mailbox().unwrap();
            let mut lane = board.lane(mailbox, 2).unwrap();
            let received = &AtomicU64::new(0);
            thread::scope(|scope| {
                for mut seat in waiting {
                    scope.spawn(move || match seat.recv(mailbox) {
                        Ok(message) => {
                            assert_eq!(received.fetch_add(1, Ordering::Relaxed), message);
                        }
                        told => assert_eq!(told, Err(Error::Stalled)),
                    });
                }
                lane.send(0).unwrap();
                if n % 2 == 0 {
                    assert_eq!(lane.drain(), Ok(1));
                }
                let_them_wait();
                drop(lane);
            });
            assert_eq!(received.load(Ordering::Relaxed), 1);
        }
    });
}

/// Who is refused goes on to send, and the other receives that.
#[test]
fn who_is_refused_wakes_the_other() {
    without_a_hang(|| {
        for _ in 0..500 {
            let board = Switchboard::of_numbers(100).unwrap();
            let mut waiting = seats(&board, 2);
            let mailbox = waiting[0].mailbox().unwrap();
            let stalled = &AtomicU64::new(0);
            thread::scope(|scope| {
                for mut seat in waiting {
                    scope.spawn(move || {
                        if seat.recv(mailbox) == Err(Error::Stalled) {
                            stalled.fetch_add(1, Ordering::Relaxed);
                            seat.send(mailbox, 7).unwrap();
                        }
                    });
                }
            });
            assert_eq!(stalled.load(Ordering::Relaxed), 1);
            assert_eq!(board.got(mailbox), Ok(1));
        }
    });
}

/// What the threads of the next test share.
struct Shared {
    board: Board,
    mailboxes: Vec<Mailbox>,
    variables: Vec<MVar>,
    channel: Channel,
    ports: Vec<Port>,
}

impl Shared {
    fn new(limit: u64) -> Shared {
        let board = Switchboard::of_numbers(limit).unwrap();
        let mut first = board.seat().unwrap();
        let mailboxes = mailboxes(&mut first, 3);
        let variables = (0..3).map(|_| first.mvar().unwrap()).collect();
        let channel = first.channel().unwrap();
        let ports = (0..3).map(|_| first.port(channel).unwrap()).collect();
        drop(first);
        Shared {
            board,
            mailboxes,
            variables,
            channel,
            ports,
        }
    }

    /// Makes the call that this number says. Where the journal is full this thread cuts it.
    fn call(&self, seat: &mut Seat<'_>, number: usize) {
        let at = number / 9 % 3;
        let (mailbox, variable, port) = (self.mailboxes[at], self.variables[at], self.ports[at]);
        let told = match number % 9 {
            0 => seat.send(mailbox, 1).map_err(Error::from),
            1..=2 => seat.recv(mailbox).map(drop),
            3 => seat.put(variable, 1).map(drop).map_err(Error::from),
            4 => seat.take(variable).map(drop),
            5 => seat.swap(variable, 2).map(drop).map_err(Error::from),
            6 => seat.get(variable).map(drop),
            7 => seat.multicast(self.channel, 1).map_err(Error::from),
            _ => seat.recv(port).map(drop),
        };
        match told {
            Ok(()) | Err(Error::Stalled) => {}
            Err(Error::JournalFull) => self.board.cut().unwrap(),
            Err(error) => panic!("{error}"),
        }
    }
}

/// Whatever the threads call, all of them end: one that waits is answered or refused.
#[test]
fn threads_that_call_at_random_end() {
    const THREADS: usize = 8;
    const CALLS: usize = 2_000;

    without_a_hang(|| {
        for limit in [12, 50, 1 << 32] {
            let shared = &Shared::new(limit);
            thread::scope(|scope| {
                for (at, mut seat) in seats(&shared.board, THREADS).into_iter().enumerate() {
                    scope.spawn(move || {
                        let mut random = Random::new(at as u64);
                        for _ in 0..CALLS {
                            shared.call(&mut seat, random.below(1 << 20) as usize);
                        }
                    });
                }
            });
        }
    });
}
