//! Threads on one switchboard.

mod common;

use common::Lane;
use seryugo::{Call, Error, Missing, Reply, SendError, Switchboard, Who};
use std::thread;

const SENDERS: u64 = 4;
const EACH: u64 = 5_000;

/// Each sender's messages come in its order, each once.
fn all_in_order(mut next: impl FnMut() -> u64) {
    let mut expected = [0; SENDERS as usize];
    for _ in 0..SENDERS * EACH {
        let message = next();
        let sender = (message / EACH) as usize;
        assert_eq!(message % EACH, expected[sender]);
        expected[sender] += 1;
    }
}

#[test]
fn four_senders_from_seats() {
    let board = Switchboard::of_numbers(1 << 32).unwrap();
    let mut receiver = board.seat().unwrap();
    let mailbox = receiver.mailbox().unwrap();
    let seats: Vec<_> = (0..SENDERS).map(|_| board.seat().unwrap()).collect();
    thread::scope(|scope| {
        for (sender, mut seat) in (0..).zip(seats) {
            scope.spawn(move || {
                for n in 0..EACH {
                    seat.send(mailbox, sender * EACH + n).unwrap();
                }
            });
        }
        all_in_order(|| receiver.recv(mailbox).unwrap());
    });
    assert_eq!(board.got(mailbox), Ok(SENDERS * EACH));
}

fn send_all(mut lane: Lane<'_>, sender: u64) {
    for n in 0..EACH {
        while let Err(refused) = lane.send(sender * EACH + n) {
            assert_eq!(refused.error, Error::Full);
            lane.drain().unwrap();
        }
    }
    lane.close().unwrap();
}

#[test]
fn four_senders_on_lanes() {
    let board = Switchboard::of_numbers(1 << 32).unwrap();
    let mut receiver = board.seat().unwrap();
    let mailbox = receiver.mailbox().unwrap();
    let lanes: Vec<_> = (0..SENDERS).map(|_| board.lane(mailbox, 32).unwrap()).collect();
    thread::scope(|scope| {
        for (sender, lane) in (0..).zip(lanes) {
            scope.spawn(move || send_all(lane, sender));
        }
        all_in_order(|| receiver.recv(mailbox).unwrap());
    });
    assert_eq!(
        board.entry(1).map(|entry| matches!(entry.who, Who::Lane(_) | Who::Seat(_))),
        Some(true)
    );
}

#[test]
fn one_that_receives_drains_a_lane() {
    let board = Switchboard::of_numbers(100).unwrap();
    let mut receiver = board.seat().unwrap();
    let mailbox = receiver.mailbox().unwrap();
    let mut lane = board.lane(mailbox, 2).unwrap();
    let number = lane.number();
    lane.send(5).unwrap();
    thread::scope(|scope| {
        scope.spawn(|| {
            assert_eq!(board.drain(number), Ok(1));
            assert_eq!(board.drain(number + 1), Err(Error::NoSuch(Missing::Lane(number + 1))));
        });
        assert_eq!(receiver.recv(mailbox), Ok(5));
    });
}

#[test]
fn two_that_both_wait_are_stalled() {
    let board = Switchboard::of_numbers(100).unwrap();
    let mut one = board.seat().unwrap();
    let mut two = board.seat().unwrap();
    let mailbox = one.mailbox().unwrap();
    thread::scope(|scope| {
        let first = scope.spawn(move || one.recv(mailbox));
        let second = scope.spawn(move || two.recv(mailbox));
        assert_eq!(first.join().unwrap(), Err(Error::Stalled));
        assert_eq!(second.join().unwrap(), Err(Error::Stalled));
    });
}

#[test]
fn refusals_are_told() {
    assert_eq!(Switchboard::of_numbers(0).err(), Some(Error::OutOfBounds));
    let board = Switchboard::of_numbers(2).unwrap();
    let mut seat = board.seat().unwrap();
    let mailbox = seat.mailbox().unwrap();
    let lane = board.lane(mailbox, 1).unwrap();
    assert_eq!(board.cut(), Err(Error::Busy));
    assert_eq!(board.lane(mailbox, 0).err(), Some(Error::OutOfBounds));
    drop(lane);
    assert_eq!(seat.recv_poll(mailbox), Ok(None));
    let (message, error) = (5, Error::JournalFull);
    assert_eq!(seat.send(mailbox, 5), Err(SendError { message, error }));
    assert_eq!(board.cut(), Ok(()));
    assert_eq!(seat.send(mailbox, 5), Ok(()));
    assert_eq!((board.entries(), board.cut_at()), (3, 2));
}

#[test]
fn a_journal_is_taken_and_read_by_another_thread() {
    let board = Switchboard::of_numbers(100).unwrap();
    let mut seat = board.seat().unwrap();
    let channel = seat.channel().unwrap();
    seat.multicast(channel, 5).unwrap();
    let port = seat.port(channel).unwrap();
    assert_eq!((board.channel_of(port), board.start_of(port)), (Ok(channel), Ok(1)));
    let lane = board.lane(channel, 1).unwrap();
    assert_eq!(board.take_journal().err(), Some(Error::Busy));
    drop(lane);
    let journal = board.take_journal().unwrap();
    assert_eq!((board.entries(), board.cut_at(), board.entry(1)), (3, 3, None));
    seat.multicast(channel, 6).unwrap();
    let calls: Vec<Call<u64>> =
        thread::spawn(move || journal.iter().map(|entry| entry.call).collect()).join().unwrap();
    assert_eq!(calls, [Call::NewChannel, Call::Multicast(0, 5), Call::NewPort(0)]);
    let rest = board.take_journal().unwrap();
    assert_eq!(
        (rest.len(), rest.entry(0).map(|entry| entry.call)),
        (1, Some(Call::Multicast(0, 6)))
    );
    assert_eq!(rest.entry(1), None);
    assert!(board.take_journal().unwrap().is_empty());
}

#[test]
fn the_journal_is_read_by_position() {
    let board = Switchboard::of_numbers(100).unwrap();
    let mut seat = board.seat().unwrap();
    let channel = seat.channel().unwrap();
    let port = seat.port(channel).unwrap();
    seat.multicast(channel, 5).unwrap();
    assert_eq!(seat.recv(port), Ok(Some(5)));
    assert_eq!(seat.close(port), Ok(true));
    assert_eq!(seat.recv(port), Ok(None));
    let entry = board.entry(2).unwrap();
    assert_eq!(
        (entry.who, entry.call, entry.reply),
        (Who::Seat(0), Call::Multicast(0, 5), Reply::Done)
    );
    assert_eq!(board.entry(5).map(|entry| entry.reply), Some(Reply::Closed));
    assert_eq!(board.entry(6), None);
}
