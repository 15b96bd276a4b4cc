//! Seats, lanes and feeds that have a share of their switchboard: they are stored beside it, go to
//! threads that outlive the caller, and are dropped in any order.
//!
//! Miri runs no foreign function, so it can't run these. Under `valgrind` they have no fault.

mod common;

use common::{let_them_wait, without_a_hang, PATIENCE};
use seryugo::{Bytes, Error, Holds, Mailbox, Numbers, OwnedFeed, OwnedLane, OwnedSeat};
use seryugo::{Seat, Switchboard, WhenFull};
use std::future::Future;
use std::pin::Pin;
use std::sync::{Arc, Mutex, Weak};
use std::task::{Context, Poll, Wake, Waker};
use std::thread;

fn board() -> Arc<Switchboard> {
    Arc::new(Switchboard::new(1_000).unwrap())
}

/// Whether nothing has a share any more.
fn is_gone<R: seryugo::MessageKind>(board: &Weak<Switchboard<R>>) -> bool {
    board.upgrade().is_none()
}

/// All that a service needs, in one value.
struct Service {
    board: Arc<Switchboard>,
    seat: OwnedSeat,
    requests: Mailbox<String>,
    log: OwnedLane<Bytes, u64>,
    news: OwnedFeed<Bytes, String>,
}

impl Service {
    fn new() -> Result<Service, Error> {
        let board = board();
        let mut seat = board.seat_owned()?;
        let (requests, lengths) = (seat.mailbox()?, seat.mailbox()?);
        let channel = seat.channel()?;
        Ok(Service {
            log: board.lane_owned(lengths, 8)?,
            news: board.feed_owned(channel, 8)?,
            board,
            seat,
            requests,
        })
    }

    /// Answers one request.
    fn serve(&mut self) -> Result<String, Error> {
        let request = self.seat.recv(self.requests)?;
        self.log.send(request.len() as u64)?;
        let news = self.board.channel::<String>(2)?;
        self.seat.multicast(news, &request)?;
        self.news.pump()?;
        Ok(self.news.recv()?.unwrap_or_default())
    }
}

#[test]
fn a_struct_has_a_switchboard_with_its_seat_its_lane_and_its_feed() {
    let mut service = Service::new().unwrap();
    let (mut client, requests) = (service.board.seat_owned().unwrap(), service.requests);
    let server = thread::spawn(move || (service.serve(), service));
    client.send(requests, "dig".to_string()).unwrap();
    let (served, service) = server.join().unwrap();
    assert_eq!(served.unwrap(), "dig");
    let (board, lengths) = (service.board.clone(), service.board.mailbox::<u64>(1).unwrap());
    drop(service);
    assert_eq!(client.recv(lengths), Ok(3));
    assert_eq!((board.lost(), board.cut()), (0, Ok(())));
}

#[test]
fn each_goes_to_another_thread_and_stays_as_long_as_it_likes() {
    fn goes_anywhere<T: Send + 'static>() {}
    goes_anywhere::<OwnedSeat>();
    goes_anywhere::<OwnedSeat<Numbers>>();
    goes_anywhere::<OwnedLane<Bytes, std::rc::Rc<u8>>>();
    goes_anywhere::<OwnedFeed<Numbers, u64>>();
}

#[test]
fn threads_that_are_spawned_send_and_receive() {
    const ROUNDS: u64 = 1_000;
    without_a_hang(|| {
        for round in 0..ROUNDS {
            let board = Arc::new(Switchboard::of_numbers(100).unwrap());
            let (mut sender, mut receiver) =
                (board.seat_owned().unwrap(), board.seat_owned().unwrap());
            let mailbox = receiver.mailbox::<u64>().unwrap();
            let gone = Arc::downgrade(&board);
            drop(board);
            let sending = thread::spawn(move || sender.send(mailbox, round).unwrap());
            let receiving = thread::spawn(move || (receiver.recv(mailbox), receiver.recv(mailbox)));
            assert_eq!(receiving.join().unwrap(), (Ok(round), Err(Error::Stalled)));
            sending.join().unwrap();
            assert!(is_gone(&gone));
        }
    });
}

/// A switchboard with a seat, a lane and a feed, all of which have messages.
fn parts() -> (Weak<Switchboard>, Vec<Box<dyn Send>>) {
    let board = board();
    let mut seat = board.seat_owned().unwrap();
    let (mailbox, channel) = (seat.mailbox().unwrap(), seat.channel().unwrap());
    let mut lane = board.lane_owned(mailbox, 4).unwrap();
    let mut feed = board.feed_owned(channel, 4).unwrap();
    lane.send(5_u64).unwrap();
    seat.multicast(channel, 6_u64).unwrap();
    feed.pump().unwrap();
    let gone = Arc::downgrade(&board);
    (
        gone,
        vec![
            Box::new(board),
            Box::new(seat),
            Box::new(lane),
            Box::new(feed),
        ],
    )
}

#[test]
fn they_are_dropped_in_any_order() {
    for order in 0..24 {
        let (gone, mut parts) = parts();
        for next in [order % 4, order / 4 % 3, order / 12] {
            let part = parts.remove(next);
            // Every other one goes in another thread.
            if parts.len() % 2 == 0 {
                drop(part);
            } else {
                thread::spawn(move || drop(part)).join().unwrap();
            }
            assert!(!is_gone(&gone));
        }
        drop(parts);
        assert!(is_gone(&gone));
    }
}

#[test]
fn the_last_seat_waits_while_all_others_go() {
    without_a_hang(|| {
        let board = board();
        let (mut waits, leaves) = (board.seat_owned().unwrap(), board.seat_owned().unwrap());
        let mailbox = waits.mailbox::<u64>().unwrap();
        let gone = Arc::downgrade(&board);
        let waiter = thread::spawn(move || waits.recv(mailbox));
        drop(board);
        let_them_wait();
        drop(leaves);
        assert_eq!(waiter.join().unwrap(), Err(Error::Stalled));
        assert!(is_gone(&gone));
    });
}

/// A sink that counts the entries that it was handed, and takes them or refuses them.
fn sink(takes: bool) -> (Arc<Mutex<usize>>, WhenFull) {
    let handed = Arc::new(Mutex::new(0));
    let counted = handed.clone();
    let sink = WhenFull::call(move |journal| {
        *counted.lock().unwrap() += journal.len();
        takes.then_some(()).ok_or_else(|| std::io::ErrorKind::StorageFull.into())
    });
    (handed, sink)
}

#[test]
fn a_switchboard_that_goes_hands_nothing_over() {
    for takes in [true, false] {
        let (handed, sink) = sink(takes);
        let board = Arc::new(Switchboard::new(2).unwrap().when_full(sink));
        let mut seat = board.seat_owned().unwrap();
        let mailbox = seat.mailbox::<u64>().unwrap();
        seat.send(mailbox, 5).unwrap();
        // The journal is full, and its sink takes its two entries or refuses them.
        assert_eq!(seat.send(mailbox, 6).is_ok(), takes);
        assert_eq!(*handed.lock().unwrap(), 2);
        drop(board);
        thread::spawn(move || drop(seat)).join().unwrap();
        // The sink is gone with the switchboard, and was handed nothing more.
        assert_eq!((*handed.lock().unwrap(), Arc::strong_count(&handed)), (2, 1));
    }
}

#[test]
fn what_is_left_is_handed_over_by_keep() {
    let (handed, sink) = sink(true);
    let board = Arc::new(Switchboard::new(1_000).unwrap().when_full(sink));
    let mut seat = board.seat_owned().unwrap();
    thread::spawn(move || seat.mailbox::<u64>().unwrap()).join().unwrap();
    board.keep().unwrap();
    drop(board);
    assert_eq!(*handed.lock().unwrap(), 1);
}

/// A future that has its seat, and so a share.
type Task = Pin<Box<dyn Future<Output = Result<u64, Error>> + Send>>;

fn task(mut seat: OwnedSeat, mailbox: Mailbox<u64>) -> Task {
    Box::pin(async move { seat.recv_async(mailbox).await })
}

fn poll(task: &mut Task, waker: &Waker) -> Poll<Result<u64, Error>> {
    task.as_mut().poll(&mut Context::from_waker(waker))
}

/// A waker that has a share too.
struct Woken(Mutex<Option<Arc<Switchboard>>>);

impl Wake for Woken {
    fn wake(self: Arc<Self>) {
        self.0.lock().unwrap().take();
    }
}

#[test]
fn a_future_has_its_seat() {
    let board = board();
    let (mut seat, waiting) = (board.seat_owned().unwrap(), board.seat_owned().unwrap());
    let mailbox = seat.mailbox().unwrap();
    let mut task = task(waiting, mailbox);
    let woken = Arc::new(Woken(Mutex::new(Some(board.clone()))));
    let gone = Arc::downgrade(&board);
    drop(board);
    assert_eq!(poll(&mut task, &woken.clone().into()), Poll::Pending);
    seat.send(mailbox, 5).unwrap();
    drop(seat);
    assert!(woken.0.lock().unwrap().is_none() && !is_gone(&gone));
    assert_eq!(poll(&mut task, Waker::noop()), Poll::Ready(Ok(5)));
    drop(task);
    assert!(is_gone(&gone));
}

#[test]
fn a_future_that_waits_is_the_last_to_go() {
    let board = board();
    let (mut seat, waiting) = (board.seat_owned().unwrap(), board.seat_owned().unwrap());
    let mailbox = seat.mailbox().unwrap();
    let mut task = task(waiting, mailbox);
    let woken = Arc::new(Woken(Mutex::new(Some(board.clone()))));
    let gone = Arc::downgrade(&board);
    assert_eq!(poll(&mut task, &woken.clone().into()), Poll::Pending);
    drop((board, seat));
    assert!(woken.0.lock().unwrap().is_none(), "nothing can answer the future: it is woken");
    drop((task, woken));
    assert!(is_gone(&gone));
}

#[test]
fn a_seat_goes_after_a_future_that_was_forgotten() {
    let board = board();
    let (mut other, mut seat) = (board.seat_owned().unwrap(), board.seat_owned().unwrap());
    let mailbox = seat.mailbox::<u64>().unwrap();
    let mut forgotten = Box::pin(seat.recv_async(mailbox));
    let mut context = Context::from_waker(Waker::noop());
    assert_eq!(forgotten.as_mut().poll(&mut context), Poll::Pending);
    std::mem::forget(forgotten);
    let gone = Arc::downgrade(&board);
    drop((board, seat));
    assert_eq!(other.recv(mailbox), Err(Error::Stalled));
    drop(other);
    assert!(is_gone(&gone));
}

/// Waits for a message on a seat of any holder.
fn receive(seat: &mut Seat<'_, Bytes, impl Holds<Bytes>>, from: Mailbox<u64>) -> Option<u64> {
    seat.recv_timeout(from, PATIENCE).ok()
}

#[test]
fn both_kinds_of_seats_are_on_one_switchboard() {
    let board = board();
    let (mut borrowed, mut owned) = (board.seat().unwrap(), board.seat_owned().unwrap());
    let mailbox = owned.mailbox().unwrap();
    owned.send(mailbox, 5).unwrap();
    borrowed.send(mailbox, 6).unwrap();
    assert_eq!((receive(&mut borrowed, mailbox), receive(&mut owned, mailbox)), (Some(5), Some(6)));
    assert_eq!((borrowed.number(), owned.number()), (0, 1));
    assert_eq!(owned.iter(mailbox).error(), None);
}
