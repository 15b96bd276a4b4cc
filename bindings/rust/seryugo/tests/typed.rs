//! Objects with types, on a switchboard of bytes.

mod common;

use common::{block_on, let_them_wait, without_a_hang, PATIENCE};
use seryugo::{
    Bytes, Call, Checker, Error, Kind, Mailbox, Message, Missing, Numbers, Object, Reply, Seat,
    SendError, Switchboard,
};
use std::alloc::{alloc_zeroed, Layout};
use std::collections::HashSet;
use std::future::Future;
use std::pin::pin;
use std::rc::Rc;
use std::task::{Context, Poll, Waker};
use std::thread;
use std::time::{Duration, Instant};

const A_MILLISECOND: Duration = Duration::from_millis(1);
/// It has more bytes than lie in the library's struct.
const LONG: &str =
    "a message of more bytes than lie in the struct that the library writes, so that the library \
     keeps it till it is freed";

/// A type of a user.
#[derive(Clone, Debug, PartialEq)]
struct Order {
    item: String,
    count: u32,
    note: Option<String>,
}

impl Message for Order {
    fn write_to(&self, bytes: &mut Vec<u8>) {
        (self.item.clone(), self.count, self.note.clone()).write_to(bytes);
    }

    fn from_bytes(bytes: &[u8]) -> Option<Order> {
        let (item, count, note) = Message::from_bytes(bytes)?;
        Some(Order { item, count, note })
    }
}

fn order(count: u32) -> Order {
    Order {
        item: format!("the item with the number {count}"),
        count,
        note: (count > 1).then(|| "in haste".to_string()),
    }
}

#[test]
fn a_struct_is_sent() {
    let board = Switchboard::new(100).unwrap();
    let mut seat = board.seat().unwrap();
    let orders: Mailbox<Order> = seat.mailbox().unwrap();
    seat.send(orders, &order(1)).unwrap();
    seat.send(orders, order(2)).unwrap();
    seat.send(orders, Box::new(order(3))).unwrap();
    let received: Vec<Order> = seat.try_iter(orders).collect();
    assert_eq!(received, [order(1), order(2), order(3)]);
}

#[test]
fn each_call_hands_over_what_was_sent() {
    let board = Switchboard::new(100).unwrap();
    let mut seat = board.seat().unwrap();
    let text = |n: u32| format!("{LONG} {n}");
    let soon = || Instant::now() + PATIENCE;
    let mailbox = seat.mailbox::<String>().unwrap();
    (0..5).for_each(|n| seat.send(mailbox, text(n)).unwrap());
    assert_eq!(seat.recv(mailbox), Ok(text(0)));
    assert_eq!(seat.recv_poll(mailbox), Ok(Some(text(1))));
    assert_eq!(seat.recv_timeout(mailbox, A_MILLISECOND), Ok(text(2)));
    assert_eq!(seat.recv_deadline(mailbox, soon()), Ok(text(3)));
    assert_eq!(block_on(seat.recv_async(mailbox)), Ok(text(4)));
    let variable = seat.mvar_init(text(5)).unwrap();
    assert_eq!((seat.get(variable), seat.get_poll(variable)), (Ok(text(5)), Ok(Some(text(5)))));
    assert_eq!(seat.get_timeout(variable, A_MILLISECOND), Ok(text(5)));
    assert_eq!(seat.get_deadline(variable, soon()), Ok(text(5)));
    assert_eq!(block_on(seat.get_async(variable)), Ok(text(5)));
    assert_eq!(seat.swap(variable, text(6)), Ok(text(5)));
    assert_eq!(seat.swap_timeout(variable, text(7), A_MILLISECOND), Ok(text(6)));
    assert_eq!(seat.swap_deadline(variable, text(8), soon()), Ok(text(7)));
    assert_eq!(block_on(seat.swap_async(variable, text(9))), Ok(text(8)));
    assert_eq!((board.held(variable), seat.take(variable)), (Ok(Some(text(9))), Ok(text(9))));
    assert_eq!((seat.take_poll(variable), board.held(variable)), (Ok(None), Ok(None)));
    let mut put = |n| assert_eq!(seat.put(variable, text(n)), Ok(true));
    put(10);
    assert_eq!(board.held(variable), Ok(Some(text(10))));
    assert_eq!(seat.take_timeout(variable, A_MILLISECOND), Ok(text(10)));
}

/// The error that a message of this text is, where a number was expected.
fn unreadable<T>(text: &str) -> Result<T, Error> {
    Err(Error::Unreadable {
        wanted: "u64",
        bytes: text.as_bytes().to_vec(),
    })
}

/// What can't be read is received all the same: its bytes are in the error, and what is after it
/// is next.
#[test]
fn what_is_of_another_type_comes_as_bytes() {
    let board = Switchboard::new(100).unwrap();
    let mut seat = board.seat().unwrap();
    let texts = seat.mailbox::<String>().unwrap();
    let numbers = board.mailbox::<u64>(0).unwrap();
    for text in ["", "short", LONG] {
        for _ in 0..5 {
            seat.send(texts, text.to_string()).unwrap();
        }
        seat.send(numbers, 7).unwrap();
        assert_eq!(seat.recv(numbers), unreadable(text));
        assert_eq!(seat.recv_poll(numbers), unreadable(text));
        assert_eq!(seat.recv_timeout(numbers, A_MILLISECOND), unreadable(text));
        assert_eq!(block_on(seat.recv_async(numbers)), unreadable(text));
        let mut messages = seat.iter(numbers);
        assert_eq!((messages.next(), messages.error()), (None, unreadable::<()>(text).err()));
        assert_eq!(seat.recv(numbers), Ok(7));
        assert_eq!(board.owed(numbers), Ok(0));
    }
    let shown =
        seat.send(texts, LONG.to_string()).map(|()| seat.recv(numbers).unwrap_err().to_string());
    assert_eq!(shown.unwrap(), "the message received, of 117 bytes, is no `u64`");
}

#[test]
fn variables_keep_what_is_of_another_type() {
    let board = Switchboard::new(100).unwrap();
    let mut seat = board.seat().unwrap();
    let text = seat.mvar_init(LONG.to_string()).unwrap();
    let number = board.mvar::<u64>(0).unwrap();
    assert_eq!((seat.get(number), seat.get_poll(number)), (unreadable(LONG), unreadable(LONG)));
    assert_eq!(
        (board.held(number), board.held(text)),
        (unreadable(LONG), Ok(Some(LONG.to_string())))
    );
    let refused = seat.swap(number, 5).unwrap_err();
    assert_eq!((refused.message, Err(refused.error)), (5, unreadable::<()>(LONG)));
    assert_eq!(board.held(number), Ok(Some(5)), "the swap was done");
    assert_eq!(seat.take(number), Ok(5));
    assert_eq!(seat.put(text, LONG.to_string()), Ok(true));
    assert_eq!((seat.take(number), board.held(text)), (unreadable(LONG), Ok(None)));
}

#[test]
fn lanes_and_feeds_have_types() {
    let board = Switchboard::new(100).unwrap();
    let mut seat = board.seat().unwrap();
    let channel = seat.channel::<String>().unwrap();
    let port = seat.port(channel).unwrap();
    let mut feed = board.feed(channel, 8).unwrap();
    let mut lane = board.lane(channel, 2).unwrap();
    lane.send(LONG.to_string()).unwrap();
    lane.send("short".to_string()).unwrap();
    let refused: SendError<String> = lane.send(String::new()).unwrap_err();
    assert_eq!((refused.error.clone(), refused.error.is_retryable()), (Error::Full, true));
    assert_eq!(lane.drain(), Ok(2));
    lane.send(refused.into_message()).unwrap();
    lane.close().unwrap();
    assert_eq!((feed.recv(), feed.pump()), (Ok(None), Ok(3)));
    let fed: Vec<String> = std::iter::from_fn(|| feed.recv().unwrap()).collect();
    assert_eq!(fed, [LONG, "short", ""]);
    assert_eq!(seat.try_iter(port).collect::<Vec<_>>(), [LONG, "short", ""]);

    let mut numbers = board.feed(board.channel::<u64>(0).unwrap(), 8).unwrap();
    seat.multicast(channel, LONG.to_string()).unwrap();
    let mut lane = board.lane(board.channel::<u64>(0).unwrap(), 1).unwrap();
    lane.send(5).unwrap();
    lane.close().unwrap();
    assert_eq!(numbers.pump(), Ok(2));
    assert_eq!(
        (numbers.recv(), numbers.recv(), numbers.recv()),
        (unreadable(LONG), Ok(Some(5)), Ok(None))
    );
}

/// What is left in lanes, feeds, mailboxes and variables is freed with them.
#[test]
fn messages_may_be_left_anywhere() {
    let board = Switchboard::new(9).unwrap();
    let mut seat = board.seat().unwrap();
    let channel = seat.channel::<String>().unwrap();
    let text = || LONG.to_string();
    let _variable = seat.mvar_init(text()).unwrap();
    let mut feed = board.feed(channel, 8).unwrap();
    let mut lane = board.lane(channel, 8).unwrap();
    (0..8).for_each(|_| lane.send(text()).unwrap());
    assert_eq!((lane.drain(), feed.pump()), (Ok(6), Err(Error::JournalFull)));
    assert_eq!(lane.close().unwrap_err().error(), Error::JournalFull);
    drop(feed);
    assert_eq!(board.lost(), 2);
    let journal = board.take_journal().unwrap();
    drop(seat);
    drop(board);
    assert_eq!(journal.iter().filter(|entry| entry.reply == Reply::Done).count(), 6);
}

#[test]
fn each_refusal_hands_the_message_back() {
    let board = Switchboard::new(4).unwrap();
    let (mut seat, other) = (board.seat().unwrap(), Switchboard::new(100).unwrap());
    let mut elsewhere = other.seat().unwrap();
    let (mailbox, channel) = (elsewhere.mailbox().unwrap(), elsewhere.channel().unwrap());
    let (once, often) = (elsewhere.ivar().unwrap(), elsewhere.mvar().unwrap());
    let back = |error| SendError {
        message: order(1),
        error,
    };
    let elsewhere = |kind, number| back(Error::NoSuch(Missing::Elsewhere(kind, number)));
    assert_eq!(seat.send(mailbox, order(1)), Err(elsewhere(Kind::Mailbox, 0)));
    assert_eq!(seat.multicast(channel, order(1)), Err(elsewhere(Kind::Channel, 1)));
    assert_eq!(seat.put(once, order(1)), Err(elsewhere(Kind::IVar, 2)));
    assert_eq!(seat.put(often, order(1)), Err(elsewhere(Kind::MVar, 3)));
    assert_eq!(seat.swap(often, order(1)), Err(elsewhere(Kind::MVar, 3)));
    assert_eq!(block_on(seat.swap_async(often, order(1))), Err(elsewhere(Kind::MVar, 3)));

    let (mailbox, channel) = (seat.mailbox().unwrap(), seat.channel().unwrap());
    let (once, often) = (seat.ivar().unwrap(), seat.mvar().unwrap());
    assert_eq!(seat.send(mailbox, order(1)), Err(back(Error::JournalFull)));
    assert_eq!(seat.multicast(channel, order(1)), Err(back(Error::JournalFull)));
    assert_eq!(seat.put(once, order(1)), Err(back(Error::JournalFull)));
    assert_eq!(seat.put(often, order(1)), Err(back(Error::JournalFull)));
    assert_eq!(seat.mvar_init(order(1)), Err(back(Error::JournalFull)));
    assert_eq!(seat.swap(often, order(1)), Err(back(Error::JournalFull)));
    board.cut().unwrap();
    assert_eq!(seat.swap(often, order(1)), Err(back(Error::Stalled)));
    let _free = board.seat().unwrap();
    assert_eq!(seat.swap_timeout(often, order(1), A_MILLISECOND), Err(back(Error::TimedOut)));
    assert_eq!(seat.swap_deadline(often, order(1), Instant::now()), Err(back(Error::TimedOut)));
    let borrowed = order(1);
    let refused = seat.swap_timeout(often, &borrowed, Duration::ZERO).unwrap_err();
    assert!(std::ptr::eq(refused.message, &raw const borrowed));
    assert_eq!(Error::from(refused), Error::TimedOut);
}

/// This many zeros, which take no memory before they are read. `None` if the system gives no program
/// this many.
fn zeros(length: usize) -> Option<Vec<u8>> {
    let layout = Layout::array::<u8>(length).ok()?;
    // SAFETY: the layout has bytes.
    let at = unsafe { alloc_zeroed(layout) };
    if at.is_null() {
        return None;
    }
    let bytes = std::ptr::slice_from_raw_parts_mut(at, length);
    // SAFETY: the global allocator has allocated just these bytes, and they are zeros.
    Some(unsafe { Box::from_raw(bytes) }.into_vec())
}

/// The library doesn't read a message that is too long.
#[test]
#[cfg(target_pointer_width = "64")]
fn a_message_may_be_too_long() {
    let Some(long) = zeros(1 << 32) else {
        println!("left out: this system gives no program 4 GB");
        return;
    };
    let board = Switchboard::new(100).unwrap();
    let mut seat = board.seat().unwrap();
    let mailbox = seat.mailbox::<Vec<u8>>().unwrap();
    let refused = seat.send(mailbox, long).unwrap_err();
    assert_eq!((refused.error, refused.message.len()), (Error::OutOfBounds, 1 << 32));
    assert_eq!(
        board.lane(mailbox, 1).unwrap().send(refused.message).unwrap_err().error,
        Error::OutOfBounds
    );
    assert_eq!((board.entries(), board.lost()), (1, 0));
}

#[test]
fn errors_of_sends_need_no_message_that_shows_itself() {
    struct Plain;

    impl Message for Plain {
        fn write_to(&self, _: &mut Vec<u8>) {}

        fn from_bytes(bytes: &[u8]) -> Option<Plain> {
            bytes.is_empty().then_some(Plain)
        }
    }

    fn send(board: &Switchboard) -> Result<(), Box<dyn std::error::Error>> {
        let mut seat = board.seat()?;
        let mailbox = seat.mailbox::<Plain>()?;
        Ok(seat.send(mailbox, Plain)?)
    }

    let error = send(&Switchboard::new(1).unwrap()).unwrap_err();
    assert_eq!(
        error.to_string(),
        "the message wasn't sent: the journal is full until it is cut or taken"
    );
    assert_eq!(error.source().unwrap().to_string(), Error::JournalFull.to_string());
    assert_eq!(format!("{error:?}"), "SendError { error: JournalFull, .. }");
    assert!(send(&Switchboard::new(2).unwrap()).is_ok());
}

#[test]
fn names_need_nothing_of_their_type() {
    fn is_shared<T: Send + Sync + Copy>(_: T) {}

    /// No thread may have it but its own, and it can't be compared.
    struct Local(#[allow(dead_code)] Rc<()>);

    impl Message for Local {
        fn write_to(&self, _: &mut Vec<u8>) {}

        fn from_bytes(_: &[u8]) -> Option<Local> {
            None
        }
    }

    let board = Switchboard::new(100).unwrap();
    let mut seat = board.seat().unwrap();
    let (one, two) = (seat.mailbox::<Local>().unwrap(), seat.mailbox::<Local>().unwrap());
    is_shared(one);
    is_shared(seat.channel::<Local>().unwrap());
    is_shared(seat.mvar::<Local>().unwrap());
    assert_eq!(HashSet::from([one, two, one]).len(), 2);
    assert_eq!((one == board.mailbox(0).unwrap(), one == two), (true, false));
    assert_eq!(
        format!("{one:?} {two:?} {:?}", seat.ivar::<Local>().unwrap()),
        "Mailbox(0) Mailbox(1) IVar(4)"
    );
    seat.send(one, Local(Rc::new(()))).unwrap();
    let unreadable = seat.recv(one).err();
    assert!(matches!(unreadable, Some(Error::Unreadable { bytes, .. }) if bytes.is_empty()));
}

/// Passes on each order that it receives, with its count as an answer.
fn serve(mut seat: Seat<'_>, orders: Mailbox<Order>, answers: Mailbox<(u32, String)>) {
    loop {
        match seat.recv(orders) {
            Ok(order) => seat.send(answers, (order.count, order.item)).unwrap(),
            Err(error) => return assert_eq!(error, Error::Stalled),
        }
    }
}

#[test]
fn threads_send_two_types_on_one_switchboard() {
    const CLIENTS: u32 = 4;
    const EACH: u32 = 500;

    without_a_hang(|| {
        let board = Switchboard::new(1 << 32).unwrap();
        let mut first = board.seat().unwrap();
        let (orders, answers) =
            (first.mailbox::<Order>().unwrap(), first.mailbox::<(u32, String)>().unwrap());
        let (clients, servers) = (seats(&board, CLIENTS), seats(&board, 3));
        thread::scope(|scope| {
            for seat in servers {
                scope.spawn(move || serve(seat, orders, answers));
            }
            for (client, mut seat) in (0..).zip(clients) {
                scope.spawn(move || {
                    (0..EACH).for_each(|n| seat.send(orders, order(client * EACH + n)).unwrap());
                });
            }
            let mut seen = HashSet::new();
            for _ in 0..CLIENTS * EACH {
                let (count, item) = first.recv(answers).unwrap();
                assert_eq!(item, order(count).item);
                assert!(seen.insert(count));
            }
            drop(first);
        });
        assert_eq!((board.owed(orders), board.owed(answers)), (Ok(0), Ok(0)));
    });
}

fn seats(board: &Switchboard, count: u32) -> Vec<Seat<'_>> {
    (0..count).map(|_| board.seat().unwrap()).collect()
}

#[test]
fn a_journal_is_written_and_gone_on_from() {
    let mut text = Vec::new();
    let before = Switchboard::new(100).unwrap();
    let mut seat = before.seat().unwrap();
    let orders = seat.mailbox::<Order>().unwrap();
    let channel = seat.channel::<(String, Option<u8>)>().unwrap();
    let port = seat.port(channel).unwrap();
    let lock = seat.mvar_init(LONG.to_string()).unwrap();
    (0..3).for_each(|n| seat.send(orders, order(n)).unwrap());
    assert_eq!(seat.recv(orders), Ok(order(0)));
    seat.multicast(channel, (String::new(), Some(5))).unwrap();
    let journal = before.take_journal().unwrap();
    let sent = journal.iter().find_map(|entry| match entry.call {
        Call::Send(0, bytes) => Order::from_bytes(&bytes),
        _ => None,
    });
    assert_eq!(sent, Some(order(0)));
    let received = journal.iter().find_map(|entry| match (entry.call, entry.reply) {
        (Call::Recv(0), Reply::Got(bytes)) => Order::from_bytes(&bytes),
        _ => None,
    });
    assert_eq!(received, Some(order(0)));
    journal.write_to(&mut text).unwrap();
    drop(seat);
    drop(before);

    let board: Switchboard = Switchboard::restore(&text[..], 100).unwrap();
    let mut seat = board.seat().unwrap();
    assert_eq!(
        seat.send(orders, order(9)).unwrap_err().error,
        Error::NoSuch(Missing::Elsewhere(Kind::Mailbox, orders.number())),
        "the name is of the other one"
    );
    let orders = board.mailbox::<Order>(orders.number()).unwrap();
    assert_eq!(seat.try_iter(orders).collect::<Vec<_>>(), [order(1), order(2)]);
    let port = board.port::<(String, Option<u8>)>(port.number()).unwrap();
    assert_eq!(seat.recv(port), Ok(Some((String::new(), Some(5)))));
    let lock = board.mvar::<String>(lock.number()).unwrap();
    assert_eq!(seat.take(lock), Ok(LONG.to_string()));
    board.take_journal().unwrap().write_to(&mut text).unwrap();
    let mut checker = Checker::new().unwrap();
    checker.read(&text[..]).unwrap();
    assert_eq!((checker.entries(), checker.is_whole()), (board.entries(), true));
}

/// A journal of numbers is none of bytes.
#[test]
fn a_journal_has_one_kind_of_messages() {
    let numbers = Switchboard::of_numbers(100).unwrap();
    let mut text = Vec::new();
    let mailbox = numbers.seat().unwrap().mailbox().unwrap();
    numbers.seat().unwrap().send(mailbox, 5).unwrap();
    numbers.take_journal().unwrap().write_to(&mut text).unwrap();
    assert!(Switchboard::<Numbers>::restore(&text[..], 100).is_ok());
    assert!(Switchboard::<Bytes>::restore(&text[..], 100).is_err());
}

#[test]
fn futures_have_types() {
    fn is_sent<T: Send>(value: T) -> T {
        value
    }

    without_a_hang(|| {
        let board = Switchboard::new(100).unwrap();
        let (mut seat, mut other) = (board.seat().unwrap(), board.seat().unwrap());
        let mailbox = seat.mailbox::<Order>().unwrap();
        let variable = seat.mvar::<String>().unwrap();
        let mut context = Context::from_waker(Waker::noop());
        {
            let mut received = pin!(is_sent(seat.recv_async(mailbox)));
            assert_eq!(received.as_mut().poll(&mut context), Poll::Pending);
            other.send(mailbox, order(1)).unwrap();
            assert_eq!(received.as_mut().poll(&mut context), Poll::Ready(Ok(order(1))));
        }
        {
            let mut swapped = pin!(is_sent(seat.swap_async(variable, LONG.to_string())));
            assert!(swapped.as_mut().poll(&mut context).is_pending());
            other.put(variable, "short".to_string()).unwrap();
            // It is due, and is dropped before it is polled again: it has done nothing.
        }
        assert_eq!(board.held(variable), Ok(Some("short".to_string())));
        assert_eq!(block_on(seat.swap_async(variable, LONG.to_string())), Ok("short".to_string()));
        thread::scope(|scope| {
            scope.spawn(move || assert_eq!(block_on(seat.recv_async(mailbox)), Ok(order(2))));
            let_them_wait();
            other.send(mailbox, order(2)).unwrap();
        });
        assert_eq!(other.take(variable), Ok(LONG.to_string()));
    });
}
