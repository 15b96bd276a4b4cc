//! The calls of a seat that are on objects, and the readers, by tables. A switchboard here has an
//! object of each kind.

use super::block_on;
use seryugo::{Carries, Channel, Error, IVar, MVar, Mailbox, Port, Seat, SendError, Switchboard};
use std::time::{Duration, Instant};

/// The objects of each switchboard here, by number.
pub const MAILBOX: u64 = 0;
pub const CHANNEL: u64 = 1;
pub const PORT: u64 = 2;
pub const IVAR: u64 = 3;
pub const MVAR: u64 = 4;

pub const A_MILLISECOND: Duration = Duration::from_millis(1);

/// The names of a switchboard's objects.
pub struct Names {
    pub mailbox: Mailbox<u64>,
    pub channel: Channel<u64>,
    pub port: Port<u64>,
    pub ivar: IVar<u64>,
    pub mvar: MVar<u64>,
}

impl Names {
    pub fn of<R: Carries<u64>>(board: &Switchboard<R>) -> Names {
        Names {
            mailbox: board.mailbox(MAILBOX).unwrap(),
            channel: board.channel(CHANNEL).unwrap(),
            port: board.port(PORT).unwrap(),
            ivar: board.ivar(IVAR).unwrap(),
            mvar: board.mvar(MVAR).unwrap(),
        }
    }
}

/// A call on one of these objects.
pub type Call<R> = fn(&Switchboard<R>, &mut Seat<'_, R>, &Names) -> Result<(), Error>;

/// A call's name, and the call.
pub type Row<R> = (&'static str, Call<R>);

pub fn past() -> Instant {
    Instant::now()
}

/// The error of a call that hands its message back.
pub fn refusal<T>(answer: Result<T, SendError<u64>>) -> Result<(), Error> {
    answer.map(drop).map_err(|refused| {
        assert_eq!(refused.message, 7, "each call here sends the same message");
        refused.error
    })
}

/// The calls that never block.
pub fn at_once<R: Carries<u64>>() -> Vec<Row<R>> {
    vec![
        ("copy", |_, seat, names| seat.copy(names.port).map(drop)),
        ("close", |_, seat, names| seat.close(names.port).map(drop)),
        ("send", |_, seat, names| refusal(seat.send(names.mailbox, 7))),
        ("multicast", |_, seat, names| refusal(seat.multicast(names.channel, 7))),
        ("recv_poll", |_, seat, names| seat.recv_poll(names.mailbox).map(drop)),
        ("recv_poll of a port", |_, seat, names| seat.recv_poll(names.port).map(drop)),
        ("put", |_, seat, names| refusal(seat.put(names.ivar, 7))),
        ("put of an m-variable", |_, seat, names| refusal(seat.put(names.mvar, 7))),
        ("get_poll", |_, seat, names| seat.get_poll(names.ivar).map(drop)),
        ("take_poll", |_, seat, names| seat.take_poll(names.mvar).map(drop)),
    ]
}

/// The calls that block no longer than a time.
pub fn timed<R: Carries<u64>>() -> Vec<Row<R>> {
    vec![
        ("recv_timeout", |_, seat, names| {
            seat.recv_timeout(names.mailbox, A_MILLISECOND).map(drop)
        }),
        ("recv_deadline", |_, seat, names| seat.recv_deadline(names.port, past()).map(drop)),
        ("get_timeout", |_, seat, names| seat.get_timeout(names.mvar, A_MILLISECOND).map(drop)),
        ("get_deadline", |_, seat, names| seat.get_deadline(names.ivar, past()).map(drop)),
        ("take_timeout", |_, seat, names| seat.take_timeout(names.mvar, A_MILLISECOND).map(drop)),
        ("take_deadline", |_, seat, names| seat.take_deadline(names.mvar, past()).map(drop)),
        ("swap_timeout", |_, seat, names| refusal(seat.swap_timeout(names.mvar, 7, A_MILLISECOND))),
        ("swap_deadline", |_, seat, names| refusal(seat.swap_deadline(names.mvar, 7, past()))),
    ]
}

/// The calls that block until they are answered.
pub fn blocking<R: Carries<u64>>() -> Vec<Row<R>> {
    vec![
        ("recv", |_, seat, names| seat.recv(names.mailbox).map(drop)),
        ("recv of a port", |_, seat, names| seat.recv(names.port).map(drop)),
        ("recv_async", |_, seat, names| block_on(seat.recv_async(names.port)).map(drop)),
        ("get", |_, seat, names| seat.get(names.ivar).map(drop)),
        ("get_async", |_, seat, names| block_on(seat.get_async(names.ivar)).map(drop)),
        ("take", |_, seat, names| seat.take(names.mvar).map(drop)),
        ("take_async", |_, seat, names| block_on(seat.take_async(names.mvar)).map(drop)),
        ("swap", |_, seat, names| refusal(seat.swap(names.mvar, 7))),
        ("swap_async", |_, seat, names| refusal(block_on(seat.swap_async(names.mvar, 7)))),
    ]
}

/// The readers, which write no entry.
pub fn readers<R: Carries<u64>>() -> Vec<Row<R>> {
    vec![
        ("sent", |board, _, names| board.sent(names.channel).map(drop)),
        ("got", |board, _, names| board.got(names.mailbox).map(drop)),
        ("owed", |board, _, names| board.owed(names.port).map(drop)),
        ("kept", |board, _, names| board.kept(names.mailbox).map(drop)),
        ("held", |board, _, names| board.held(names.ivar).map(drop)),
        ("is_open", |board, _, names| board.is_open(names.port).map(drop)),
        ("channel_of", |board, _, names| board.channel_of(names.port).map(drop)),
        ("start_of", |board, _, names| board.start_of(names.port).map(drop)),
    ]
}
