//! Buffered Concurrent ML for Rust, by a library that is proved.
//!
//! A [`Switchboard`] has mailboxes, channels and variables, and a journal of every call that was
//! accepted. Each object has a type of messages: numbers, texts, tuples, or a type of yours that
//! implements [`Message`]. Threads call from [`Seat`]s under a lock of this crate.
//!
//! ```
//! use seryugo::{Error, Switchboard};
//! use std::sync::Arc;
//! use std::thread;
//!
//! # fn main() -> Result<(), Error> {
//! let board = Arc::new(Switchboard::new(1_000)?);
//! let (mut ann, mut ben) = (board.seat_owned()?, board.seat_owned()?);
//! let letters = ben.mailbox::<String>()?;
//! let sender = thread::spawn(move || ann.send(letters, "Dear Ben"));
//! assert_eq!(ben.recv(letters)?, "Dear Ben");
//! sender.join().unwrap()?;
//! # Ok(())
//! # }
//! ```
//!
//! # When a receive ends
//!
//! A call that waits ends as it is answered. If nothing could answer it any more, it fails with
//! [`Error::Stalled`]: all other seats wait too or have left, and no lane is open. So when the last
//! sender drops its seat, those that receive get what was sent, and then `Stalled`.
//!
//! - **A seat that isn't made yet is none.** Make all seats before the first thread waits, or say
//!   how many will come: until they are made, [`board.expect(n)`](Switchboard::expect) keeps calls
//!   from `Stalled`.
//! - **While a seat waits with a time limit, or as a future, no call fails so**, since its caller
//!   may go on. [`open_waits_stall`](Switchboard::open_waits_stall) takes that back, for programs
//!   whose futures wait for nothing else.
//! - **A guest**, which [`board.hold()`](Switchboard::hold) returns, says that somebody will come:
//!   while it is there, no call fails so.
//! - **A seat that is free keeps the others waiting.** Drop it as soon as its thread has no more to
//!   do.
//!
//! # Seats
//!
//! A seat as above has a share of the switchboard. Store it, or move it into a thread or a task. A
//! seat that [`Switchboard::seat`] makes borrows the switchboard, as scoped threads do:
//!
//! ```
//! use seryugo::{Error, Switchboard};
//!
//! # fn main() -> Result<(), Error> {
//! let board = Switchboard::new(1_000)?;
//! let (mut ann, mut ben) = (board.seat()?, board.seat()?);
//! let letters = ben.mailbox::<String>()?;
//! std::thread::scope(|scope| {
//!     scope.spawn(move || ann.send(letters, "Dear Ben"));
//!     assert_eq!(ben.recv(letters)?, "Dear Ben");
//!     Ok(())
//! })
//! # }
//! ```
//!
//! [`Switchboard::unbounded`] returns the two halves of a mailbox as other crates do: a [`Sender`]
//! and a [`Receiver`], each with a seat.
//!
//! # What is sent
//!
//! | | messages | made by |
//! |---|---|---|
//! | a switchboard of [`Bytes`] | each type that implements [`Message`], several types on one switchboard | [`Switchboard::new`] |
//! | a switchboard of [`Numbers`] | `u64`; its calls are the fastest | [`Switchboard::of_numbers`] |
//!
//! - A call that sends takes the message, a reference to it, or a text for a `String` ([`SentAs`]).
//!   If it fails, [`SendError`] hands the message back.
//! - A type of yours is a message by an `impl` of two methods ([`Message`]), or by one line of the
//!   crate `seryugo_serde` beside this one: `serde_message!(Order);`, for what serde can read and
//!   write.
//! - A message that was received and can't be read as the object's type is [`Error::Unreadable`],
//!   which has its bytes and the type's name.
//! - A name such as [`Mailbox`] is `Copy`, and belongs to the switchboard that made it. On another
//!   one each call with it fails with [`Error::NoSuch`].
//! - [`Error::is_retryable`] says whether the same call may succeed later.
//! - [`Seat`] has a table of how each call waits.
//!
//! # A journal in a file
//!
//! [`Switchboard::open`] keeps the journal in a file: each call that returned survives the end of
//! the program, even by `kill -9`. The next program goes on from there. It finds an object by its
//! number, or makes it ([`mailbox_again`](Seat::mailbox_again)):
//!
//! ```
//! # fn main() -> Result<(), seryugo::Error> {
//! # let path = std::env::temp_dir().join(format!("seryugo-doc-{}.first", std::process::id()));
//! let board = seryugo::Switchboard::open(&path)?;
//! let mut seat = board.seat()?;
//! let letters = seat.mailbox_again::<String>(0)?;
//! seat.send(letters, "Dear Ben")?;
//! drop(seat);
//! board.close()?;
//!
//! let board = seryugo::Switchboard::open(&path)?;
//! let mut seat = board.seat()?;
//! let letters = seat.mailbox_again::<String>(0)?;
//! assert_eq!(seat.recv(letters)?, "Dear Ben");
//! # drop(seat);
//! # drop(board);
//! # std::fs::remove_file(&path).unwrap();
//! # Ok(())
//! # }
//! ```
//!
//! # Questions and answers
//!
//! A client asks by [`seat.request`](Seat::request), and a server answers each [`Request`] once:
//!
//! ```
//! use seryugo::{Error, Request, Switchboard};
//! use std::sync::Arc;
//! use std::thread;
//!
//! # fn main() -> Result<(), Error> {
//! let board = Arc::new(Switchboard::new(1_000)?);
//! let (mut client, mut server) = (board.seat_owned()?, board.seat_owned()?);
//! let lengths = server.mailbox::<Request<String, u64>>()?;
//! let served = thread::spawn(move || {
//!     while let Ok(Request { question, asker }) = server.recv(lengths) {
//!         asker.answer(&mut server, question.len() as u64)?;
//!     }
//!     Ok::<(), Error>(())
//! });
//! assert_eq!(client.request(lengths, "Dear Ben")?, 8);
//! drop(client);
//! served.join().unwrap()
//! # }
//! ```
//!
//! - A request leaves no object: a seat has one mailbox for all its answers. An i-variable for each
//!   answer would take memory for ever.
//! - If the asker gives up, by [`request_timeout`](Seat::request_timeout) or as a future that is
//!   dropped, the answer comes late. No later question takes it.
//! - The halves of a mailbox ask and answer too: [`Sender::request`], [`Receiver::answer`].
//! - A server that has no answer calls [`decline`](Asker::decline): the asker's call fails with
//!   [`Error::Declined`]. To drop a request tells nobody.
//!
//! # Beside other channels
//!
//! A dash says that there is no such call.
//!
//! | here | crossbeam-channel | Concurrent ML |
//! |---|---|---|
//! | [`seat.mailbox::<T>()`](Seat::mailbox) | `unbounded::<T>()` | `Mailbox.mailbox` |
//! | [`board.unbounded::<T>()`](Switchboard::unbounded) | `unbounded::<T>()` | - |
//! | [`seat.send(mailbox, message)`](Seat::send) | `sender.send(message)` | `Mailbox.send` |
//! | [`seat.recv(mailbox)`](Seat::recv) | `receiver.recv()` | `Mailbox.recv` |
//! | [`seat.recv_poll(mailbox)`](Seat::recv_poll) | `receiver.try_recv()` | `Mailbox.recvPoll` |
//! | [`recv_timeout`](Seat::recv_timeout), [`recv_deadline`](Seat::recv_deadline) | `recv_timeout`, `recv_deadline` | a choice of `recvEvt` and `timeOutEvt` or `atTimeEvt` |
//! | [`seat.iter(mailbox)`](Seat::iter), [`seat.try_iter(mailbox)`](Seat::try_iter) | `receiver.iter()`, `receiver.try_iter()` | - |
//! | [`board.owed(mailbox)`](Switchboard::owed) | `receiver.len()` | - |
//! | [`SendError`] with the message | `SendError`, once no receiver is left | - |
//! | [`Error::Stalled`]: nothing could answer the call | `RecvError`, once no sender is left | the thread is blocked for ever |
//! | [`board.expect(n)`](Switchboard::expect), [`board.hold()`](Switchboard::hold) | a sender that is kept | - |
//! | [`board.lane(mailbox, capacity)`](Switchboard::lane) | `bounded(capacity)` and `try_send` | - |
//! | [`seat.channel::<T>()`](Seat::channel) | - | `Multicast.mChannel` |
//! | [`seat.port(channel)`](Seat::port) | - | `Multicast.port` |
//! | [`seat.copy(port)`](Seat::copy) | - | `Multicast.copy` |
//! | [`seat.multicast(channel, message)`](Seat::multicast) | - | `Multicast.multicast` |
//! | [`seat.recv(port)`](Seat::recv) | - | `Multicast.recv` |
//! | [`seat.close(port)`](Seat::close) | - | - |
//! | [`seat.ivar::<T>()`](Seat::ivar) | - | `SyncVar.iVar` |
//! | [`seat.put(ivar, message)`](Seat::put), which returns whether it was empty | - | `SyncVar.iPut`, which raises `Put` |
//! | [`seat.get(ivar)`](Seat::get), [`seat.get_poll(ivar)`](Seat::get_poll) | - | `SyncVar.iGet`, `iGetPoll` |
//! | [`seat.mvar::<T>()`](Seat::mvar), [`seat.mvar_init(message)`](Seat::mvar_init) | - | `SyncVar.mVar`, `mVarInit` |
//! | [`seat.put(mvar, message)`](Seat::put) | - | `SyncVar.mPut` |
//! | [`seat.take(mvar)`](Seat::take), [`seat.take_poll(mvar)`](Seat::take_poll) | - | `SyncVar.mTake`, `mTakePoll` |
//! | [`seat.get(mvar)`](Seat::get), [`seat.get_poll(mvar)`](Seat::get_poll) | - | `SyncVar.mGet`, `mGetPoll` |
//! | [`seat.swap(mvar, message)`](Seat::swap) | - | `SyncVar.mSwap` |
//! | [`seat.request(mailbox, question)`](Seat::request) | a channel for each answer | `SyncVar.iVar` for each answer |
//! | [`board.seat_owned()`](Switchboard::seat_owned); a half is cloned | `sender.clone()`, `receiver.clone()` | - |
//! | `==` on names | `same_channel` | `sameMailbox`, `sameIVar`, `sameMVar` |
//! | [`board.take_journal()`](Switchboard::take_journal), [`Switchboard::restore`] | - | - |
//! | - | `select!` | `choose`, `wrap`, `guard` and the other events |
//!
//! A name is `Copy`: give each thread a seat, or a clone of a half. A mailbox has no end. To end
//! those that receive, send a last message, or let them receive from a port and close it.
//!
//! # What else there is
//!
//! [`Lane`]s and [`Feed`]s keep senders and subscribers off the lock. A [`Journal`] that was taken
//! is written as text. A [`Checker`] checks such a text, and [`Switchboard::restore`] goes on from
//! it in another process. The module [`explore`] runs a program of threads in every order, and shows
//! one that ends in a deadlock or a panic. With the feature `scripts`, `replay` plays scripts of threads.
//!
//! Before its first call the crate compares the library's version with its own. If they differ, it
//! fails with [`Error::Version`].

#![warn(missing_docs)]

mod bytes;
mod calls;
mod channel;
mod door;
mod error;
pub mod explore;
mod journal;
mod message;
mod numbers;
/// How a thread or a task waits.
mod park {
    pub(crate) mod backoff;
    pub(crate) mod cache_padded;
    pub(crate) mod note;
    pub(crate) mod parker;
    pub(crate) mod table;
    pub(crate) mod yields;
}
mod raw;
mod request;
/// Lanes and feeds: rings of one thread, without a lock.
mod rings {
    pub(crate) mod feed;
    pub(crate) mod lane;
}
#[cfg(feature = "scripts")]
mod script;
mod seat;
mod switchboard;
mod version;

pub use channel::{Messages, Receiver, Sender};
pub use error::cause::FileCause;
pub use error::{Error, SendError};
pub use journal::checker::{CheckError, Checker};
pub use journal::entry::{Call, Entry, Reply, Who};
pub use journal::file::JournalFile;
pub use journal::full::WhenFull;
pub use journal::keep::Keep;
#[allow(deprecated)]
pub use journal::prefix::Kept;
pub use journal::prefix::ValidPrefix;
pub use journal::recovered::Recovered;
pub use journal::restore::RestoreError;
pub use journal::sum::{BadSum, Sum};
pub use journal::{Entries, Journal};
#[allow(deprecated)]
pub use message::carries::Room;
pub use message::carries::{Bytes, Carries, MessageKind, Numbers};
pub use message::kind::{Kind, Misfit, Missing};
pub use message::names::{Channel, IVar, MVar, Mailbox, Object, Port, Source, Target, Variable};
pub use message::sent_as::SentAs;
pub use message::Message;
pub use request::answers::RequestError;
pub use request::{Asker, Request};
pub use rings::feed::Feed;
pub use rings::lane::{Lane, UnclosedLane};
#[cfg(feature = "scripts")]
pub use script::{replay, BadLimit, End, Replayed, MOST_ENTRIES};
pub use seat::iter::{Iter, TryIter};
pub use seat::owned::{Holds, OwnedFeed, OwnedLane, OwnedSeat};
pub use seat::Seat;
pub use switchboard::guest::{Guest, OwnedGuest};
pub use switchboard::waiting::{Waiting, WaitsAt};
pub use switchboard::Switchboard;
pub use version::Version;
