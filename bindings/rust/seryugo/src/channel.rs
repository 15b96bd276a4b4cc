//! A mailbox by its two halves, in the words of other channels.

use crate::error::{Error, SendError};
use crate::message::carries::{Bytes, Carries, MessageKind};
use crate::message::names::Mailbox;
use crate::message::sent_as::SentAs;
use crate::seat::owned::OwnedSeat;
use crate::switchboard::Switchboard;
use std::alloc::{handle_alloc_error, Layout};
use std::cell::{RefCell, RefMut};
use std::fmt;
use std::sync::Arc;
use std::time::Duration;

/// Sends to one mailbox, from a seat that nobody else has.
///
/// A clone has another seat. If there is no memory for it, the program aborts, as if a `Vec` found
/// none. Two threads can't share a sender, so give each a clone. A call panics if the code of its
/// message makes a call by the same half.
///
/// ```
/// use seryugo::{Error, Switchboard};
/// use std::sync::Arc;
/// use std::thread;
///
/// # fn main() -> Result<(), Error> {
/// let board = Arc::new(Switchboard::new(1_000)?);
/// let (sender, receiver) = board.unbounded::<String>()?;
/// for name in ["Ann", "Ben"] {
///     let sender = sender.clone();
///     thread::spawn(move || sender.send(name));
/// }
/// drop(sender);
/// let mut names: Vec<_> = receiver.iter().collect();
/// names.sort();
/// assert_eq!(names, ["Ann", "Ben"]);
/// assert_eq!(receiver.recv(), Err(Error::Stalled));
/// # Ok(())
/// # }
/// ```
///
/// ```compile_fail,E0277
/// fn shared<T: Sync>() {}
/// shared::<seryugo::Sender<u64>>();
/// ```
pub struct Sender<T, R: MessageKind = Bytes>(pub(crate) Half<T, R>);

/// Receives from one mailbox, from a seat that nobody else has. A clone has another seat, as that of
/// a [`Sender`].
///
/// Its calls end as those of a [`Seat`](crate::Seat) do. So if the switchboard has no other seats
/// and no lanes, and no clone of it is free, they end with [`Error::Stalled`] once all senders are
/// dropped and all messages are received.
///
/// ```
/// use seryugo::{Error, Switchboard};
/// use std::sync::Arc;
///
/// # fn main() -> Result<(), Error> {
/// let board = Arc::new(Switchboard::new(1_000)?);
/// let (sender, receiver) = board.unbounded::<u64>()?;
/// sender.send(5)?;
/// drop(sender);
/// assert_eq!((receiver.len(), receiver.recv()), (1, Ok(5)));
/// assert_eq!(receiver.recv(), Err(Error::Stalled));
/// # Ok(())
/// # }
/// ```
pub struct Receiver<T, R: MessageKind = Bytes>(pub(crate) Half<T, R>);

pub(crate) struct Half<T, R: MessageKind> {
    // Its calls take the seat by `&mut`. The half isn't shared by threads.
    pub(crate) seat: RefCell<OwnedSeat<R>>,
    pub(crate) mailbox: Mailbox<T>,
}

impl<T, R: MessageKind> Half<T, R> {
    fn at(board: &Arc<Switchboard<R>>, mailbox: Mailbox<T>) -> Result<Self, Error> {
        board.here(mailbox)?;
        Ok(Half {
            seat: RefCell::new(board.seat_owned()?),
            mailbox,
        })
    }

    fn len(&self) -> usize {
        // The mailbox is of this switchboard, which counts what is in memory.
        self.seat.borrow().board.owed(self.mailbox).unwrap_or_default() as usize
    }

    /// The seat, for a call.
    #[inline]
    pub(crate) fn seat(&self) -> RefMut<'_, OwnedSeat<R>> {
        self.seat.try_borrow_mut().unwrap_or_else(|_| used_within_a_call())
    }
}

#[cold]
fn used_within_a_call() -> ! {
    panic!("a half of a mailbox is already borrowed: the code of its message makes a call by it")
}

impl<T, R: MessageKind> Clone for Half<T, R> {
    fn clone(&self) -> Self {
        Half::at(&self.seat.borrow().board, self.mailbox)
            .unwrap_or_else(|_| handle_alloc_error(Layout::new::<Self>()))
    }
}

impl<T, R: MessageKind> Clone for Sender<T, R> {
    fn clone(&self) -> Self {
        Sender(self.0.clone())
    }
}

impl<T, R: MessageKind> Clone for Receiver<T, R> {
    fn clone(&self) -> Self {
        Receiver(self.0.clone())
    }
}

/// # Senders and receivers
///
/// Each has a seat. What they send and receive, other seats may receive and send too.
impl<R: MessageKind> Switchboard<R> {
    /// Makes a mailbox, and returns its two halves.
    ///
    /// ```
    /// use seryugo::Switchboard;
    /// use std::sync::Arc;
    ///
    /// let board = Arc::new(Switchboard::new(1_000)?);
    /// let (sender, receiver) = board.unbounded::<u64>()?;
    /// sender.send(5)?;
    /// assert_eq!(receiver.recv()?, 5);
    /// # Ok::<(), seryugo::Error>(())
    /// ```
    ///
    /// # Errors
    ///
    /// [Those of a seat's call](crate::Seat#how-a-call-fails).
    #[expect(clippy::type_complexity, reason = "it is what other channels return")]
    pub fn unbounded<T>(self: &Arc<Self>) -> Result<(Sender<T, R>, Receiver<T, R>), Error>
    where
        R: Carries<T>,
    {
        let mut seat = self.seat_owned()?;
        let mailbox = seat.mailbox()?;
        let seat = RefCell::new(seat);
        Ok((Sender(Half { seat, mailbox }), self.receiver(mailbox)?))
    }

    /// A sender to this mailbox.
    ///
    /// ```
    /// use seryugo::Switchboard;
    /// use std::sync::Arc;
    ///
    /// let board = Arc::new(Switchboard::new(1_000)?);
    /// let mut seat = board.seat()?;
    /// let mailbox = seat.mailbox::<u64>()?;
    /// board.sender(mailbox)?.send(5)?;
    /// assert_eq!(seat.recv(mailbox)?, 5);
    /// # Ok::<(), seryugo::Error>(())
    /// ```
    ///
    /// # Errors
    ///
    /// `NoSuch`: the name is of another switchboard. `NoMemory`.
    pub fn sender<T>(self: &Arc<Self>, mailbox: Mailbox<T>) -> Result<Sender<T, R>, Error> {
        Half::at(self, mailbox).map(Sender)
    }

    /// A receiver from this mailbox.
    ///
    /// ```
    /// use seryugo::Switchboard;
    /// use std::sync::Arc;
    ///
    /// let board = Arc::new(Switchboard::new(1_000)?);
    /// let mut seat = board.seat()?;
    /// let mailbox = seat.mailbox::<u64>()?;
    /// seat.send(mailbox, 5)?;
    /// assert_eq!(board.receiver(mailbox)?.recv()?, 5);
    /// # Ok::<(), seryugo::Error>(())
    /// ```
    ///
    /// # Errors
    ///
    /// `NoSuch`: the name is of another switchboard. `NoMemory`.
    pub fn receiver<T>(self: &Arc<Self>, mailbox: Mailbox<T>) -> Result<Receiver<T, R>, Error> {
        Half::at(self, mailbox).map(Receiver)
    }
}

impl<T, R: Carries<T>> Sender<T, R> {
    /// Sends a message, as [`Seat::send`](crate::Seat::send) does. It never blocks.
    ///
    /// ```
    /// # let board = std::sync::Arc::new(seryugo::Switchboard::new(1)?);
    /// let (sender, _receiver) = board.unbounded::<String>()?;
    /// let refused = sender.send("hello").unwrap_err();
    /// assert_eq!(refused.error, seryugo::Error::JournalFull);
    /// assert_eq!(refused.message, "hello");
    /// # Ok::<(), seryugo::Error>(())
    /// ```
    ///
    /// # Errors
    ///
    /// Those of [`Seat::send`](crate::Seat::send). It doesn't fail because no receiver is left.
    #[inline]
    pub fn send<M: SentAs<T>>(&self, message: M) -> Result<(), SendError<M>> {
        self.0.seat().send(self.0.mailbox, message)
    }
}

impl<T, R: Carries<T>> Receiver<T, R> {
    /// Receives the next message. Blocks while there is none.
    ///
    /// ```
    /// # let board = std::sync::Arc::new(seryugo::Switchboard::new(1_000)?);
    /// let (sender, receiver) = board.unbounded::<u64>()?;
    /// sender.send(5)?;
    /// assert_eq!(receiver.recv(), Ok(5));
    /// # Ok::<(), seryugo::Error>(())
    /// ```
    ///
    /// # Errors
    ///
    /// Those of [`Seat::recv`](crate::Seat::recv).
    #[inline]
    pub fn recv(&self) -> Result<T, Error> {
        self.0.seat().recv(self.0.mailbox)
    }

    /// Receives the next message, if there is one. It never blocks.
    ///
    /// ```
    /// # let board = std::sync::Arc::new(seryugo::Switchboard::new(1_000)?);
    /// let (sender, receiver) = board.unbounded::<u64>()?;
    /// assert_eq!(receiver.try_recv(), Ok(None));
    /// sender.send(5)?;
    /// assert_eq!(receiver.try_recv(), Ok(Some(5)));
    /// # Ok::<(), seryugo::Error>(())
    /// ```
    ///
    /// # Errors
    ///
    /// Those of [`Seat::recv_poll`](crate::Seat::recv_poll).
    #[inline]
    pub fn try_recv(&self) -> Result<Option<T>, Error> {
        self.0.seat().recv_poll(self.0.mailbox)
    }

    /// Receives the next message. Blocks no longer than this.
    ///
    /// ```
    /// use std::time::Duration;
    ///
    /// # let board = std::sync::Arc::new(seryugo::Switchboard::new(1_000)?);
    /// let (_sender, receiver) = board.unbounded::<u64>()?;
    /// let received = receiver.recv_timeout(Duration::from_millis(1));
    /// assert_eq!(received, Err(seryugo::Error::TimedOut));
    /// # Ok::<(), seryugo::Error>(())
    /// ```
    ///
    /// # Errors
    ///
    /// Those of [`Seat::recv_timeout`](crate::Seat::recv_timeout).
    pub fn recv_timeout(&self, timeout: Duration) -> Result<T, Error> {
        self.0.seat().recv_timeout(self.0.mailbox, timeout)
    }

    /// Receives the next message, as a future.
    ///
    /// ```
    /// # use std::{future::Future, pin::pin, task::{Context, Poll, Waker}};
    /// # let board = std::sync::Arc::new(seryugo::Switchboard::new(1_000)?);
    /// let (sender, mut receiver) = board.unbounded::<u64>()?;
    /// let mut received = pin!(receiver.recv_async());
    /// let mut context = Context::from_waker(Waker::noop());
    /// assert_eq!(received.as_mut().poll(&mut context), Poll::Pending);
    /// sender.send(5)?;
    /// assert_eq!(received.as_mut().poll(&mut context), Poll::Ready(Ok(5)));
    /// # Ok::<(), seryugo::Error>(())
    /// ```
    ///
    /// # Errors
    ///
    /// Those of [`Seat::recv_async`](crate::Seat::recv_async).
    pub async fn recv_async(&mut self) -> Result<T, Error> {
        self.0.seat.get_mut().recv_async(self.0.mailbox).await
    }

    /// Receives the messages in a loop. It blocks while there is none, and ends if a call fails.
    ///
    /// ```
    /// # let board = std::sync::Arc::new(seryugo::Switchboard::new(1_000)?);
    /// let (sender, receiver) = board.unbounded::<u64>()?;
    /// sender.send(5)?;
    /// sender.send(6)?;
    /// drop(sender);
    /// let mut sum = 0;
    /// for message in &receiver {
    ///     sum += message;
    /// }
    /// assert_eq!((sum, receiver.iter().next()), (11, None));
    /// # Ok::<(), seryugo::Error>(())
    /// ```
    pub fn iter(&self) -> Messages<'_, T, R> {
        Messages(self)
    }
}

/// What both halves tell of their mailbox.
macro_rules! halves_of_a_mailbox {
    ($($half:ident)*) => {$(
        impl<T, R: MessageKind> $half<T, R> {
            /// How many messages wait in the mailbox.
            ///
            /// ```
            /// # let board = std::sync::Arc::new(seryugo::Switchboard::new(1_000)?);
            /// let (sender, receiver) = board.unbounded::<u64>()?;
            /// sender.send(5)?;
            /// assert_eq!((sender.len(), receiver.len()), (1, 1));
            /// # Ok::<(), seryugo::Error>(())
            /// ```
            #[must_use]
            pub fn len(&self) -> usize {
                self.0.len()
            }

            /// Whether no message waits.
            ///
            /// ```
            /// # let board = std::sync::Arc::new(seryugo::Switchboard::new(1_000)?);
            /// let (sender, receiver) = board.unbounded::<u64>()?;
            /// assert!(sender.is_empty() && receiver.is_empty());
            /// # Ok::<(), seryugo::Error>(())
            /// ```
            #[must_use]
            pub fn is_empty(&self) -> bool {
                self.len() == 0
            }

            /// The mailbox.
            ///
            /// ```
            /// # let board = std::sync::Arc::new(seryugo::Switchboard::new(1_000)?);
            /// let (sender, receiver) = board.unbounded::<u64>()?;
            /// assert_eq!(sender.mailbox(), receiver.mailbox());
            /// # Ok::<(), seryugo::Error>(())
            /// ```
            #[must_use]
            pub fn mailbox(&self) -> Mailbox<T> {
                self.0.mailbox
            }
        }

        impl<T, R: MessageKind> fmt::Debug for $half<T, R> {
            fn fmt(&self, f: &mut fmt::Formatter<'_>) -> fmt::Result {
                f.debug_struct(stringify!($half))
                    .field("mailbox", &self.0.mailbox)
                    .finish_non_exhaustive()
            }
        }
    )*};
}

halves_of_a_mailbox!(Sender Receiver);

/// The messages of a [`Receiver`], each received as it is asked for.
///
/// ```
/// # let board = std::sync::Arc::new(seryugo::Switchboard::new(1_000)?);
/// let (sender, receiver) = board.unbounded::<u64>()?;
/// sender.send(5)?;
/// assert_eq!(receiver.iter().next(), Some(5));
/// # Ok::<(), seryugo::Error>(())
/// ```
#[must_use = "an iterator receives nothing before it is asked"]
pub struct Messages<'r, T, R: MessageKind = Bytes>(&'r Receiver<T, R>);

impl<T, R: Carries<T>> Iterator for Messages<'_, T, R> {
    type Item = T;

    fn next(&mut self) -> Option<T> {
        self.0.recv().ok()
    }
}

impl<'r, T, R: Carries<T>> IntoIterator for &'r Receiver<T, R> {
    type Item = T;
    type IntoIter = Messages<'r, T, R>;

    fn into_iter(self) -> Messages<'r, T, R> {
        self.iter()
    }
}

impl<T, R: MessageKind> fmt::Debug for Messages<'_, T, R> {
    fn fmt(&self, f: &mut fmt::Formatter<'_>) -> fmt::Result {
        f.debug_tuple("Messages").field(&self.0).finish()
    }
}
