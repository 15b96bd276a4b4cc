//! Questions that are sent together with where to answer them.

pub(crate) mod answers;
pub(crate) mod asked;
pub(crate) mod halves;

use crate::calls::{Calls, Give};
use crate::error::{handing_back, Error, SendError};
use crate::message::carries::{Bytes, Carries};
use crate::message::kind::{Kind, Misfit, Missing};
use crate::message::sent_as::SentAs;
use crate::message::Message;
use crate::raw::done;
use crate::seat::owned::Holds;
use crate::seat::Seat;
use crate::switchboard::call::Line;
use std::fmt;
use std::marker::PhantomData;
use std::panic::{self, AssertUnwindSafe};

/// A question, and who asked it. [`Seat::request`] sends it to a mailbox of requests, and waits for
/// the answer. The seat that receives it answers it once.
///
/// ```
/// use seryugo::{Error, Request, Switchboard};
///
/// # fn main() -> Result<(), Error> {
/// let board = Switchboard::new(1_000)?;
/// let (mut ann, mut ben) = (board.seat()?, board.seat()?);
/// let lengths = ben.mailbox::<Request<String, u64>>()?;
/// std::thread::scope(|scope| {
///     scope.spawn(move || {
///         while let Ok(Request { question, asker }) = ben.recv(lengths) {
///             asker.answer(&mut ben, question.len() as u64)?;
///         }
///         Ok::<(), Error>(())
///     });
///     assert_eq!(ann.request(lengths, "four")?, 4);
///     assert_eq!(ann.request(lengths, "eleven")?, 6);
///     drop(ann);
///     Ok(())
/// })
/// # }
/// ```
///
/// # Without an answer
///
/// A request is data, as each message is: it may wait in its mailbox, be sent on to another one, or
/// be kept in a variable. So to drop it tells nobody. The asker waits on, until its time limit, or
/// until its call fails with [`Stalled`](Error::Stalled). To tell the asker, call
/// [`decline`](Asker::decline). [`answer_with`](Request::answer_with) does that if your function
/// panics.
///
/// If the asker has given up, its question stays in the mailbox, and a server still receives it.
/// [`is_waiting`](Asker::is_waiting) says so, and [`gives_up_at`](Asker::gives_up_at) when it will.
/// The answer is sent to the asker's mailbox, and no later question takes it.
///
/// # The bytes
///
/// A program in another language may ask or answer. Numbers have eight bytes, the lowest first.
///
/// | message | bytes |
/// |---|---|
/// | a request | the number of the asker's mailbox, the question's number, and then the question |
/// | an answer, sent to the asker's mailbox | the question's number, 1 as one byte, and then the answer |
/// | a decline, sent there too | the question's number |
///
/// The questions that are answered to a mailbox are numbered from 1.
#[derive(Debug, PartialEq, Eq, Hash)]
#[must_use = "the asker waits for an answer: `answer` it, or `decline` it"]
pub struct Request<Q, A> {
    /// What was asked.
    pub question: Q,
    /// Who asked it.
    pub asker: Asker<A>,
}

impl<Q, A: Message> Request<Q, A> {
    /// Answers the question. See [`Asker::answer`].
    ///
    /// ```
    /// # use std::{future::Future, pin::pin, task::{Context, Poll, Waker}};
    /// # use seryugo::Request;
    /// # let board = seryugo::Switchboard::new(1_000)?;
    /// # let (mut ann, mut ben) = (board.seat()?, board.seat()?);
    /// # let doubles = ben.mailbox::<Request<u64, u64>>()?;
    /// # let mut context = Context::from_waker(Waker::noop());
    /// # let mut asked = pin!(ann.request_async(doubles, 4));
    /// # assert_eq!(asked.as_mut().poll(&mut context), Poll::Pending);
    /// let request = ben.recv(doubles)?;
    /// let double = 2 * request.question;
    /// request.answer(&mut ben, double)?;
    /// # assert_eq!(asked.as_mut().poll(&mut context), Poll::Ready(Ok(8)));
    /// # Ok::<(), seryugo::Error>(())
    /// ```
    ///
    /// # Errors
    ///
    /// As [`Asker::answer`].
    pub fn answer<H: Holds<Bytes>, M: SentAs<A>>(
        self,
        seat: &mut Seat<'_, Bytes, H>,
        answer: M,
    ) -> Result<(), SendError<(Asker<A>, M)>> {
        self.asker.answer(seat, answer)
    }

    /// Answers the question with what the function returns. If it panics, this declines the
    /// question, and the panic goes on.
    ///
    /// ```
    /// # use std::{future::Future, pin::pin, task::{Context, Poll, Waker}};
    /// # use seryugo::Request;
    /// # let board = seryugo::Switchboard::new(1_000)?;
    /// # let (mut ann, mut ben) = (board.seat()?, board.seat()?);
    /// # let lengths = ben.mailbox::<Request<String, u64>>()?;
    /// # let mut context = Context::from_waker(Waker::noop());
    /// # let mut asked = pin!(ann.request_async(lengths, "four"));
    /// # assert_eq!(asked.as_mut().poll(&mut context), Poll::Pending);
    /// ben.recv(lengths)?.answer_with(&mut ben, |question| question.len() as u64)?;
    /// # assert_eq!(asked.as_mut().poll(&mut context), Poll::Ready(Ok(4)));
    /// # Ok::<(), seryugo::Error>(())
    /// ```
    ///
    /// # Errors
    ///
    /// As [`Asker::answer`].
    pub fn answer_with<H: Holds<Bytes>>(
        self,
        seat: &mut Seat<'_, Bytes, H>,
        answer: impl FnOnce(Q) -> A,
    ) -> Result<(), SendError<(Asker<A>, A)>> {
        let Request { question, asker } = self;
        // The function has the question for itself, so that nobody sees what it left of it.
        match panic::catch_unwind(AssertUnwindSafe(|| answer(question))) {
            Ok(answer) => asker.answer(seat, answer),
            Err(panicked) => {
                // The panic says more than a refusal to send.
                let _ = asker.decline(seat);
                panic::resume_unwind(panicked)
            }
        }
    }

    /// Tells the asker that there will be no answer. See [`Asker::decline`].
    ///
    /// ```
    /// # use std::{future::Future, pin::pin, task::{Context, Poll, Waker}};
    /// # use seryugo::{Error, Request};
    /// # let board = seryugo::Switchboard::new(1_000)?;
    /// # let (mut ann, mut ben) = (board.seat()?, board.seat()?);
    /// # let lengths = ben.mailbox::<Request<String, u64>>()?;
    /// # let mut context = Context::from_waker(Waker::noop());
    /// # let mut asked = pin!(ann.request_async(lengths, "four"));
    /// # assert!(asked.as_mut().poll(&mut context).is_pending());
    /// ben.recv(lengths)?.decline(&mut ben)?;
    /// # let Poll::Ready(Err(refused)) = asked.as_mut().poll(&mut context) else { panic!() };
    /// # assert_eq!(refused.error, Error::Declined);
    /// # Ok::<(), seryugo::Error>(())
    /// ```
    ///
    /// # Errors
    ///
    /// As [`Asker::decline`].
    pub fn decline<H: Holds<Bytes>>(
        self,
        seat: &mut Seat<'_, Bytes, H>,
    ) -> Result<(), SendError<Asker<A>>> {
        self.asker.decline(seat)
    }
}

impl<Q: Message, A> Message for Request<Q, A> {
    fn write_to(&self, bytes: &mut Vec<u8>) {
        self.asker.write_to(bytes);
        self.question.write_to(bytes);
    }

    fn from_bytes(bytes: &[u8]) -> Option<Request<Q, A>> {
        let (asker, question) = bytes.split_at_checked(ASKER_LENGTH)?;
        Some(Request {
            question: Q::from_bytes(question)?,
            asker: Asker::from_bytes(asker)?,
        })
    }
}

/// How many bytes an asker has.
const ASKER_LENGTH: usize = 16;

/// Who asked a [`Request`], and which of its questions. It is answered once, from a seat of the
/// switchboard of which it was received.
///
/// It is a message too. So a server may send it on without the question:
///
/// ```
/// use seryugo::{Asker, Error, Switchboard};
///
/// # fn main() -> Result<(), Error> {
/// let board = Switchboard::new(1_000)?;
/// let jobs = board.seat()?.mailbox::<(Asker<u64>, String)>()?;
/// # assert_eq!(board.owed(jobs), Ok(0));
/// # Ok(())
/// # }
/// ```
#[must_use = "the asker waits for an answer: `answer` it, or `decline` it"]
pub struct Asker<A> {
    /// The mailbox that takes the answer.
    mailbox: u64,
    /// The question's number there.
    question: u64,
    answer: PhantomData<fn(A)>,
}

impl<A> Asker<A> {
    pub(crate) fn new(mailbox: u64, question: u64) -> Asker<A> {
        Asker {
            mailbox,
            question,
            answer: PhantomData,
        }
    }

    pub(crate) fn mailbox(&self) -> u64 {
        self.mailbox
    }

    pub(crate) fn question(&self) -> u64 {
        self.question
    }

    /// What the asker has received, if it is of this question. An answer to another one came late.
    pub(crate) fn answer_of(&self, received: &[u8]) -> Option<Result<A, Error>>
    where
        A: Message,
    {
        let unreadable = || Err(Error::unreadable::<A>(received));
        let Some((question, answer)) = received.split_first_chunk() else {
            return Some(unreadable());
        };
        let is_late = u64::from_le_bytes(*question) != self.question;
        (!is_late).then(|| match Option::from_bytes(answer) {
            Some(Some(answer)) => Ok(answer),
            Some(None) => Err(Error::Declined),
            None => unreadable(),
        })
    }
}

impl<A: Message> Asker<A> {
    /// Answers the question. It never blocks. If the asker has given up, the answer is sent all the
    /// same.
    ///
    /// ```
    /// # use std::{future::Future, pin::pin, task::{Context, Poll, Waker}};
    /// # use seryugo::Request;
    /// # let board = seryugo::Switchboard::new(1_000)?;
    /// # let (mut ann, mut ben) = (board.seat()?, board.seat()?);
    /// # let doubles = ben.mailbox::<Request<u64, u64>>()?;
    /// # let mut context = Context::from_waker(Waker::noop());
    /// # let mut asked = pin!(ann.request_async(doubles, 4));
    /// # assert_eq!(asked.as_mut().poll(&mut context), Poll::Pending);
    /// let Request { question, asker } = ben.recv(doubles)?;
    /// asker.answer(&mut ben, 2 * question)?;
    /// # assert_eq!(asked.as_mut().poll(&mut context), Poll::Ready(Ok(8)));
    /// # Ok::<(), seryugo::Error>(())
    /// ```
    ///
    /// # Errors
    ///
    /// [Those of a send](Seat::send). [`SendError`] hands back the asker and the answer, so that
    /// you can answer later. `NoSuch` and `WrongKind`: another program has sent the request, and
    /// the switchboard has no such mailbox.
    pub fn answer<H: Holds<Bytes>, M: SentAs<A>>(
        self,
        seat: &mut Seat<'_, Bytes, H>,
        answer: M,
    ) -> Result<(), SendError<(Asker<A>, M)>> {
        let sent = self.send(seat, Some(&answer));
        handing_back(sent, (self, answer))
    }

    /// Tells the asker that there will be no answer: its call fails with
    /// [`Declined`](Error::Declined). It never blocks.
    ///
    /// ```
    /// # use std::{future::Future, pin::pin, task::{Context, Poll, Waker}};
    /// # use seryugo::{Error, Request};
    /// # let board = seryugo::Switchboard::new(1_000)?;
    /// # let (mut ann, mut ben) = (board.seat()?, board.seat()?);
    /// # let halves = ben.mailbox::<Request<u64, u64>>()?;
    /// # let mut context = Context::from_waker(Waker::noop());
    /// # let mut asked = pin!(ann.request_async(halves, 5));
    /// # assert!(asked.as_mut().poll(&mut context).is_pending());
    /// let Request { question, asker } = ben.recv(halves)?;
    /// if question % 2 == 1 {
    ///     asker.decline(&mut ben)?;
    /// }
    /// # let Poll::Ready(Err(refused)) = asked.as_mut().poll(&mut context) else { panic!() };
    /// # assert_eq!(refused.error, Error::Declined);
    /// # Ok::<(), seryugo::Error>(())
    /// ```
    ///
    /// # Errors
    ///
    /// As [`answer`](Asker::answer).
    pub fn decline<H: Holds<Bytes>>(
        self,
        seat: &mut Seat<'_, Bytes, H>,
    ) -> Result<(), SendError<Asker<A>>> {
        let sent = self.send(seat, None::<&A>);
        handing_back(sent, self)
    }

    /// Sends the asker what it waits for.
    fn send<H: Holds<Bytes>>(
        &self,
        seat: &mut Seat<'_, Bytes, H>,
        answer: Option<&impl SentAs<A>>,
    ) -> Result<(), Error> {
        let mut bytes = self.question.to_le_bytes().to_vec();
        // As an option of an answer is written.
        if let Some(answer) = answer {
            bytes.push(1);
            <Bytes as Carries<A>>::with_sent(answer, |piece| bytes.extend_from_slice(piece));
        }
        let (mailbox, line) = (self.mailbox, Line::of(Bytes::length(&bytes)));
        let code = seat.call(Give::Send.on(mailbox), line, |room, seat| {
            Bytes::give(Give::Send, room, seat, mailbox, &bytes)
        });
        code.and_then(done).map_err(|error| match seat.board.kind(mailbox) {
            Ok(is) => error.misfit(Misfit::Kind {
                number: mailbox,
                is,
                wanted: Kind::Mailbox,
            }),
            Err(_) => error.missing(Missing::Object(mailbox)),
        })
    }
}

impl<A> Message for Asker<A> {
    fn write_to(&self, bytes: &mut Vec<u8>) {
        self.mailbox.write_to(bytes);
        self.question.write_to(bytes);
    }

    fn from_bytes(bytes: &[u8]) -> Option<Asker<A>> {
        let (mailbox, question) = bytes.split_first_chunk()?;
        Some(Asker::new(u64::from_le_bytes(*mailbox), u64::from_bytes(question)?))
    }
}

impl<A> fmt::Debug for Asker<A> {
    fn fmt(&self, f: &mut fmt::Formatter<'_>) -> fmt::Result {
        f.debug_struct("Asker")
            .field("mailbox", &self.mailbox)
            .field("question", &self.question)
            .finish()
    }
}

impl<A> PartialEq for Asker<A> {
    fn eq(&self, other: &Asker<A>) -> bool {
        (self.mailbox, self.question) == (other.mailbox, other.question)
    }
}

impl<A> Eq for Asker<A> {}

impl<A> std::hash::Hash for Asker<A> {
    fn hash<H: std::hash::Hasher>(&self, state: &mut H) {
        (self.mailbox, self.question).hash(state);
    }
}
