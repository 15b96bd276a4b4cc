//! The calls of a seat that ask a question and wait for its answer.

use crate::calls::{Calls, Give, Read};
use crate::error::Error;
use crate::message::carries::{Bytes, Carries};
use crate::message::names::{Mailbox, Object};
use crate::message::sent_as::SentAs;
use crate::message::Message;
use crate::raw::{code, done};
use crate::request::asked::{Asked, Asking};
use crate::request::{Asker, Request};
use crate::seat::owned::Holds;
use crate::seat::pending::{Answer, PendingCall};
use crate::seat::Seat;
use crate::switchboard::call::Line;
use std::fmt;
use std::sync::Arc;
use std::time::{Duration, Instant};

/// The mailbox that takes the answers to a seat's questions, and how many it asked. After the seat
/// another one has it, which numbers its questions on: so it takes no late answer as its own.
pub(crate) struct Answers {
    pub mailbox: u64,
    count: u64,
    /// Which of them has no answer yet.
    pub asked: Arc<Asked>,
}

/// # Calls that ask
///
/// They send a question to a mailbox of [`Request`]s, and wait for the answer. A seat has one
/// mailbox for all its answers: its first request makes it, or has that of a seat that has left. So
/// a request leaves no object.
///
/// The question stays sent when a call fails or a future is dropped. A server may still receive
/// it, and its answer is dropped by the seat's next request. [`RequestError::was_sent`] says
/// whether a server may act on it.
///
/// ```
/// use seryugo::{Error, Request, Switchboard};
/// use std::time::Duration;
///
/// # fn main() -> Result<(), Error> {
/// let board = Switchboard::new(1_000)?;
/// let (mut ann, mut ben) = (board.seat()?, board.seat()?);
/// let doubles = ben.mailbox::<Request<u64, u64>>()?;
/// let late = ann.request_timeout(doubles, 1, Duration::from_millis(1)).unwrap_err();
/// assert_eq!((late.error, late.was_sent), (Error::TimedOut, true));
/// std::thread::scope(|scope| {
///     scope.spawn(move || {
///         for expected in [1, 5] {
///             let Request { question, asker } = ben.recv(doubles)?;
///             assert_eq!(question, expected);
///             asker.answer(&mut ben, 2 * question)?;
///         }
///         Ok::<(), Error>(())
///     });
///     assert_eq!(ann.request(doubles, 5)?, 10);
///     Ok(())
/// })
/// # }
/// ```
impl<H: Holds<Bytes>> Seat<'_, Bytes, H> {
    /// Sends a question to a mailbox of requests. Blocks until it is answered.
    ///
    /// ```
    /// use seryugo::{Error, Request, Switchboard};
    /// use std::sync::Arc;
    ///
    /// # fn main() -> Result<(), Error> {
    /// let board = Arc::new(Switchboard::new(1_000)?);
    /// let (mut client, mut server) = (board.seat_owned()?, board.seat_owned()?);
    /// let shouts = server.mailbox::<Request<String, String>>()?;
    /// let served = std::thread::spawn(move || {
    ///     while let Ok(request) = server.recv(shouts) {
    ///         request.answer_with(&mut server, |question| question.to_uppercase())?;
    ///     }
    ///     Ok::<(), Error>(())
    /// });
    /// assert_eq!(client.request(shouts, "hello")?, "HELLO");
    /// drop(client);
    /// served.join().unwrap()
    /// # }
    /// ```
    ///
    /// # Errors
    ///
    /// [The usual ones](crate::Seat#how-a-call-fails). [`RequestError`] hands the question back,
    /// and says whether it was sent. `Declined`: a server sends no answer. `Stalled`: nothing could
    /// answer the question. `Unreadable`: the answer can't be read as this type. `OutOfBounds`: the
    /// question has more than 2^32 - 17 bytes.
    pub fn request<Q: Message, A: Message, M: SentAs<Q>>(
        &mut self,
        mailbox: Mailbox<Request<Q, A>>,
        question: M,
    ) -> Result<A, RequestError<M>> {
        self.request_by(mailbox, question, None, Seat::answer_to)
    }

    /// The same, but it blocks no longer than this.
    ///
    /// ```
    /// use seryugo::{Error, Request};
    /// use std::time::Duration;
    ///
    /// # let board = seryugo::Switchboard::new(1_000)?;
    /// let (mut seat, _other) = (board.seat()?, board.seat()?);
    /// let doubles = seat.mailbox::<Request<u64, u64>>()?;
    /// let late = seat.request_timeout(doubles, 5, Duration::from_millis(1)).unwrap_err();
    /// assert_eq!(late.error, Error::TimedOut);
    /// # Ok::<(), seryugo::Error>(())
    /// ```
    ///
    /// # Errors
    ///
    /// As [`request`](Seat::request). `TimedOut`: the time has passed.
    pub fn request_timeout<Q: Message, A: Message, M: SentAs<Q>>(
        &mut self,
        mailbox: Mailbox<Request<Q, A>>,
        question: M,
        timeout: Duration,
    ) -> Result<A, RequestError<M>> {
        // A limit that no clock reaches is none.
        match Instant::now().checked_add(timeout) {
            Some(deadline) => self.request_deadline(mailbox, question, deadline),
            None => self.request(mailbox, question),
        }
    }

    /// The same, but it blocks until then at the latest. If that has passed before, it sends the
    /// question, and looks for an answer once.
    ///
    /// ```
    /// use seryugo::{Error, Request};
    ///
    /// # let board = seryugo::Switchboard::new(1_000)?;
    /// let (mut seat, _other) = (board.seat()?, board.seat()?);
    /// let doubles = seat.mailbox::<Request<u64, u64>>()?;
    /// let late = seat.request_deadline(doubles, 5, std::time::Instant::now()).unwrap_err();
    /// assert_eq!(late.error, Error::TimedOut);
    /// # Ok::<(), seryugo::Error>(())
    /// ```
    ///
    /// # Errors
    ///
    /// As [`request_timeout`](Seat::request_timeout).
    pub fn request_deadline<Q: Message, A: Message, M: SentAs<Q>>(
        &mut self,
        mailbox: Mailbox<Request<Q, A>>,
        question: M,
        deadline: Instant,
    ) -> Result<A, RequestError<M>> {
        self.request_by(mailbox, question, Some(deadline), |seat, call| {
            seat.wait_until(call, deadline)
        })
    }

    /// The same as a future. It sends the question when it is first polled.
    ///
    /// ```
    /// # use std::{future::Future, pin::pin, task::{Context, Poll, Waker}};
    /// # use seryugo::Request;
    /// # let board = seryugo::Switchboard::new(1_000)?;
    /// let (mut client, mut server) = (board.seat()?, board.seat()?);
    /// let doubles = server.mailbox::<Request<u64, u64>>()?;
    /// let mut asked = pin!(client.request_async(doubles, 5));
    /// let mut context = Context::from_waker(Waker::noop());
    /// assert_eq!(asked.as_mut().poll(&mut context), Poll::Pending);
    /// server.recv(doubles)?.answer_with(&mut server, |question| 2 * question)?;
    /// assert_eq!(asked.as_mut().poll(&mut context), Poll::Ready(Ok(10)));
    /// # Ok::<(), seryugo::Error>(())
    /// ```
    ///
    /// # Errors
    ///
    /// As [`request`](Seat::request).
    pub async fn request_async<Q: Message, A: Message, M: SentAs<Q>>(
        &mut self,
        mailbox: Mailbox<Request<Q, A>>,
        question: M,
    ) -> Result<A, RequestError<M>> {
        let asked = self.ask(mailbox, question, None)?;
        let call = PendingCall::Read(Read::Recv, asked.asker.mailbox());
        loop {
            let received = self.waiting(call).await;
            if let Some(answer) = answer_in(&asked.asker, received) {
                return answer.map_err(|error| RequestError::new(asked.question, true, error));
            }
        }
    }

    /// Asks, and waits for the answer by this call.
    fn request_by<Q: Message, A: Message, M: SentAs<Q>>(
        &mut self,
        mailbox: Mailbox<Request<Q, A>>,
        question: M,
        deadline: Option<Instant>,
        mut wait: impl FnMut(&mut Self, PendingCall<'static, Bytes>) -> Answer<Bytes>,
    ) -> Result<A, RequestError<M>> {
        let asked = self.ask(mailbox, question, deadline)?;
        let call = PendingCall::Read(Read::Recv, asked.asker.mailbox());
        loop {
            let received = wait(self, call);
            if let Some(answer) = answer_in(&asked.asker, received) {
                return answer.map_err(|error| RequestError::new(asked.question, true, error));
            }
        }
    }

    /// Sends a question: who asks until when, and the question.
    fn ask<Q: Message, A, M: SentAs<Q>>(
        &mut self,
        mailbox: Mailbox<Request<Q, A>>,
        question: M,
        deadline: Option<Instant>,
    ) -> Result<Unanswered<A, M>, RequestError<M>> {
        match self.send_question(mailbox, &question, deadline) {
            Ok((asker, asking)) => Ok(Unanswered {
                asker,
                question,
                _asking: asking,
            }),
            Err(error) => Err(RequestError::new(question, false, error)),
        }
    }

    fn send_question<Q: Message, A>(
        &mut self,
        mailbox: Mailbox<Request<Q, A>>,
        question: &impl SentAs<Q>,
        deadline: Option<Instant>,
    ) -> Result<(Asker<A>, Asking), Error> {
        let mailbox = self.here(mailbox)?;
        let (asker, asking) = self.next_asker(deadline)?;
        let mut bytes = Vec::new();
        asker.write_to(&mut bytes);
        <Bytes as Carries<Q>>::with_sent(question, |piece| bytes.extend_from_slice(piece));
        let line = Line::of(Bytes::length(&bytes));
        done(self.call(Give::Send.on(mailbox), line, |room, seat| {
            Bytes::give(Give::Send, room, seat, mailbox, &bytes)
        })?)?;
        Ok((asker, asking))
    }

    /// The mailbox for the seat's answers, and the number of its next question, which is asked from
    /// now on.
    fn next_asker<A>(&mut self, deadline: Option<Instant>) -> Result<(Asker<A>, Asking), Error> {
        if self.answers.is_none() {
            self.answers = self.board.answers_for(self.number());
        }
        let mut answers = match self.answers.take() {
            Some(answers) => answers,
            None => self.new_answers()?,
        };
        answers.count += 1;
        let asker = Asker::new(answers.mailbox, answers.count);
        let asking = Asking::begin(&answers.asked, answers.count, deadline);
        self.answers = Some(answers);
        Ok((asker, asking))
    }

    fn new_answers(&mut self) -> Result<Answers, Error> {
        let mailbox = self.mailbox::<Vec<u8>>()?.number();
        let asked = Arc::default();
        self.board.locked()?.asked.insert(mailbox, Arc::clone(&asked));
        Ok(Answers {
            mailbox,
            count: 0,
            asked,
        })
    }
}

/// A question that was sent, and is asked until this is dropped.
struct Unanswered<A, M> {
    asker: Asker<A>,
    question: M,
    _asking: Asking,
}

/// What a wait for a question's answer has ended with. `None`: it was an answer to an older one.
fn answer_in<A: Message>(asker: &Asker<A>, received: Answer<Bytes>) -> Option<Result<A, Error>> {
    match received {
        Ok((code::DONE, received)) => asker.answer_of(received.as_slice()),
        Ok((code, _)) => Some(Err(Error::of_code(code))),
        Err(error) => Some(Err(error)),
    }
}

/// A question without an answer, and why. It becomes its [`Error`] by `?`, which drops the
/// question.
///
/// ```
/// use seryugo::{Error, Request, RequestError, Switchboard};
///
/// # fn main() -> Result<(), Error> {
/// let board = Switchboard::new(1_000)?;
/// let mut seat = board.seat()?;
/// let lengths = seat.mailbox::<Request<String, u64>>()?;
/// let unanswered: RequestError<_> = seat.request(lengths, "hello").unwrap_err();
/// assert_eq!(unanswered.error, Error::Stalled);
/// assert!(unanswered.was_sent);
/// assert_eq!(unanswered.question, "hello");
/// assert!(unanswered.to_string().starts_with("the question has no answer: no seat and no lane"));
/// # Ok(())
/// # }
/// ```
#[derive(Clone, PartialEq, Eq, Hash)]
pub struct RequestError<M> {
    /// What the call was given.
    pub question: M,
    /// Whether the question was sent. If so, a server has it or will have it: who asks again asks
    /// twice.
    pub was_sent: bool,
    /// Why there is no answer.
    pub error: Error,
}

impl<M> RequestError<M> {
    #[cold]
    fn new(question: M, was_sent: bool, error: Error) -> RequestError<M> {
        RequestError {
            question,
            was_sent,
            error,
        }
    }
}

impl<M> fmt::Debug for RequestError<M> {
    fn fmt(&self, f: &mut fmt::Formatter<'_>) -> fmt::Result {
        f.debug_struct("RequestError")
            .field("was_sent", &self.was_sent)
            .field("error", &self.error)
            .finish_non_exhaustive()
    }
}

impl<M> fmt::Display for RequestError<M> {
    fn fmt(&self, f: &mut fmt::Formatter<'_>) -> fmt::Result {
        let what = match self.was_sent {
            true => "the question has no answer",
            false => "the question wasn't sent",
        };
        write!(f, "{what}: {}", self.error)
    }
}

impl<M> std::error::Error for RequestError<M> {
    fn source(&self) -> Option<&(dyn std::error::Error + 'static)> {
        Some(&self.error)
    }
}

impl<M> From<RequestError<M>> for Error {
    fn from(unanswered: RequestError<M>) -> Error {
        unanswered.error
    }
}
