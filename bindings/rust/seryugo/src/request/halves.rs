//! Questions by the halves of a mailbox.

use crate::channel::{Receiver, Sender};
use crate::error::SendError;
use crate::message::sent_as::SentAs;
use crate::message::Message;
use crate::request::answers::RequestError;
use crate::request::{Asker, Request};
use std::time::{Duration, Instant};

/// # Questions
///
/// A clone has its own seat, and so its own mailbox for its answers.
impl<Q: Message, A: Message> Sender<Request<Q, A>> {
    /// Sends a question, and waits for its answer.
    ///
    /// ```
    /// use seryugo::{Error, Request, Switchboard};
    /// use std::sync::Arc;
    /// use std::thread;
    ///
    /// # fn main() -> Result<(), Error> {
    /// let board = Arc::new(Switchboard::new(1_000)?);
    /// let (sender, receiver) = board.unbounded::<Request<String, u64>>()?;
    /// let served = thread::spawn(move || {
    ///     for Request { question, asker } in &receiver {
    ///         receiver.answer(asker, question.len() as u64)?;
    ///     }
    ///     Ok::<(), Error>(())
    /// });
    /// assert_eq!(sender.request("four")?, 4);
    /// drop(sender);
    /// served.join().unwrap()
    /// # }
    /// ```
    ///
    /// # Errors
    ///
    /// Those of [`Seat::request`](crate::Seat::request).
    pub fn request<M: SentAs<Q>>(&self, question: M) -> Result<A, RequestError<M>> {
        self.0.seat().request(self.0.mailbox, question)
    }

    /// The same, but it blocks no longer than this.
    ///
    /// ```
    /// use seryugo::Request;
    /// use std::time::{Duration, Instant};
    ///
    /// # let board = std::sync::Arc::new(seryugo::Switchboard::new(1_000)?);
    /// let (sender, _receiver) = board.unbounded::<Request<String, u64>>()?;
    /// let late = sender.request_timeout("four", Duration::from_millis(1)).unwrap_err();
    /// assert_eq!(late.error, seryugo::Error::TimedOut);
    /// # Ok::<(), seryugo::Error>(())
    /// ```
    ///
    /// # Errors
    ///
    /// Those of [`Seat::request_timeout`](crate::Seat::request_timeout).
    pub fn request_timeout<M: SentAs<Q>>(
        &self,
        question: M,
        timeout: Duration,
    ) -> Result<A, RequestError<M>> {
        self.0.seat().request_timeout(self.0.mailbox, question, timeout)
    }

    /// The same as a future. It sends the question when it is first polled.
    ///
    /// ```
    /// # use std::{future::Future, pin::pin, task::{Context, Poll, Waker}};
    /// # use seryugo::Request;
    /// # let board = std::sync::Arc::new(seryugo::Switchboard::new(1_000)?);
    /// let (mut sender, receiver) = board.unbounded::<Request<String, u64>>()?;
    /// let mut asked = pin!(sender.request_async("four"));
    /// let mut context = Context::from_waker(Waker::noop());
    /// assert_eq!(asked.as_mut().poll(&mut context), Poll::Pending);
    /// let Request { question, asker } = receiver.recv()?;
    /// receiver.answer(asker, question.len() as u64)?;
    /// assert_eq!(asked.as_mut().poll(&mut context), Poll::Ready(Ok(4)));
    /// # Ok::<(), seryugo::Error>(())
    /// ```
    ///
    /// # Errors
    ///
    /// Those of [`Seat::request_async`](crate::Seat::request_async).
    pub async fn request_async<M: SentAs<Q>>(&mut self, question: M) -> Result<A, RequestError<M>> {
        self.0.seat.get_mut().request_async(self.0.mailbox, question).await
    }
}

/// # Answers
///
/// They are sent from the seat that received the question.
impl<Q, A: Message> Receiver<Request<Q, A>> {
    /// Answers a question.
    ///
    /// ```
    /// # use std::{future::Future, pin::pin, task::{Context, Poll, Waker}};
    /// # use seryugo::Request;
    /// # let board = std::sync::Arc::new(seryugo::Switchboard::new(1_000)?);
    /// # let (mut sender, receiver) = board.unbounded::<Request<u64, u64>>()?;
    /// # let mut asked = pin!(sender.request_async(4));
    /// # let mut context = Context::from_waker(Waker::noop());
    /// # assert_eq!(asked.as_mut().poll(&mut context), Poll::Pending);
    /// let Request { question, asker } = receiver.recv()?;
    /// receiver.answer(asker, 2 * question)?;
    /// # assert_eq!(asked.as_mut().poll(&mut context), Poll::Ready(Ok(8)));
    /// # Ok::<(), seryugo::Error>(())
    /// ```
    ///
    /// # Errors
    ///
    /// Those of [`Asker::answer`].
    pub fn answer<M: SentAs<A>>(
        &self,
        asker: Asker<A>,
        answer: M,
    ) -> Result<(), SendError<(Asker<A>, M)>> {
        asker.answer(&mut self.0.seat(), answer)
    }

    /// Tells an asker that there will be no answer.
    ///
    /// ```
    /// # use std::{future::Future, pin::pin, task::{Context, Poll, Waker}};
    /// # use seryugo::{Error, Request};
    /// # let board = std::sync::Arc::new(seryugo::Switchboard::new(1_000)?);
    /// # let (mut sender, receiver) = board.unbounded::<Request<u64, u64>>()?;
    /// # let mut asked = pin!(sender.request_async(5));
    /// # let mut context = Context::from_waker(Waker::noop());
    /// # assert!(asked.as_mut().poll(&mut context).is_pending());
    /// let Request { question, asker } = receiver.recv()?;
    /// if question % 2 == 1 {
    ///     receiver.decline(asker)?;
    /// }
    /// # let Poll::Ready(Err(refused)) = asked.as_mut().poll(&mut context) else { panic!() };
    /// # assert_eq!(refused.error, Error::Declined);
    /// # Ok::<(), seryugo::Error>(())
    /// ```
    ///
    /// # Errors
    ///
    /// Those of [`Asker::decline`].
    pub fn decline(&self, asker: Asker<A>) -> Result<(), SendError<Asker<A>>> {
        asker.decline(&mut self.0.seat())
    }

    /// Returns whether the asker still waits for the answer. See [`Asker::is_waiting`].
    ///
    /// ```
    /// use seryugo::Request;
    /// use std::time::{Duration, Instant};
    ///
    /// # let board = std::sync::Arc::new(seryugo::Switchboard::new(1_000)?);
    /// let (sender, receiver) = board.unbounded::<Request<u64, u64>>()?;
    /// assert!(sender.request_timeout(4, Duration::from_millis(1)).is_err());
    /// let Request { asker, .. } = receiver.recv()?;
    /// assert!(!receiver.is_waiting(&asker) && receiver.gives_up_at(&asker).is_none());
    /// # Ok::<(), seryugo::Error>(())
    /// ```
    #[must_use]
    pub fn is_waiting(&self, asker: &Asker<A>) -> bool {
        asker.is_waiting(&self.0.seat())
    }

    /// Returns when the asker gives up. See [`Asker::gives_up_at`].
    #[must_use]
    pub fn gives_up_at(&self, asker: &Asker<A>) -> Option<Instant> {
        asker.gives_up_at(&self.0.seat())
    }
}
