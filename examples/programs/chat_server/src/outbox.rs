//! What is due to one client: lines that other threads push, and then the messages of its room.

use crate::messages::Said;
use seryugo::explore::{Condition, Guard, Lock};
use seryugo::Port;
use std::fmt::Display;
use std::io::Write;
use std::sync::atomic::{AtomicBool, Ordering};
use std::thread::Thread;
use std::time::{Duration, Instant};

/// If this many bytes are due, a thread that pushes another line waits.
const MOST: usize = 1 << 16;

/// How long the last lines may take.
const GRACE: Duration = Duration::from_secs(10);

/// How many lines of a client may be said and not yet be returned to it. Then it isn't read from.
const WINDOW: u64 = 64;

/// The connection has ended.
#[derive(Debug)]
pub struct Ended;

/// The messages that the client gets: those of a port.
#[derive(Clone, Copy)]
pub struct Stream {
    pub port: Port<Said>,
    /// The client has seen the messages up to this number.
    pub seen: u64,
    /// The messages of the client's name up to this number were said by an earlier connection.
    pub earlier: u64,
}

/// What the writer does next.
pub struct Due {
    pub text: Vec<u8>,
    pub stream: Option<Stream>,
    pub is_last: bool,
}

#[derive(Default)]
struct State {
    text: Vec<u8>,
    stream: Option<Stream>,
    /// When the connection has ended: only the text is due.
    ended: Option<Instant>,
    /// Whether nothing is due any more.
    is_cut: bool,
    /// How many lines the client said that weren't returned to it yet.
    unreturned: u64,
    writer: Option<Thread>,
}

#[derive(Default)]
pub struct Outbox {
    state: Lock<State>,
    /// There is more room, more was returned, or the connection has ended.
    progress: Condition,
    /// Whether the writer has to look here before it takes another message.
    is_changed: AtomicBool,
    /// It has.
    changes: Condition,
}

impl Outbox {
    /// The thread that writes what is due.
    pub fn set_writer(&self, writer: Thread) {
        self.lock().writer = Some(writer);
    }

    /// Whether there was a change since the last [`take`](Outbox::take).
    pub fn is_changed(&self) -> bool {
        self.is_changed.load(Ordering::Acquire)
    }

    /// Blocks until there is a change.
    pub fn await_change(&self) {
        drop(self.changes.wait_while(self.lock(), |_| !self.is_changed()));
    }

    /// Takes what is due.
    pub fn take(&self) -> Due {
        let mut state = self.lock();
        self.is_changed.store(false, Ordering::Release);
        self.progress.notify_all();
        Due {
            text: std::mem::take(&mut state.text),
            stream: state.stream,
            is_last: state.ended.is_some() || state.is_cut,
        }
    }

    /// Pushes a line. Blocks while too much is due.
    pub fn push(&self, line: impl Display) -> Result<(), Ended> {
        let mut state = self.wait_while(|state| state.text.len() >= MOST)?;
        state.add(line);
        self.change(&mut state);
        Ok(())
    }

    /// Replaces the messages that the client gets. Lines that were pushed before are written before.
    pub fn set_stream(&self, stream: Option<Stream>) -> Option<Stream> {
        let mut state = self.lock();
        let before = std::mem::replace(&mut state.stream, stream);
        self.change(&mut state);
        before
    }

    /// Notes that the client said a line. Blocks while too many weren't returned to it.
    pub fn note_said(&self) -> Result<(), Ended> {
        self.wait_while(|state| state.unreturned >= WINDOW)?.unreturned += 1;
        Ok(())
    }

    /// Notes that a line was returned to the client.
    pub fn note_returned(&self) {
        let mut state = self.lock();
        state.unreturned = state.unreturned.saturating_sub(1);
        self.progress.notify_all();
    }

    /// Blocks until all lines were returned that the client said.
    pub fn await_returned(&self) -> Result<(), Ended> {
        self.wait_while(|state| state.unreturned > 0).map(drop)
    }

    /// Ends the connection with this line, if it hasn't ended.
    pub fn end(&self, last: impl Display) {
        let mut state = self.lock();
        if state.ended.is_none() {
            state.ended = Some(Instant::now());
            state.stream = None;
            state.add(last);
        }
        self.progress.notify_all();
        self.change(&mut state);
    }

    /// Ends the connection: nothing more is written.
    pub fn cut(&self) {
        let mut state = self.lock();
        state.ended.get_or_insert_with(Instant::now);
        state.is_cut = true;
        self.progress.notify_all();
        self.change(&mut state);
    }

    pub fn has_ended(&self) -> bool {
        self.lock().ended.is_some()
    }

    /// Whether to stop a write that can't go on.
    pub fn is_over(&self) -> bool {
        let state = self.lock();
        state.is_cut || state.ended.is_some_and(|ended| ended.elapsed() > GRACE)
    }

    /// Waits while this holds and the connection goes on.
    fn wait_while(&self, holds: impl Fn(&State) -> bool) -> Result<Guard<'_, State>, Ended> {
        let state = self.progress.wait_while(self.lock(), |state| state.ended.is_none() && holds(state));
        match state.ended {
            None => Ok(state),
            Some(_) => Err(Ended),
        }
    }

    fn change(&self, state: &mut State) {
        self.is_changed.store(true, Ordering::Release);
        self.changes.notify_one();
        if let Some(writer) = &state.writer {
            writer.unpark();
        }
    }

    fn lock(&self) -> Guard<'_, State> {
        self.state.lock()
    }
}

impl State {
    fn add(&mut self, line: impl Display) {
        // A list of bytes takes all that is written.
        let _ = writeln!(self.text, "{line}");
    }
}

#[cfg(test)]
mod tests {
    use super::*;
    use std::thread;

    #[test]
    fn what_is_pushed_is_due_once_and_in_order() {
        let outbox = Outbox::default();
        outbox.push("one").unwrap();
        outbox.push("two").unwrap();
        assert!(outbox.is_changed());
        let due = outbox.take();
        assert_eq!((due.text.as_slice(), due.is_last), (&b"one\ntwo\n"[..], false));
        assert!(!outbox.is_changed());
        assert!(outbox.take().text.is_empty());
    }

    #[test]
    fn the_last_line_is_the_last() {
        let outbox = Outbox::default();
        outbox.push("one").unwrap();
        outbox.end("two");
        outbox.end("three");
        outbox.push("four").unwrap_err();
        let due = outbox.take();
        assert_eq!((due.text.as_slice(), due.is_last), (&b"one\ntwo\n"[..], true));
    }

    #[test]
    fn a_client_says_no_more_than_its_window() {
        let outbox = Outbox::default();
        (0..WINDOW).for_each(|_| outbox.note_said().unwrap());
        thread::scope(|scope| {
            // Each of these calls blocks until the other thread makes its calls.
            let more = scope.spawn(|| outbox.note_said());
            outbox.note_returned();
            more.join().unwrap().unwrap();
            let all = scope.spawn(|| outbox.await_returned());
            (0..WINDOW).for_each(|_| outbox.note_returned());
            all.join().unwrap().unwrap();
            (0..WINDOW).for_each(|_| outbox.note_said().unwrap());
            let ended = scope.spawn(|| outbox.note_said());
            outbox.end("over");
            ended.join().unwrap().unwrap_err();
            outbox.await_returned().unwrap_err();
        });
    }

    #[test]
    fn a_line_waits_until_there_is_room() {
        let outbox = Outbox::default();
        outbox.push("x".repeat(MOST)).unwrap();
        thread::scope(|scope| {
            let more = scope.spawn(|| outbox.push("more"));
            assert_eq!(outbox.take().text.len(), MOST + 1);
            more.join().unwrap().unwrap();
            assert_eq!(outbox.take().text, b"more\n");
        });
    }
}
