//! Who waits at a switchboard, and at what.

use crate::message::carries::MessageKind;
use crate::switchboard::state::State;
use crate::switchboard::Switchboard;
use std::cell::RefCell;
use std::fmt;

/// A call at which a seat waits, with the number of its object.
#[derive(Clone, Copy, Debug, PartialEq, Eq, Hash)]
pub enum WaitsAt {
    /// It receives from this mailbox or port.
    Recv(u64),
    /// It reads this variable.
    Get(u64),
    /// It reads and empties this m-variable.
    Take(u64),
    /// It stores a message in this m-variable, and reads the one before.
    Swap(u64),
}

impl WaitsAt {
    /// The number of the object.
    #[must_use]
    pub fn object(self) -> u64 {
        match self {
            WaitsAt::Recv(at) | WaitsAt::Get(at) | WaitsAt::Take(at) | WaitsAt::Swap(at) => at,
        }
    }
}

/// In the journal's words.
impl fmt::Display for WaitsAt {
    fn fmt(&self, f: &mut fmt::Formatter<'_>) -> fmt::Result {
        let word = match self {
            WaitsAt::Recv(_) => "recv",
            WaitsAt::Get(_) => "get",
            WaitsAt::Take(_) => "take",
            WaitsAt::Swap(_) => "swap",
        };
        write!(f, "{word} {}", self.object())
    }
}

/// A seat that waits.
#[derive(Clone, Debug, PartialEq, Eq, Hash)]
#[non_exhaustive]
pub struct Waiting {
    /// The seat's number.
    pub seat: u64,
    /// The call at which it waits.
    pub at: WaitsAt,
    /// How many entries the journal had had as it began to wait.
    pub since: u64,
    /// Whether its caller can end the wait: it has a time limit, or is a future.
    pub is_open: bool,
    /// The name of the thread that made the call, or that polled its future first. `None`: the thread
    /// has no name.
    pub thread: Option<String>,
}

impl fmt::Display for Waiting {
    fn fmt(&self, f: &mut fmt::Formatter<'_>) -> fmt::Result {
        write!(f, "seat {}", self.seat)?;
        if let Some(thread) = &self.thread {
            write!(f, " (thread {thread})")?;
        }
        write!(f, " at {} since entry {}", self.at, self.since)
    }
}

/// # Who waits where
impl<R: MessageKind> Switchboard<R> {
    /// Returns the seats that wait, in the order of their numbers, and what each waits at. In an
    /// exploration none does. `Debug` shows them too, unless another thread makes a call just then.
    ///
    /// ```
    /// use seryugo::{Switchboard, WaitsAt};
    ///
    /// # fn main() -> Result<(), seryugo::Error> {
    /// let board = Switchboard::new(1_000)?;
    /// let (mut ann, mut ben) = (board.seat()?, board.seat()?);
    /// let letters = ben.mailbox::<String>()?;
    /// std::thread::scope(|scope| {
    ///     let waiter = std::thread::Builder::new().name("ben".to_string());
    ///     waiter.spawn_scoped(scope, move || ben.recv(letters)).unwrap();
    ///     while board.waiting().is_empty() {
    ///         std::thread::yield_now();
    ///     }
    ///     let ben = &board.waiting()[0];
    ///     assert_eq!((ben.seat, ben.at, ben.since), (1, WaitsAt::Recv(0), 1));
    ///     assert_eq!(ben.to_string(), "seat 1 (thread ben) at recv 0 since entry 1");
    ///     Ok(ann.send(letters, "Dear Ben")?)
    /// })
    /// # }
    /// ```
    #[must_use]
    pub fn waiting(&self) -> Vec<Waiting> {
        self.locked().map(|state| self.all_waiting(&state).collect()).unwrap_or_default()
    }

    /// The same, if no thread makes a call just now.
    pub(super) fn waiting_now(&self) -> Option<Vec<Waiting>> {
        let state = self.try_lock()?;
        Some(self.all_waiting(&state).collect())
    }

    /// The seats that wait, in the order of their numbers.
    fn all_waiting<'s>(&'s self, state: &'s State<R>) -> impl Iterator<Item = Waiting> + 's {
        (0..state.seats).filter_map(|place| {
            let parker = self.parkers.get(place)?;
            parker.waiting(state.first_seat.wrapping_add(place))
        })
    }

    /// Notes who waits as a call fails as stalled, for the error's text.
    #[cold]
    pub(super) fn note_stalled(&self, state: &mut State<R>) {
        let Some((seat, at)) = state.take_stalled() else {
            return;
        };
        let others = self.all_waiting(state).filter(|waiting| waiting.seat != seat);
        let others: Vec<Waiting> = others.take(MOST_TOLD + 1).collect();
        // As a thread ends, an error says less.
        let _ = LAST.try_with(|last| last.replace(Some(Stall { seat, at, others })));
    }
}

/// An error's text has no more seats that wait.
const MOST_TOLD: usize = 8;

thread_local! {
    /// Who waited as the last call of this thread failed as stalled. `Error::Stalled` itself has
    /// nothing beside its name, so that programs compare it.
    static LAST: RefCell<Option<Stall>> = const { RefCell::new(None) };
}

/// A call that failed as stalled, and who waited then.
struct Stall {
    seat: u64,
    at: WaitsAt,
    others: Vec<Waiting>,
}

/// Writes who waited as the last call of this thread failed as stalled, if one did.
pub(crate) fn write_last_stall(f: &mut fmt::Formatter<'_>) -> fmt::Result {
    let written = LAST.try_with(|last| match &*last.borrow() {
        Some(stall) => write!(f, ". The last call of this thread that failed so was {stall}"),
        None => Ok(()),
    });
    written.unwrap_or(Ok(()))
}

impl fmt::Display for Stall {
    fn fmt(&self, f: &mut fmt::Formatter<'_>) -> fmt::Result {
        write!(f, "`{}` from seat {}, ", self.at, self.seat)?;
        let (told, more) = self.others.split_at(self.others.len().min(MOST_TOLD));
        if told.is_empty() {
            return f.write_str("and no other seat waited");
        }
        f.write_str("and these waited: ")?;
        for (place, other) in told.iter().enumerate() {
            write!(f, "{}{other}", if place == 0 { "" } else { "; " })?;
        }
        f.write_str(if more.is_empty() { "" } else { "; and others" })
    }
}
