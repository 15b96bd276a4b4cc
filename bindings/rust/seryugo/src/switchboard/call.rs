//! What a call under a switchboard's lock is given, and returns.

use crate::error::Error;
use crate::message::carries::MessageKind;
use crate::raw::{code, Handle};
use crate::switchboard::waiting::WaitsAt;

/// What a call under the lock returns.
pub(crate) trait Outcome {
    /// The answer of a call that wasn't made or isn't kept, by this code.
    fn refused(code: u32) -> Self;
}

impl Outcome for () {
    fn refused(_: u32) {}
}

impl Outcome for u32 {
    fn refused(code: u32) -> u32 {
        code
    }
}

impl<T> Outcome for Result<T, Error> {
    fn refused(code: u32) -> Result<T, Error> {
        Err(Error::of_code(code))
    }
}

impl<A: Outcome, B: Default> Outcome for (A, B) {
    fn refused(code: u32) -> (A, B) {
        (A::refused(code), B::default())
    }
}

/// The most bytes of a message, and of both messages of a swap, if the journal is to be written: a
/// reader takes a line of 4,194,304 bytes, and a message takes up to three of them a byte.
pub(crate) const MESSAGE_MOST: u64 = 1_398_000;

/// The messages of a call's line, which may have a limit. It goes through registers.
#[derive(Clone, Copy)]
pub(crate) struct Line {
    /// How many bytes the call's own message has. Of a swap `SWAP` is added.
    bytes: u64,
    /// The variable whose message the line has too, if it is a swap's.
    variable: u64,
}

/// No message has so many bytes. A swap's line seems too long until both messages were measured.
const SWAP: u64 = 1 << 63;

impl Line {
    /// No message, or one that an earlier line had.
    pub const SHORT: Line = Line::of(0);

    /// A message of this many bytes.
    pub const fn of(bytes: u64) -> Line {
        Line { bytes, variable: 0 }
    }

    /// The message of a swap, and the one that the variable holds.
    pub const fn of_swap(bytes: u64, variable: u64) -> Line {
        Line {
            bytes: SWAP | bytes,
            variable,
        }
    }

    /// Whether its messages may have more bytes than this. Of `u64::MAX` they never have.
    #[inline]
    pub const fn may_exceed(self, most: u64) -> bool {
        self.bytes > most
    }

    /// How many bytes its messages have. `Err`: the code of a call that found no memory.
    pub fn bytes<R: MessageKind>(self, room: &mut Handle) -> Result<u64, u32> {
        let own = self.bytes & !SWAP;
        if own == self.bytes {
            return Ok(own);
        }
        let mut held = R::nothing();
        match R::held(room, self.variable, &mut held) {
            code::DONE => Ok(own.saturating_add(R::received_length(&held))),
            code::NO_MEMORY => Err(code::NO_MEMORY),
            _ => Ok(own),
        }
    }
}

/// What became of a call that may block, as it was made last.
#[derive(Clone, Copy, PartialEq, Eq, Debug)]
pub(crate) enum Before {
    /// It wasn't made, or was answered.
    Never,
    /// The library parked its seat.
    Parked,
    /// The library would let it fail as stalled, and has its seat as free. Since a wait is open, its
    /// caller waits nevertheless.
    Deferred,
}

impl Before {
    /// What became of a call that returned this code.
    #[inline]
    pub const fn of(code: u32) -> Before {
        match code {
            code::PARKED => Before::Parked,
            code::DEFERRED => Before::Deferred,
            _ => Before::Never,
        }
    }
}

/// A wait of a seat.
#[derive(Clone, Copy, PartialEq, Eq, Debug)]
pub(crate) struct Wait {
    pub before: Before,
    /// Whether its caller can end it: it has a time limit, or is a future.
    pub is_open: bool,
}

impl Wait {
    /// One that goes on until there is an answer, and has not begun.
    pub const BLOCKING: Wait = Wait {
        before: Before::Never,
        is_open: false,
    };
    /// One that its caller can end, and that has not begun.
    pub const OPEN: Wait = Wait {
        before: Before::Never,
        is_open: true,
    };

    /// The same wait, after its call returned this code.
    #[inline]
    pub const fn after(self, code: u32) -> Wait {
        Wait {
            before: Before::of(code),
            ..self
        }
    }

    /// Whether it has begun.
    #[inline]
    pub fn has_begun(self) -> bool {
        self.before != Before::Never
    }

    /// Whether the library has the seat as parked.
    #[inline]
    pub fn is_parked(self) -> bool {
        self.before == Before::Parked
    }
}

/// A call that may block, for the first time or again.
#[derive(Clone, Copy)]
pub(crate) struct Ask {
    pub seat: u64,
    pub wait: Wait,
    pub line: Line,
    pub at: WaitsAt,
}

impl Ask {
    /// The first ask of a seat that waits until there is an answer, and whose line is short.
    pub fn blocking(seat: u64, at: WaitsAt) -> Ask {
        Ask {
            seat,
            wait: Wait::BLOCKING,
            line: Line::SHORT,
            at,
        }
    }
}
