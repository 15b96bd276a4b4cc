//! What an exploration asks and makes of a switchboard.

use super::step::{Step, StepKind, NONE};
use crate::calls::Read;
use crate::journal::entry::Entry;
use crate::message::carries::MessageKind;
use crate::message::kind;
use crate::raw::{self, code, EntrySource, Handle, Reader, Taking};
use crate::switchboard::call::Ask;
use crate::switchboard::waiting::WaitsAt;
use crate::switchboard::Switchboard;
use std::hash::{DefaultHasher, Hash, Hasher};

/// How a step ends.
#[derive(Clone, Copy, PartialEq, Eq, Debug)]
pub(crate) enum Pass {
    /// It is made.
    Go,
    /// Its time has passed.
    TimedOut,
    /// It fails as stalled.
    Stalled,
    /// It is that of a future, which is polled in vain.
    Pending,
}

/// What a step finds.
#[derive(Clone, Copy, PartialEq, Debug)]
pub(crate) struct Look {
    /// Whether the call would be answered now.
    pub is_answered: bool,
    /// As [`Move::is_full`](super::moves::Move::is_full).
    pub is_full: bool,
    /// As [`Move::place`](super::moves::Move::place).
    pub place: u64,
}

/// A call that waits.
#[derive(Clone, Copy)]
pub(crate) struct Blocked {
    pub seat: u64,
    pub step: Step,
    /// As in [`Wait`](crate::switchboard::call::Wait).
    pub is_open: bool,
}

/// A switchboard of some kind that is explored.
pub(crate) trait Board: Send + Sync {
    fn look(&self, step: Step) -> Look;
    /// What this step does to objects, as a step on one of them: a drain sends, a pump receives.
    fn as_if(&self, step: Step) -> Step;
    /// The channel of this port, or `NONE`.
    fn channel(&self, port: u64) -> u64;
    /// All that a look at this object sees, as a number. `None`: it is a variable.
    fn counts(&self, object: u64) -> Option<u64>;
    /// How many entries the journal has had, and how many it has.
    fn entries(&self) -> (u64, u64);
    /// The call and the reply of the entry at this place, each as a number.
    fn entry_sums(&self, at: u64) -> Option<(u64, u64)>;
    /// The journal as text, which is taken.
    fn text(&self) -> String;
    /// Whether one of these calls would fail as stalled, if all of them were made, and which seats
    /// are free then.
    fn stall(&self, waits: &[Blocked]) -> (bool, Vec<u64>);
}

impl<R: MessageKind> Board for Switchboard<R> {
    fn look(&self, step: Step) -> Look {
        let mut state = self.lock();
        let is_fed =
            step.kind == StepKind::Recv && state.fed.values().any(|port| *port == step.object);
        let room = &mut state.handle;
        let is_full = match step.kind {
            StepKind::Send => is_owed(room, step.object),
            StepKind::Recv | StepKind::Poll | StepKind::Copy | StepKind::Close => {
                is_owed(room, step.object) || is_closed(room, step.object)
            }
            StepKind::Look => {
                is_owed(room, step.object)
                    || is_closed(room, step.object)
                    || is_held::<R>(room, step.object)
            }
            StepKind::Put
            | StepKind::Get
            | StepKind::GetPoll
            | StepKind::Take
            | StepKind::TakePoll
            | StepKind::Swap => is_held::<R>(room, step.object),
            _ => false,
        };
        Look {
            // A port that a feed has refuses the call.
            is_answered: is_full || is_fed || !step.kind.blocks(),
            is_full,
            place: place(room, step),
        }
    }

    fn as_if(&self, step: Step) -> Step {
        let state = &mut *self.lock();
        let port = state.fed.get(&step.object).copied().unwrap_or(NONE);
        match step.kind {
            StepKind::Drain | StepKind::CloseLane => match state.lanes.get(&step.object) {
                Some(lane) => sends_to(&mut state.handle, lane.target),
                // The lane may be opened.
                None => StepKind::LookAtAll.on(NONE),
            },
            StepKind::Pump => StepKind::Recv.on(port),
            StepKind::EndFeed => StepKind::Close.on(port),
            StepKind::OpenFeed => StepKind::Port.on(step.object),
            _ => step,
        }
    }

    fn channel(&self, port: u64) -> u64 {
        raw::read(&mut self.lock().handle, Reader::Channel, port).unwrap_or(NONE)
    }

    fn counts(&self, object: u64) -> Option<u64> {
        let room = &mut self.lock().handle;
        let readers = [Reader::Sent, Reader::Got, Reader::Owed, Reader::Kept];
        let counts = readers.map(|reader| raw::read(room, reader, object).ok());
        let is_open = raw::read(room, Reader::IsOpen, object).ok();
        counts.iter().any(Option::is_some).then(|| sum_of(&(counts, is_open)))
    }

    fn entries(&self) -> (u64, u64) {
        let mut state = self.lock();
        let (all, cut) = (state.count(Reader::Entries), state.count(Reader::CutAt));
        (all, all - cut)
    }

    fn entry_sums(&self, at: u64) -> Option<(u64, u64)> {
        let entry: Entry<R> = R::entry(&mut self.lock().handle, EntrySource::Room, at).ok()?;
        Some((sum_of(&entry.call), sum_of(&entry.reply)))
    }

    fn text(&self) -> String {
        let mut text = Vec::new();
        let taken = self.lock().take_journal(Taking::CutOpen);
        match taken.map(|journal| journal.write_to(&mut text)) {
            Ok(Ok(())) => String::from_utf8_lossy(&text).into_owned(),
            Ok(Err(error)) => format!("the journal can't be written: {error}\n"),
            Err(error) => format!("the journal can't be taken: {error}\n"),
        }
    }

    fn stall(&self, waits: &[Blocked]) -> (bool, Vec<u64>) {
        let mut state = self.lock();
        let mut is_last_stalled = false;
        for &Blocked { seat, step, .. } in waits {
            let (read, at) = match step.kind {
                StepKind::Recv => (Read::Recv, WaitsAt::Recv(step.object)),
                StepKind::Get => (Read::Get, WaitsAt::Get(step.object)),
                // A swap waits as a take does.
                _ => (Read::Take, WaitsAt::Take(step.object)),
            };
            let mut found = R::nothing();
            let code = state.ask(Ask::blocking(seat, at), |room| {
                R::ask(read, room, seat, step.object, false, &mut found)
            });
            is_last_stalled = code == code::STALLED;
        }
        let seats = state.next_place();
        let is_free = |seat: &u64| is_free::<R>(&mut state.handle, *seat);
        let free = (0..seats).filter(is_free).collect();
        for waits in waits {
            state.withdraw(waits.seat);
        }
        let is_held_up = !state.open_waits_may_stall() && waits.iter().any(|waits| waits.is_open);
        (is_last_stalled && !is_held_up, free)
    }
}

/// Whether a seat may call: the library refuses the call of another one before it looks at the
/// object, which isn't there.
fn is_free<R: MessageKind>(room: &mut Handle, seat: u64) -> bool {
    R::poll(Read::Get, room, seat, NONE, &mut R::nothing()) == code::NO_SUCH
}

/// The step of a call that sends to this mailbox or channel.
fn sends_to(room: &mut Handle, target: u64) -> Step {
    let kind = raw::read(room, Reader::Kind, target);
    match kind.and_then(kind::Kind::of) {
        Ok(kind::Kind::Mailbox) => StepKind::Send.on(target),
        _ => StepKind::Multicast.on(target),
    }
}

/// Which message of its mailbox or channel a step sends or receives, or `NONE`.
fn place(room: &mut Handle, step: Step) -> u64 {
    let object = step.object;
    let mut count = |reader| raw::read(room, reader, object).ok();
    let place = match step.kind {
        StepKind::Send | StepKind::Multicast => count(Reader::Sent),
        StepKind::Recv | StepKind::Poll if count(Reader::Owed).is_some_and(|owed| owed > 0) => {
            let start = count(Reader::Start).unwrap_or(0);
            count(Reader::Got).map(|got| start + got)
        }
        _ => None,
    };
    place.unwrap_or(NONE)
}

fn is_closed(room: &mut Handle, port: u64) -> bool {
    raw::read(room, Reader::IsOpen, port) == Ok(0)
}

fn is_held<R: MessageKind>(room: &mut Handle, object: u64) -> bool {
    R::held(room, object, &mut R::nothing()) == code::DONE
}

fn is_owed(room: &mut Handle, object: u64) -> bool {
    raw::read(room, Reader::Owed, object).is_ok_and(|owed| owed != 0)
}

pub(crate) fn sum_of(value: &impl Hash) -> u64 {
    let mut hasher = DefaultHasher::new();
    value.hash(&mut hasher);
    hasher.finish()
}
