//! What a thread is about to do: a call with its object, a look, or what it marks as beside the
//! board.

use super::shared;
use crate::calls::{Give, Read};
use crate::journal::entry::Call;
use std::fmt;

/// The number of no object, and of no seat.
pub(crate) const NONE: u64 = u64::MAX;

/// A kind of step. Those of calls have the journal's words, and come first, by their numbers in the
/// table of calls.
#[derive(Clone, Copy, PartialEq, Eq, Hash, Debug)]
pub enum StepKind {
    Mailbox,
    Channel,
    Port,
    Copy,
    Close,
    IVar,
    MVar,
    MVarInit,
    Send,
    Multicast,
    Recv,
    Poll,
    Put,
    Get,
    GetPoll,
    Take,
    TakePoll,
    Swap,
    /// Reads what an object has.
    Look,
    /// Reads or cuts the journal.
    LookAtAll,
    /// Uses what lies beside the board under this number.
    Aside,
    /// Takes the lock of this number.
    Lock,
    /// Begins to wait for the condition of this number. Then its thread lets its lock go.
    Await,
    /// Takes the lock of this number again, once it is notified.
    Relock,
    /// Wakes one thread that waits for the condition of this number.
    NotifyOne,
    /// Wakes all.
    NotifyAll,
    /// Opens a lane to this object.
    OpenLane,
    /// Sends on the lane of this number.
    LaneSend,
    /// Moves what was sent on the lane of this number.
    Drain,
    /// Ends the lane of this number.
    CloseLane,
    /// Opens a feed of this channel.
    OpenFeed,
    /// Receives what the feed of this number is owed.
    Pump,
    /// Takes what the feed of this number has received.
    FeedRecv,
    /// Ends the feed of this number.
    EndFeed,
}

impl StepKind {
    pub fn on(self, object: u64) -> Step {
        Step { kind: self, object }
    }

    /// The step of a call that makes an object out of nothing.
    pub fn makes(self) -> Step {
        self.on(NONE)
    }

    /// Whether it takes the next number of an object.
    pub fn is_maker(self) -> bool {
        use StepKind::{Channel, Copy, IVar, MVar, MVarInit, Mailbox, Port};
        matches!(self, Mailbox | Channel | Port | Copy | IVar | MVar | MVarInit)
    }

    pub fn blocks(self) -> bool {
        matches!(self, StepKind::Recv | StepKind::Get | StepKind::Take | StepKind::Swap)
    }

    /// Whether it may be on a port, which has a channel beside it.
    pub fn may_be_on_port(self) -> bool {
        matches!(
            self,
            StepKind::Recv | StepKind::Poll | StepKind::Close | StepKind::Copy | StepKind::Look
        )
    }

    /// Whether an accepted call of this kind has one entry in the journal.
    pub fn has_entry(self) -> bool {
        use StepKind::{FeedRecv, LaneSend, Look, LookAtAll, OpenLane};
        let has_none = matches!(self, Look | LookAtAll | OpenLane | LaneSend | FeedRecv);
        !has_none && !self.is_beside() && !self.moves_many() && self != StepKind::EndFeed
    }

    /// Whether it is on what lies beside the board.
    pub fn is_beside(self) -> bool {
        matches!(self, StepKind::Aside | StepKind::Lock) || self.is_of_condition()
    }

    /// Whether it takes a lock.
    pub fn locks(self) -> bool {
        matches!(self, StepKind::Lock | StepKind::Relock)
    }

    /// Whether it waits for a condition, or notifies who does.
    pub fn is_of_condition(self) -> bool {
        matches!(
            self,
            StepKind::Await | StepKind::Relock | StepKind::NotifyOne | StepKind::NotifyAll
        )
    }

    /// Whether it may have an entry for each of many messages.
    pub fn moves_many(self) -> bool {
        matches!(self, StepKind::Drain | StepKind::CloseLane | StepKind::Pump)
    }

    /// Whether it uses the lane of this number.
    pub fn is_on_lane(self) -> bool {
        matches!(self, StepKind::LaneSend | StepKind::Drain | StepKind::CloseLane)
    }

    /// Whether it uses a lane or a feed.
    pub fn is_of_rings(self) -> bool {
        let is_used = matches!(
            self,
            StepKind::LaneSend | StepKind::Drain | StepKind::Pump | StepKind::FeedRecv
        );
        is_used || self.opens_or_ends()
    }

    /// Whether it opens or ends a lane or a feed.
    pub fn opens_or_ends(self) -> bool {
        use StepKind::{CloseLane, EndFeed, OpenFeed, OpenLane};
        matches!(self, OpenLane | CloseLane | OpenFeed | EndFeed)
    }

    fn word(self) -> &'static str {
        match self {
            StepKind::Mailbox => "mailbox",
            StepKind::Channel => "channel",
            StepKind::Port => "port",
            StepKind::Copy => "copy",
            StepKind::Close => "close",
            StepKind::IVar => "ivar",
            StepKind::MVar | StepKind::MVarInit => "mvar",
            StepKind::Send => "send",
            StepKind::Multicast => "multicast",
            StepKind::Recv => "recv",
            StepKind::Poll => "poll",
            StepKind::Put => "put",
            StepKind::Get => "get",
            StepKind::GetPoll => "getpoll",
            StepKind::Take => "take",
            StepKind::TakePoll => "takepoll",
            StepKind::Swap => "swap",
            StepKind::Look => "a look at",
            StepKind::LookAtAll => "a look at the journal",
            StepKind::Aside => "aside",
            StepKind::Lock => "lock",
            StepKind::Await => "condition",
            StepKind::Relock => "lock again",
            StepKind::NotifyOne => "notify_one of condition",
            StepKind::NotifyAll => "notify_all of condition",
            StepKind::OpenLane => "open_lane",
            StepKind::LaneSend => "lane.send",
            StepKind::Drain => "drain",
            StepKind::CloseLane => "close_lane",
            StepKind::OpenFeed => "open_feed",
            StepKind::Pump => "pump",
            StepKind::FeedRecv => "feed.recv",
            StepKind::EndFeed => "end_feed",
        }
    }
}

/// A kind of step, with the number of its object, or of its lane or feed.
#[derive(Clone, Copy, PartialEq, Eq, Hash, Debug)]
pub struct Step {
    pub kind: StepKind,
    pub object: u64,
}

impl Step {
    /// The step of a call that doesn't wait in place of this one.
    pub fn polled(self) -> Step {
        match self.kind {
            StepKind::Recv => StepKind::Poll,
            StepKind::Get => StepKind::GetPoll,
            StepKind::Take => StepKind::TakePoll,
            kind => kind,
        }
        .on(self.object)
    }

    /// The step of a call that is in a journal.
    pub fn of<M>(call: &Call<M>) -> Step {
        match call {
            Call::NewMailbox => StepKind::Mailbox.makes(),
            Call::NewChannel => StepKind::Channel.makes(),
            Call::NewPort(channel) => StepKind::Port.on(*channel),
            Call::CopyPort(port) => StepKind::Copy.on(*port),
            Call::ClosePort(port) => StepKind::Close.on(*port),
            Call::NewIVar => StepKind::IVar.makes(),
            Call::NewMVar => StepKind::MVar.makes(),
            Call::MVarInit(_) => StepKind::MVarInit.makes(),
            Call::Send(mailbox, _) => StepKind::Send.on(*mailbox),
            Call::Multicast(channel, _) => StepKind::Multicast.on(*channel),
            Call::Recv(source) => StepKind::Recv.on(*source),
            Call::RecvPoll(source) => StepKind::Poll.on(*source),
            Call::Put(variable, _) => StepKind::Put.on(*variable),
            Call::Get(variable) => StepKind::Get.on(*variable),
            Call::GetPoll(variable) => StepKind::GetPoll.on(*variable),
            Call::Take(variable) => StepKind::Take.on(*variable),
            Call::TakePoll(variable) => StepKind::TakePoll.on(*variable),
            Call::Swap(variable, _) => StepKind::Swap.on(*variable),
        }
    }
}

impl fmt::Display for Step {
    fn fmt(&self, f: &mut fmt::Formatter<'_>) -> fmt::Result {
        f.write_str(self.kind.word())?;
        match self.object {
            NONE => Ok(()),
            number if self.kind.is_beside() => write!(f, " {}", shared::shown(number)),
            number => write!(f, " {number}"),
        }
    }
}

impl Give {
    /// The step of this call.
    pub(crate) fn on(self, object: u64) -> Step {
        match self {
            Give::Send => StepKind::Send,
            Give::Multicast => StepKind::Multicast,
            Give::Put => StepKind::Put,
        }
        .on(object)
    }
}

impl Read {
    /// The step of this call, if it may block.
    pub(crate) fn ask_of(self, object: u64) -> Step {
        match self {
            Read::Recv => StepKind::Recv,
            Read::Get => StepKind::Get,
            Read::Take => StepKind::Take,
        }
        .on(object)
    }

    /// The step of this call, if it never blocks.
    pub(crate) fn poll_of(self, object: u64) -> Step {
        match self {
            Read::Recv => StepKind::Poll,
            Read::Get => StepKind::GetPoll,
            Read::Take => StepKind::TakePoll,
        }
        .on(object)
    }
}

#[cfg(test)]
mod tests {
    use super::*;

    /// The library finds a call by this number.
    #[test]
    fn steps_of_calls_have_the_numbers_of_the_table() {
        for number in 0..18 {
            let call = Call::of(number, 0, || 0).unwrap();
            assert_eq!(Step::of(&call).kind as u32, number);
        }
    }
}
