//! What a seat received for a future that was dropped while it waited for the disk. The seat's next
//! call for the same returns it, so that no message is lost.

use crate::calls::Read;
use crate::message::carries::MessageKind;
use crate::raw::code;
use crate::seat::owned::Holds;
use crate::seat::pending::{Answer, PendingCall};
use crate::seat::Seat;

/// A message that this call has received from this object. It rests on the file up to this
/// position.
pub(crate) struct Unreturned<R: MessageKind> {
    call: Read,
    object: u64,
    received: R::Received,
    position: u64,
}

impl<R: MessageKind, H: Holds<R>> Seat<'_, R, H> {
    /// Keeps what a dropped future has received. A future that took no message leaves none.
    #[cold]
    pub(crate) fn keep_unreturned(
        &mut self,
        call: PendingCall<'_, R>,
        answer: Answer<R>,
        position: u64,
    ) {
        let PendingCall::Read(call @ (Read::Recv | Read::Take), object) = call else {
            return;
        };
        if let Ok((code::DONE, received)) = answer {
            self.unreturned.push(Unreturned {
                call,
                object,
                received,
                position,
            });
        }
    }

    /// Takes the answer of such a call that was kept, with the position up to which it rests on the
    /// file.
    #[inline]
    pub(crate) fn take_unreturned(&mut self, call: PendingCall<'_, R>) -> Option<(Answer<R>, u64)> {
        match call {
            PendingCall::Read(call, object) if !self.unreturned.is_empty() => self
                .find_unreturned(call, object)
                .map(|(received, position)| (Ok((code::DONE, received)), position)),
            _ => None,
        }
    }

    /// Takes such an answer, once the disk has it.
    #[inline]
    pub(crate) fn unreturned_to(&mut self, call: PendingCall<'_, R>) -> Option<Answer<R>> {
        let (answer, position) = self.take_unreturned(call)?;
        Some(self.board.settled(position, answer))
    }

    #[cold]
    fn find_unreturned(&mut self, call: Read, object: u64) -> Option<(R::Received, u64)> {
        let is_it = |kept: &Unreturned<R>| kept.call == call && kept.object == object;
        let at = self.unreturned.iter().position(is_it)?;
        let kept = self.unreturned.remove(at);
        Some((kept.received, kept.position))
    }
}
