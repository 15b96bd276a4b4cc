//! Calls that may block, under a switchboard's lock: what they leave of their seats' waits.

use crate::message::carries::MessageKind;
use crate::park::parker::Parker;
use crate::raw::{self, code, Handle, Reader};
use crate::switchboard::call::{Ask, Before, Wait};
use crate::switchboard::state::{State, DEFERRED, STALLED};
use crate::switchboard::waiting::WaitsAt;

/// The waits that their callers can end: those with a time limit, and futures. While there is one, no
/// call fails as stalled. A call that the library would let fail so is deferred: its seat is free, and
/// its caller waits at its parker. Each change wakes it, so that it asks again.
#[derive(Default)]
pub(crate) struct OpenWaits {
    count: u64,
    /// The seat whose call is deferred. There is one at the most: while a seat is free, the library
    /// parks each other one.
    deferred: Option<u64>,
    /// Whether these waits are as all others, and may fail as stalled.
    may_stall: bool,
    /// The call that has just failed as stalled.
    stalled: Option<(u64, WaitsAt)>,
}

impl<R: MessageKind> State<R> {
    /// From now on no wait is open.
    pub fn let_open_waits_stall(&mut self) {
        self.open.may_stall = true;
    }

    pub fn open_waits_may_stall(&self) -> bool {
        self.open.may_stall
    }

    /// Makes a call that may block. A waiting seat's call was taken before. So while the journal has
    /// room it is made, even if nobody took the entries of the last full one. It fails with each other
    /// refusal.
    #[inline]
    pub fn ask(&mut self, ask: Ask, call: impl FnOnce(&mut Handle) -> u32) -> u32 {
        let (code, is_unkept) = match self.made(ask, call) {
            Ok(made) => made,
            Err(code) => return self.refuse(ask.seat, ask.wait, code),
        };
        if code == code::DONE && !ask.wait.has_begun() {
            return code;
        }
        self.note_wait(ask.seat, ask.wait, code, is_unkept)
    }

    /// Makes such a call of the seat with this parker. What follows a call that isn't done at once gets
    /// its parts, so that other calls put none of them into memory.
    #[inline]
    pub fn ask_by(&mut self, by: &Parker, ask: Ask, call: impl FnOnce(&mut Handle) -> u32) -> u32 {
        let (code, is_unkept) = match self.made(ask, call) {
            Ok(made) => made,
            Err(code) => return self.refuse_by(by, ask.seat, ask.wait, code),
        };
        if code == code::DONE && !ask.wait.has_begun() {
            return code;
        }
        self.note_wait_by(by, ask.seat, ask.wait, ask.at, code, is_unkept)
    }

    /// The code that the library returned, and whether nobody took the entries of the last full
    /// journal. `Err`: the call wasn't made.
    #[inline]
    fn made(
        &mut self,
        ask: Ask,
        call: impl FnOnce(&mut Handle) -> u32,
    ) -> Result<(u32, bool), u32> {
        let room = self.makes_room(ask.line);
        if let Err(code) = room {
            if !ask.wait.has_begun() || code != code::NOT_KEPT {
                return Err(code);
            }
        }
        self.calls += 1;
        Ok((call(&mut self.handle), room.is_err()))
    }

    /// Notes the wait that such a call has begun or ended. Returns its code.
    fn note_wait(&mut self, seat: u64, before: Wait, code: u32, is_unkept: bool) -> u32 {
        let code = match code {
            code::STALLED if self.defers(before) => code::DEFERRED,
            code::JOURNAL_FULL if is_unkept => code::NOT_KEPT,
            code => code,
        };
        let wait = before.after(code);
        self.after_call = (self.after_call + u64::from(wait.is_parked()))
            .saturating_sub(u64::from(before.is_parked()));
        if wait.is_open {
            self.open.count = (self.open.count + u64::from(wait.has_begun()))
                .saturating_sub(u64::from(before.has_begun()));
        }
        match wait.before {
            Before::Deferred => {
                self.open.deferred = Some(seat);
                self.after_call |= DEFERRED;
            }
            _ => self.undefer(seat),
        }
        code
    }

    /// Whether a call that the library lets fail as stalled waits nevertheless.
    fn defers(&self, wait: Wait) -> bool {
        (wait.is_open || self.open.count != 0) && !self.open.may_stall
    }

    /// Notes such a wait of the seat with this parker, too.
    fn note_wait_by(
        &mut self,
        by: &Parker,
        seat: u64,
        before: Wait,
        at: WaitsAt,
        code: u32,
        is_unkept: bool,
    ) -> u32 {
        let code = self.note_wait(seat, before, code, is_unkept);
        let wait = before.after(code);
        match (before.has_begun(), wait.has_begun()) {
            (false, true) => {
                let entries = self.count(Reader::Entries);
                by.begins_wait(wait, at, entries, self.calls);
            }
            (true, true) => by.waits_on(self.calls),
            (true, false) => by.ends_wait(self.calls),
            (false, false) => {}
        }
        if code == code::STALLED {
            self.note_stall(seat, at);
        }
        code
    }

    /// A call fails as stalled.
    #[cold]
    fn note_stall(&mut self, seat: u64, at: WaitsAt) {
        self.open.stalled = Some((seat, at));
        self.after_call |= STALLED;
    }

    /// Takes the call that has just failed as stalled.
    pub fn take_stalled(&mut self) -> Option<(u64, WaitsAt)> {
        self.after_call &= !STALLED;
        self.open.stalled.take()
    }

    /// Refuses a call. If its seat waited, it waits no longer.
    #[cold]
    fn refuse(&mut self, seat: u64, wait: Wait, code: u32) -> u32 {
        self.end_wait(seat, wait);
        code
    }

    #[cold]
    fn refuse_by(&mut self, by: &Parker, seat: u64, wait: Wait, code: u32) -> u32 {
        if wait.has_begun() {
            by.ends_wait(self.calls);
        }
        self.refuse(seat, wait, code)
    }

    /// Makes a call at the end of a wait. If it isn't answered, this ends the wait before others have
    /// the lock, and returns `PARKED`.
    pub fn ask_at_last(&mut self, ask: Ask, call: impl FnOnce(&mut Handle) -> u32) -> u32 {
        let code = self.ask(ask, call);
        if code == code::STALLED {
            self.note_stall(ask.seat, ask.at);
        }
        let wait = ask.wait.after(code);
        if !wait.has_begun() {
            return code;
        }
        self.end_wait(ask.seat, wait);
        code::PARKED
    }

    /// Ends a wait of a seat without an answer.
    pub fn end_wait(&mut self, seat: u64, wait: Wait) {
        match wait.before {
            Before::Never => return,
            Before::Parked => self.withdraw(seat),
            Before::Deferred => self.undefer(seat),
        }
        self.open.count = self.open.count.saturating_sub(u64::from(wait.is_open));
    }

    /// Withdraws the call of a seat, if it is parked.
    pub fn withdraw(&mut self, seat: u64) {
        let code = raw::seryugo_withdraw(&mut self.handle, seat);
        self.after_call = self.after_call.saturating_sub(u64::from(code == code::DONE));
    }

    fn undefer(&mut self, seat: u64) {
        if self.open.deferred == Some(seat) {
            self.open.deferred = None;
            self.after_call &= !DEFERRED;
        }
    }

    /// The place of the seat whose call is deferred, if there is one, to wake it: something has
    /// changed. It is given once until it asks again.
    pub fn take_deferred(&mut self) -> Option<u64> {
        let seat = self.open.deferred?;
        self.undefer(seat);
        Some(seat.wrapping_sub(self.first_seat))
    }
}

#[cfg(test)]
mod tests {
    use super::*;
    use crate::calls::{Calls, Give, Read};
    use crate::door::Asked;
    use crate::explore::StepKind;
    use crate::message::carries::Numbers;
    use crate::raw::{written, Messages};

    const SEATS: u64 = 4;
    const MAILBOX: u64 = 0;

    /// Pseudorandom numbers, by a linear congruential generator.
    struct Random(u64);

    impl Random {
        fn below(&mut self, limit: u64) -> u64 {
            self.0 = self
                .0
                .wrapping_mul(6_364_136_223_846_793_005)
                .wrapping_add(1_442_695_040_888_963_407);
            (self.0 >> 33) % limit
        }
    }

    /// A room with a mailbox and some seats, whose journal has room for few entries.
    fn room() -> State<Numbers> {
        let opened = Handle::opened(|room| raw::seryugo_open_room(Messages::Numbers, 9, room));
        let mut state = State::new(opened.unwrap(), 9);
        for _ in 0..SEATS {
            state.new_seat().unwrap();
        }
        let asked = Asked::first(StepKind::Mailbox.makes(), 0);
        let made = written(|name| asked.give(&mut state.handle, name));
        assert_eq!(made, Ok(MAILBOX));
        state
    }

    fn receive(state: &mut State<Numbers>, seat: u64, is_again: bool) {
        let mut ask = Ask::blocking(seat, WaitsAt::Recv(MAILBOX));
        if is_again {
            ask.wait.before = Before::Parked;
        }
        state.ask(ask, |room| Numbers::ask(Read::Recv, room, seat, MAILBOX, is_again, &mut 0));
    }

    /// Makes some calls, and wakes each seat that is due.
    fn call(state: &mut State<Numbers>, random: &mut Random) {
        for _ in 0..random.below(20) {
            let seat = random.below(SEATS);
            match random.below(4) {
                0 | 1 => receive(state, seat, false),
                2 => state.withdraw(seat),
                _ => {
                    Numbers::give(Give::Send, &mut state.handle, seat, MAILBOX, 5);
                }
            }
            while let Some(due) = state.next_due() {
                receive(state, due, true);
            }
        }
    }

    #[test]
    fn parked_seats_are_counted() {
        let mut random = Random(1);
        let mut most = 0;
        for _ in 0..1_000 {
            let mut state = room();
            call(&mut state, &mut random);
            let parked = state.parked();
            let is_parked =
                |seat: &u64| raw::seryugo_withdraw(&mut state.handle, *seat) == code::DONE;
            assert_eq!(parked, (0..SEATS).filter(is_parked).count() as u64);
            most = most.max(parked);
        }
        assert_eq!(most, SEATS - 1);
    }
}
