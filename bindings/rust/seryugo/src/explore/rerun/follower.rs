//! Who goes on in a rerun: the maker of the next entry.

use super::lanes::RerunLane;
use super::line::{line_of, name_of};
use super::maker::Maker;
use super::notes::Notes;
use super::plan::{Plan, Planned, NEVER};
use super::reran::{Diverged, Reran, Stop};
use super::threads;
use super::waits::{Caller, Still, Waits};
use super::AtEnd;
use crate::error::Error;
use crate::explore::End;
use crate::journal::entry::{Call, Reply, Who};
use crate::message::carries::MessageKind;
use std::collections::BTreeMap;
use std::hint;
use std::sync::atomic::{AtomicU64, AtomicUsize, Ordering};
use std::sync::{Arc, Mutex, MutexGuard, PoisonError};
use std::thread::{self, Thread};
use std::time::Duration;

/// Before a thread sleeps, it looks so often whether its entry is next.
const SPINS: u32 = 100;

/// A thread that waits looks so often whether something has changed. Patience is counted in these,
/// so that a program may stop in a debugger.
pub(crate) const TICK: Duration = Duration::from_millis(10);

/// The cursor once the run is no longer the journal's.
const ASTRAY: usize = usize::MAX;

/// What the rerun of one switchboard does.
#[derive(Clone)]
pub(crate) struct Habits {
    pub at_end: AtEnd,
    /// How many ticks a thread waits in vain.
    pub patience: u64,
    /// How the first run ended, if that is known, and whether calls failed as stalled there.
    pub first_end: Option<(End, bool)>,
}

/// Has the calls of a switchboard made in the order of a journal.
pub(crate) struct Follower<R: MessageKind> {
    pub plan: Arc<Plan<R>>,
    pub makers: Vec<Maker>,
    pub habits: Habits,
    pub notes: Arc<Notes>,
    /// The position of the next entry, or `ASTRAY`.
    cursor: AtomicUsize,
    /// The threads that sleep until the last entry was made.
    resting: Mutex<Vec<Thread>>,
    /// How many seats, lanes and feeds are there.
    present: AtomicU64,
    /// All seats that were made have lesser numbers.
    seats: AtomicU64,
    /// How many feeds were opened.
    feeds: AtomicU64,
    lanes: Mutex<BTreeMap<u64, Arc<RerunLane<R>>>>,
    is_reported: AtomicU64,
}

/// How a wait for an entry's turn has ended.
pub(crate) enum Turn {
    /// The entry is next.
    Own,
    /// The last entry was made.
    End,
    Failed(Error),
    /// It was in vain.
    GivenUp,
}

impl<R: MessageKind> Follower<R> {
    pub fn new(plan: Arc<Plan<R>>, habits: Habits) -> Follower<R> {
        Follower {
            makers: plan.firsts.iter().map(|first| Maker::new(*first)).collect(),
            plan,
            habits,
            notes: Arc::new(Notes::new()),
            cursor: AtomicUsize::new(0),
            resting: Mutex::default(),
            present: AtomicU64::new(0),
            seats: AtomicU64::new(0),
            feeds: AtomicU64::new(0),
            lanes: Mutex::default(),
            is_reported: AtomicU64::new(0),
        }
    }

    /// The position after the last entry.
    #[inline]
    pub fn end(&self) -> usize {
        self.plan.entries.len()
    }

    #[inline]
    pub fn cursor(&self) -> usize {
        self.cursor.load(Ordering::SeqCst)
    }

    #[inline]
    pub fn maker(&self, who: Who) -> Option<&Maker> {
        self.plan.maker(who).map(|maker| &self.makers[maker])
    }

    /// The entry that is next.
    pub fn next_entry(&self) -> Option<&Planned<R>> {
        self.plan.entries.get(self.cursor())
    }

    /// How the wait for this position has ended, if it has.
    #[inline]
    fn turn_at(&self, position: usize) -> Option<Turn> {
        match self.cursor() {
            ASTRAY => Some(Turn::Failed(self.why())),
            cursor if cursor != position => None,
            cursor if cursor == self.end() => Some(Turn::End),
            _ => Some(Turn::Own),
        }
    }

    /// Waits until the entry at this position is next, which this one makes. Who makes no more
    /// entries waits for the end.
    #[inline]
    pub fn wait(&self, maker: Option<&Maker>, position: usize, waits: &Waits) -> Turn {
        for _ in 0..SPINS {
            if let Some(turn) = self.turn_at(position) {
                return turn;
            }
            hint::spin_loop();
        }
        self.sleep(maker, position, waits)
    }

    #[cold]
    fn sleep(&self, maker: Option<&Maker>, position: usize, waits: &Waits) -> Turn {
        let mut still = Still::at(self.cursor());
        loop {
            match maker {
                Some(maker) if position != self.end() => maker.begins_to_sleep(),
                _ => self.rests(),
            }
            let turn = self.turn_at(position).or_else(|| {
                thread::park_timeout(TICK);
                still.ticks_at(self.cursor());
                let given_up = self.gives_up(maker, waits, &still);
                self.turn_at(position).or_else(|| given_up.then_some(Turn::GivenUp))
            });
            if let Some(turn) = turn {
                if let Some(maker) = maker {
                    maker.is_awake();
                }
                return turn;
            }
        }
    }

    fn rests(&self) {
        let mut resting = self.resting.lock().unwrap_or_else(PoisonError::into_inner);
        let own = thread::current();
        if resting.iter().all(|thread| thread.id() != own.id()) {
            resting.push(own);
        }
    }

    fn wake_resting(&self) {
        let mut resting = self.resting.lock().unwrap_or_else(PoisonError::into_inner);
        resting.drain(..).for_each(|thread| thread.unpark());
    }

    /// The entry at this position was made: the next one's maker goes on.
    #[inline]
    pub fn advance(&self, position: usize) -> Result<(), Error> {
        let next = position + 1;
        let entry = &self.plan.entries[position];
        self.makers[entry.maker].set_next(entry.next);
        let order = Ordering::SeqCst;
        if self.cursor.compare_exchange(position, next, order, order).is_err() {
            return Err(self.why());
        }
        let Some(planned) = self.plan.entries.get(next) else {
            self.wake_resting();
            return Ok(());
        };
        let maker = &self.makers[planned.maker];
        if let Some(left) = maker.left() {
            self.diverge(next, left);
        } else if planned.maker != entry.maker {
            maker.wake();
        }
        Ok(())
    }

    /// The run is no longer the journal's, since this happened in place of the entry at this
    /// position, which is next. Each call fails from now on.
    #[cold]
    pub fn diverge(&self, position: usize, found: String) {
        let expected = match self.plan.entries.get(position) {
            Some(planned) => line_of(&planned.entry),
            None => "the end of the journal".to_string(),
        };
        // Who sees `ASTRAY` waits until this is written.
        let mut diverged = self.notes.diverged();
        let order = Ordering::SeqCst;
        if self.cursor.compare_exchange(position, ASTRAY, order, order).is_ok() {
            *diverged = Some(Diverged {
                position: position as u64,
                expected,
                found,
            });
            self.makers.iter().for_each(Maker::wake);
            self.wake_resting();
        }
    }

    /// The same of a call, which fails.
    #[cold]
    pub fn fails(&self, position: usize, found: String) -> Error {
        self.diverge(position, found);
        self.why()
    }

    /// Why each call fails, once the run is no longer the journal's.
    #[cold]
    fn why(&self) -> Error {
        threads::is_stopped_first();
        let diverged = self.notes.diverged().clone();
        diverged.map_or(Error::RerunEnded, |diverged| Error::Diverged(Box::new(diverged)))
    }

    /// The call would go on after the last entry. `Ok`: it may.
    pub fn goes_on(&self, caller: Caller) -> Result<(), Error> {
        if let AtEnd::GoOn = self.habits.at_end {
            return Ok(());
        }
        if threads::is_stopped_first() {
            self.notes.stopped(Stop {
                who: caller.who,
                call: caller.step.to_string(),
                blocks: caller.step.kind.blocks(),
            });
        }
        Err(Error::RerunEnded)
    }
}

/// Who is there.
impl<R: MessageKind> Follower<R> {
    pub fn comes(&self) {
        self.present.fetch_add(1, Ordering::SeqCst);
    }

    pub fn seat_comes(&self, seat: u64) {
        self.comes();
        self.seats.fetch_max(seat + 1, Ordering::SeqCst);
    }

    /// Whether this one is a seat that isn't made yet.
    pub fn is_to_come(&self, who: Who) -> bool {
        matches!(who, Who::Seat(seat) if seat >= self.seats.load(Ordering::SeqCst))
    }

    /// A seat, a lane or a feed leaves. If it has entries left, the run is no longer the journal's
    /// once they are next.
    pub fn leaves(&self, who: Who) {
        self.present.fetch_sub(1, Ordering::SeqCst);
        let Some(maker) = self.maker(who) else { return };
        let Some(next) = maker.next() else { return };
        let said = thread::panicking().then(threads::said).flatten();
        let name = name_of(who);
        let how = match said {
            Some(said) => format!("{name} leaves: its thread panicked at {said}"),
            None => format!("{name} leaves"),
        };
        let left = maker.leaves(&how);
        if self.cursor() == next {
            self.diverge(next, left);
        }
    }

    /// The next call of this seat in the journal.
    pub fn next_call_of(&self, seat: u64) -> Option<&Call<R::Message>> {
        let next = self.maker(Who::Seat(seat))?.next()?;
        Some(&self.plan.entries[next].entry.call)
    }

    /// Whether the seat's next entry makes the object of this number.
    pub fn makes_next(&self, seat: u64, number: u64) -> bool {
        let next = self.maker(Who::Seat(seat)).and_then(Maker::next);
        next.is_some_and(|next| self.plan.entries[next].entry.reply == Reply::Made(number))
    }

    /// Asks until this returns something. `None`: it waited in vain.
    pub fn wait_for<T>(
        &self,
        maker: Option<&Maker>,
        waits: &Waits,
        ask: impl Fn() -> Option<T>,
    ) -> Option<T> {
        let mut still = Still::at(self.cursor());
        while !self.gives_up(maker, waits, &still) {
            if let Some(maker) = maker {
                maker.begins_to_sleep();
            }
            if let Some(found) = ask() {
                return Some(found);
            }
            thread::park_timeout(TICK);
            still.ticks_at(self.cursor());
        }
        None
    }

    /// `Err`: the run isn't the journal's any more.
    pub fn is_on_course(&self) -> Result<(), Error> {
        match self.cursor() {
            ASTRAY => Err(self.why()),
            _ => Ok(()),
        }
    }

    /// Whether no entry is next.
    pub fn is_over(&self) -> bool {
        self.cursor() >= self.end()
    }

    /// The lanes that are open, by their numbers.
    pub fn lanes(&self) -> MutexGuard<'_, BTreeMap<u64, Arc<RerunLane<R>>>> {
        self.lanes.lock().unwrap_or_else(PoisonError::into_inner)
    }

    /// The number of the feed that is opened now.
    pub fn next_feed(&self) -> u64 {
        self.feeds.fetch_add(1, Ordering::SeqCst)
    }

    /// Waits until all have left, or nothing happens for long.
    pub fn wait_for_all(&self) {
        let mut still = Still::at(self.cursor());
        while self.present.load(Ordering::SeqCst) != 0 && still.ticks < self.habits.patience {
            thread::park_timeout(TICK);
            still.ticks_at(self.cursor());
        }
    }

    /// The program has ended, and makes no more calls.
    pub fn ends(&self) {
        let cursor = self.cursor();
        if cursor < self.end() {
            self.diverge(cursor, "the program's end".to_string());
        }
    }

    /// Whether a line on standard error may be written about this position: once each.
    pub fn reports(&self, position: usize) -> bool {
        let mark = position as u64 + 1;
        self.is_reported.swap(mark, Ordering::Relaxed) != mark
    }

    /// Whether this end can be compared: if the calls go on freely, nobody knows where they were.
    fn knows_end(&self, end: &End) -> bool {
        self.habits.at_end == AtEnd::Stop || matches!(end, End::Panicked { .. })
    }

    pub fn reran(&self) -> Reran {
        let said = self.notes.said();
        let diverged = self.notes.diverged().clone();
        let followed = match &diverged {
            Some(diverged) => diverged.position as usize,
            None => self.cursor(),
        };
        let reran = Reran {
            entries: self.end(),
            followed,
            diverged,
            stops: said.stops,
            panics: said.panics,
            beside: None,
        };
        match &self.habits.first_end {
            Some((end, tells_stalls)) if self.knows_end(end) => {
                reran.compared_with(end, *tells_stalls)
            }
            _ => reran,
        }
    }
}

/// The position of the maker's next entry, or that of the end.
impl<R: MessageKind> Follower<R> {
    #[inline]
    pub fn position_of(&self, maker: Option<&Maker>) -> usize {
        maker.and_then(Maker::next).unwrap_or(self.end())
    }
}

const _: () = assert!(ASTRAY == NEVER, "no entry has this position");
