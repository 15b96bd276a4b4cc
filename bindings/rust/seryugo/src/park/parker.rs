//! How a parked seat waits: by a thread that sleeps, or by a future's waker.

use crate::park::backoff::{pass_by_spinning, LongBackoff, Pass, ShortBackoff};
use crate::park::note::WaitNote;
use crate::park::yields::pass_by_yielding;
use crate::switchboard::call::Wait;
use crate::switchboard::waiting::{Waiting, WaitsAt};
use std::mem;
use std::panic::{self, AssertUnwindSafe};
use std::sync::atomic::{AtomicBool, AtomicU64, AtomicU8, Ordering};
use std::sync::{Condvar, Mutex, MutexGuard, PoisonError};
use std::task::Waker;
use std::time::{Duration, Instant};

/// If more calls than this were made on the switchboard while a seat waited, the answer to its next
/// call isn't near. In a token round eight threads there are some 20 calls between two waits of
/// each.
const FEW_CALLS: u64 = 32;
/// If less is left until its time limit, a thread sleeps at once. All looks take less.
const LONGEST_LOOK: Duration = Duration::from_micros(500);

/// What the seat's thread or future does, or that it was woken.
const AWAKE: u8 = 0;
const WOKEN: u8 = 1;
const ASLEEP: u8 = 2;
const LISTENS: u8 = 3;

/// What a wake has met.
pub(crate) enum Woken {
    /// A thread that slept.
    Thread,
    /// The task of a future. It is polled some time, unless its waker panicked.
    Task,
    /// Neither: the seat is about to wait, and sees the wake then.
    Awake,
}

/// The number of no seat.
const NOBODY: u64 = u64::MAX;

/// What a seat waits by.
///
/// The room returns a parked seat as due once, until the seat asks again, and each return has a
/// wake. So a wake that is on its way as its seat withdraws the call comes late: it ends a later
/// wait too early. Then the seat asks again in vain, and waits on. No wake for the last ask is
/// lost, since the state becomes `AWAKE` only before an ask, and never between the ask and the
/// sleep.
#[repr(C)]
pub(crate) struct Parker {
    /// The seat's number.
    number: u64,
    /// The seat whose call woke it last.
    woken_by: AtomicU64,
    /// The waker of a future that listens. A thread that sleeps has this lock until it sleeps.
    waker: Mutex<Option<Waker>>,
    woken: Condvar,
    state: AtomicU8,
    // These are for the seat's thread alone.
    is_answer_near: AtomicBool,
    has_waited_long: AtomicBool,
    short: ShortBackoff,
    long: LongBackoff,
    /// How many calls had been made on the switchboard when the seat was parked.
    parked_at: AtomicU64,
    /// What the seat waits at.
    note: WaitNote,
}

// All but the note is in one line of memory. The thread that wakes and the one that is woken run on
// two processors, and each line that both use has to go from one to the other.
#[cfg(target_os = "linux")]
const _: () = assert!(mem::offset_of!(Parker, note) == 64 && mem::size_of::<Parker>() <= 128);

impl Parker {
    pub fn new(number: u64) -> Parker {
        Parker {
            number,
            woken_by: AtomicU64::new(NOBODY),
            state: AtomicU8::new(AWAKE),
            waker: Mutex::new(None),
            woken: Condvar::new(),
            is_answer_near: AtomicBool::new(false),
            has_waited_long: AtomicBool::new(false),
            short: ShortBackoff::new(),
            long: LongBackoff::new(),
            parked_at: AtomicU64::new(0),
            note: WaitNote::default(),
        }
    }

    /// Waits until it is woken. A wake that came before ends it at once.
    pub fn park(&self) {
        if !self.is_soon_woken(pass_by_yielding) {
            self.sleep();
        }
        self.forget_wake();
    }

    /// The same, but at most until then. Returns whether it was woken.
    pub fn park_until(&self, deadline: Instant) -> bool {
        let has_time = deadline.saturating_duration_since(Instant::now()) > LONGEST_LOOK;
        let is_woken =
            has_time && self.is_soon_woken(pass_by_spinning) || self.sleep_until(deadline);
        self.forget_wake();
        is_woken
    }

    /// For a future: whether it was woken. If not, this waker is called at the next wake.
    pub fn poll(&self, waker: &Waker) -> bool {
        let is_woken = self.state.load(Ordering::Acquire) == WOKEN || !self.listen(waker);
        if is_woken {
            self.forget_waker();
        }
        is_woken
    }

    /// Whether this waker is called at the next wake: it was not woken before.
    fn listen(&self, waker: &Waker) -> bool {
        if !self.waker().as_ref().is_some_and(|known| known.will_wake(waker)) {
            // A clone and a drop may run anything, so that the lock isn't held.
            let new = waker.clone();
            let old = self.waker().replace(new);
            drop(old);
        }
        let state =
            self.state.compare_exchange(AWAKE, LISTENS, Ordering::AcqRel, Ordering::Acquire);
        state != Err(WOKEN)
    }

    /// The seat waits no longer. A wake that comes for that wait is forgotten if it has come.
    pub fn forget_wake(&self) {
        self.state.store(AWAKE, Ordering::Relaxed);
    }

    /// The same for a future, whose waker is dropped.
    pub fn forget_waker(&self) {
        self.forget_wake();
        let waker = self.waker().take();
        drop(waker);
    }

    /// Looks for a while, unless it looked in vain lately.
    fn is_soon_woken(&self, pass: Pass) -> bool {
        let is_near = self.is_answer_near.load(Ordering::Relaxed);
        if is_near {
            self.is_answer_near.store(false, Ordering::Relaxed);
        }
        let is_near = is_near && !self.has_waited_long.load(Ordering::Relaxed);
        if is_near && self.long.is_due() {
            return self.long.look_until(&self.state, WOKEN, pass);
        }
        self.short.is_due() && self.short.look_until(&self.state, WOKEN, pass)
    }

    fn sleep(&self) {
        let mut lock = self.waker();
        self.fall_asleep();
        while self.state.load(Ordering::Acquire) == ASLEEP {
            lock = self.woken.wait(lock).unwrap_or_else(PoisonError::into_inner);
        }
    }

    fn sleep_until(&self, deadline: Instant) -> bool {
        let mut lock = self.waker();
        self.fall_asleep();
        while self.state.load(Ordering::Acquire) == ASLEEP {
            let left = deadline.saturating_duration_since(Instant::now());
            if left.is_zero() {
                return self.state.swap(AWAKE, Ordering::AcqRel) == WOKEN;
            }
            lock = self.woken.wait_timeout(lock, left).unwrap_or_else(PoisonError::into_inner).0;
        }
        true
    }

    /// From now on it is asleep, unless it was woken before.
    fn fall_asleep(&self) {
        let _ = self.state.compare_exchange(AWAKE, ASLEEP, Ordering::AcqRel, Ordering::Acquire);
    }

    /// Wakes the thread or the future, or has its next wait end at once. `by` is the parker of the
    /// calling seat, if a seat calls.
    pub fn unpark(&self, by: Option<&Parker>) -> Woken {
        self.woken_by.store(by.map_or(NOBODY, |by| by.number), Ordering::Relaxed);
        match self.state.swap(WOKEN, Ordering::AcqRel) {
            ASLEEP => {
                // The thread that has fallen asleep gives the lock back as it waits for the notice.
                drop(self.waker());
                self.woken.notify_one();
                Woken::Thread
            }
            LISTENS => {
                // A waker may run anything, so that the lock isn't held. If it panics, the call
                // that wakes it has its answer, and other seats that are due have to be woken. The
                // panic was told as it began. What it carries is leaked: its drop may panic too.
                let waker = self.waker().take();
                let wake = AssertUnwindSafe(|| waker.into_iter().for_each(Waker::wake));
                mem::forget(panic::catch_unwind(wake));
                Woken::Task
            }
            _ => Woken::Awake,
        }
    }

    /// The seat begins this wait at a call. The journal has had so many entries, and this many calls
    /// were made on the switchboard.
    pub fn begins_wait(&self, wait: Wait, at: WaitsAt, entries: u64, calls: u64) {
        self.parked_at.store(calls, Ordering::Relaxed);
        self.note.begin(at, wait.is_open, entries);
    }

    /// The seat made its call again, and waits on.
    pub fn waits_on(&self, calls: u64) {
        self.note_length(calls);
        self.parked_at.store(calls, Ordering::Relaxed);
    }

    /// The seat made its call again, and waits no longer.
    pub fn ends_wait(&self, calls: u64) {
        self.note_length(calls);
        self.note.end();
    }

    /// The seat gives up its wait.
    pub fn gives_up(&self) {
        self.note.end();
    }

    fn note_length(&self, calls: u64) {
        let meanwhile = calls.wrapping_sub(self.parked_at.load(Ordering::Relaxed));
        self.has_waited_long.store(meanwhile > FEW_CALLS, Ordering::Relaxed);
    }

    /// What this seat, which has this number, waits at, if it waits. The caller has the switchboard's
    /// lock.
    pub fn waiting(&self, seat: u64) -> Option<Waiting> {
        self.note.waiting(seat)
    }

    /// The seat's call has just woken another seat. If a thread slept there, or that seat had woken
    /// this one, it may answer soon: so in its next wait this seat's thread may look for longer.
    pub fn note_woken(&self, other: &Parker, woken: &Woken) {
        if matches!(woken, Woken::Thread) || self.woken_by.load(Ordering::Relaxed) == other.number {
            self.is_answer_near.store(true, Ordering::Relaxed);
        }
    }

    fn waker(&self) -> MutexGuard<'_, Option<Waker>> {
        self.waker.lock().unwrap_or_else(PoisonError::into_inner)
    }
}
