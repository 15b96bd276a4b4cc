//! A lock that no panic poisons: what it guards is whole between two calls. A `Mutex` looks for
//! panics each time it is locked and unlocked.

use crate::switchboard::fences;
use std::cell::UnsafeCell;
use std::marker::PhantomData;
use std::ops::{Deref, DerefMut};
use std::panic::{RefUnwindSafe, UnwindSafe};
use std::sync::atomic::{self, AtomicU8, Ordering};
use std::sync::{Condvar, Mutex, MutexGuard, PoisonError};
use std::time::Duration;

const FREE: u8 = 0;
const HELD: u8 = 1;

/// How the lock is freed: by a store alone, or as these say.
const ALONE: u8 = 0;
/// A thread may sleep until the lock is free. Who frees it wakes one.
const AWAITED: u8 = 1;
/// A thread has taken the lock late, or the system has no fence for all threads. Who frees the lock
/// has a fence between its store and its look.
const FENCED: u8 = 2;

/// How long a thread sleeps at most, if the system refuses a fence. Then it may not be woken.
const UNFENCED: Duration = Duration::from_millis(1);

/// A value that one thread at a time reaches. It begins in the lock's line of memory.
///
/// A thread that finds the lock taken has `sleepers` as it stores `AWAITED`. Then it tries the lock,
/// and gives `sleepers` back as it falls asleep. Who frees the lock stores `FREE`, and then looks for
/// `AWAITED`. If that is there, it takes `sleepers`, forgets `AWAITED`, gives `sleepers` back, and then
/// wakes one sleeper. No wake is lost:
///
/// - Until a thread has taken the lock late, a release has no fence between its store and its load,
///   since a fence costs as much as half a call. So other threads may see the store after the load. But
///   a thread that is about to sleep first has the system make a fence in all threads. If the release
///   loads after that fence, it reads `AWAITED`. If it loaded before, its store is visible, and the
///   thread that is about to sleep reads `FREE`.
/// - The thread that takes the lock late stores `FENCED`, as it has the lock. All who have it later see
///   that, and have a fence of their own. So has each thread that sees it and is about to sleep. So one
///   of the two sees what the other has stored.
/// - Who forgets `AWAITED` wakes a sleeper after that, which stores it again before it sleeps.
/// - It takes `sleepers` after that thread fell asleep, or before that stored `AWAITED`.
/// - Others may sleep as the woken thread takes the lock. `AWAITED` is there, so that the next one
///   is woken as that thread frees it.
///
/// Who takes the lock has read the `FREE` that its last holder stored. So `Acquire` and `Release`
/// order what the two do with the value. The rest is ordered by `sleepers`.
#[repr(C)]
pub(crate) struct Lock<T> {
    state: AtomicU8,
    freeing: AtomicU8,
    sleepers: Mutex<()>,
    freed: Condvar,
    value: UnsafeCell<T>,
}

// The lock leaves most of the line to the value.
#[cfg(target_os = "linux")]
const _: () = assert!(std::mem::offset_of!(Lock<u64>, value) <= 16);

// SAFETY: one guard at a time leads to the value. So threads only hand it on, as if they sent it.
unsafe impl<T: Send> Sync for Lock<T> {}

// The value is whole after a panic. So users may catch one, as if the lock were a `Mutex`.
impl<T> UnwindSafe for Lock<T> {}
impl<T> RefUnwindSafe for Lock<T> {}

impl<T> Lock<T> {
    pub fn new(value: T) -> Lock<T> {
        Lock::with(if fences::are_there() { ALONE } else { FENCED }, value)
    }

    fn with(freeing: u8, value: T) -> Lock<T> {
        Lock {
            state: AtomicU8::new(FREE),
            freeing: AtomicU8::new(freeing),
            sleepers: Mutex::new(()),
            freed: Condvar::new(),
            value: UnsafeCell::new(value),
        }
    }

    pub fn get_mut(&mut self) -> &mut T {
        self.value.get_mut()
    }

    /// Takes the lock, if it is free.
    #[inline]
    pub fn try_lock(&self) -> Option<Guard<'_, T>> {
        self.state.compare_exchange(FREE, HELD, Ordering::Acquire, Ordering::Relaxed).ok()?;
        // Before this no guard may be made, since its drop would free the lock of another thread.
        Some(Guard::of(self))
    }

    /// Sleeps until the lock is free, and takes it. A thread that has it sleeps for ever.
    #[cold]
    pub fn lock(&self) -> Guard<'_, T> {
        let mut sleepers = self.sleepers();
        loop {
            let longest = if self.is_awaited() {
                Duration::MAX
            } else {
                UNFENCED
            };
            if let Some(guard) = self.try_lock() {
                self.freeing.fetch_or(FENCED, Ordering::Relaxed);
                return guard;
            }
            let slept = self.freed.wait_timeout(sleepers, longest);
            sleepers = slept.unwrap_or_else(PoisonError::into_inner).0;
        }
    }

    /// Tells who frees the lock from here on that a thread sleeps. The caller has `sleepers`. Returns
    /// whether each of those sees it.
    fn is_awaited(&self) -> bool {
        if self.freeing.fetch_or(AWAITED, Ordering::SeqCst) & FENCED == 0 {
            return fences::in_all_threads();
        }
        atomic::fence(Ordering::SeqCst);
        true
    }

    /// The exchange is a fence, too.
    #[inline(never)]
    fn free_fenced(&self) {
        self.state.swap(FREE, Ordering::SeqCst);
        if self.freeing.load(Ordering::SeqCst) & AWAITED != 0 {
            self.wake();
        }
    }

    /// Wakes one thread that sleeps. The caller has freed the lock.
    #[cold]
    fn wake(&self) {
        // A thread that is about to sleep gives this back as it falls asleep.
        let sleepers = self.sleepers();
        self.freeing.fetch_and(!AWAITED, Ordering::Relaxed);
        drop(sleepers);
        self.freed.notify_one();
    }

    fn sleepers(&self) -> MutexGuard<'_, ()> {
        self.sleepers.lock().unwrap_or_else(PoisonError::into_inner)
    }
}

/// The lock, which is held until this is dropped. A panic drops it too.
#[must_use = "the lock is free again if this is dropped"]
pub(crate) struct Guard<'l, T> {
    lock: &'l Lock<T>,
    /// Threads may not share each value that they may send. So a guard stays on its thread.
    stays: PhantomData<*const T>,
}

impl<'l, T> Guard<'l, T> {
    /// Who calls this has taken the lock.
    #[inline]
    fn of(lock: &'l Lock<T>) -> Guard<'l, T> {
        Guard {
            lock,
            stays: PhantomData,
        }
    }
}

impl<T> Deref for Guard<'_, T> {
    type Target = T;

    #[inline]
    fn deref(&self) -> &T {
        // SAFETY: the guard has the lock.
        unsafe { &*self.lock.value.get() }
    }
}

impl<T> DerefMut for Guard<'_, T> {
    #[inline]
    fn deref_mut(&mut self) -> &mut T {
        // SAFETY: the guard has the lock, and no other reference leads there.
        unsafe { &mut *self.lock.value.get() }
    }
}

impl<T> Drop for Guard<'_, T> {
    #[inline]
    fn drop(&mut self) {
        let Lock { state, freeing, .. } = self.lock;
        if freeing.load(Ordering::Relaxed) & FENCED != 0 {
            return self.lock.free_fenced();
        }
        state.store(FREE, Ordering::Release);
        // The compiler keeps the order. The processor need not.
        atomic::compiler_fence(Ordering::SeqCst);
        if freeing.load(Ordering::Relaxed) & AWAITED != 0 {
            self.lock.wake();
        }
    }
}

#[cfg(test)]
mod tests {
    use super::*;
    use std::collections::HashSet;
    use std::panic::{self, AssertUnwindSafe};
    use std::sync::atomic::AtomicU64;
    use std::thread;

    fn take<T>(lock: &Lock<T>) -> Guard<'_, T> {
        lock.try_lock().unwrap_or_else(|| lock.lock())
    }

    /// Waits until another thread sleeps or is about to. Where a wake is lost a test doesn't end.
    fn wait_for_a_sleeper<T>(lock: &Lock<T>) {
        while lock.freeing.load(Ordering::Relaxed) & AWAITED == 0 {
            thread::yield_now();
        }
    }

    #[test]
    fn no_increment_is_lost() {
        count_by(&Lock::new(0));
    }

    #[test]
    fn nothing_is_lost_without_fences_of_the_system() {
        count_by(&Lock::with(FENCED, 0));
        free_as_another_falls_asleep(&Lock::with(FENCED, 0));
    }

    fn count_by(lock: &Lock<u64>) {
        const THREADS: u64 = 8;
        const TIMES: u64 = 20_000;

        let count = || {
            for n in 0..TIMES {
                let mut count = take(lock);
                let seen = *count;
                if n % 32 == 0 {
                    // Others find the lock taken, and sleep.
                    thread::yield_now();
                }
                *count = seen + 1;
            }
        };
        thread::scope(|scope| (0..THREADS).for_each(|_| drop(scope.spawn(count))));
        assert_eq!(*take(lock), THREADS * TIMES);
    }

    #[test]
    fn who_falls_asleep_as_the_lock_is_freed_is_woken() {
        free_as_another_falls_asleep(&Lock::new(0));
    }

    /// One thread frees the lock just as another falls asleep, and then nobody else frees it. Each time
    /// the lock is as if nobody had slept. Without the fence in all threads half the runs don't end.
    fn free_as_another_falls_asleep(lock: &Lock<u64>) {
        const TIMES: u64 = 20_000;

        let first = lock.freeing.load(Ordering::Relaxed);
        let turn = AtomicU64::new(0);
        let wait_for = |wanted| {
            while turn.load(Ordering::Acquire) != wanted {
                thread::yield_now();
            }
        };
        thread::scope(|scope| {
            scope.spawn(|| {
                for n in 0..TIMES {
                    wait_for(2 * n + 1);
                    *lock.lock() += 1;
                    turn.store(2 * n + 2, Ordering::Release);
                }
            });
            for n in 0..TIMES {
                let held = take(lock);
                turn.store(2 * n + 1, Ordering::Release);
                (0..n % 500).for_each(|_| std::hint::spin_loop());
                drop(held);
                wait_for(2 * n + 2);
                lock.freeing.store(first, Ordering::Relaxed);
            }
        });
        assert_eq!(*take(lock), TIMES);
    }

    #[test]
    fn a_lock_that_is_held_is_not_taken() {
        let lock = Lock::new(5);
        thread::scope(|scope| {
            let held = lock.try_lock().unwrap();
            assert!(lock.try_lock().is_none());
            assert!(lock.try_lock().is_none(), "the try before this has freed it");
            let sleeper = scope.spawn(|| *lock.lock());
            wait_for_a_sleeper(&lock);
            assert!(lock.try_lock().is_none());
            drop(held);
            assert_eq!(sleeper.join().unwrap(), 5);
        });
        assert_eq!(*lock.try_lock().unwrap(), 5);
    }

    #[test]
    fn a_holder_that_panics_frees_the_lock() {
        let lock = Lock::new(5);
        thread::scope(|scope| {
            let mut held = take(&lock);
            let sleeper = scope.spawn(|| *lock.lock());
            wait_for_a_sleeper(&lock);
            let panicked = panic::catch_unwind(AssertUnwindSafe(move || {
                *held = 6;
                panic::resume_unwind(Box::new(()))
            }));
            assert!(panicked.is_err());
            assert_eq!(sleeper.join().unwrap(), 6);
        });
        assert_eq!(*lock.try_lock().unwrap(), 6);
    }

    /// It is built only if one way applies. If a guard were `Send` or `Sync`, two would.
    #[test]
    fn a_guard_stays_on_its_thread() {
        trait Stays<Way> {
            fn stays() {}
        }
        struct Sent;
        struct Shared;
        impl<T> Stays<()> for T {}
        impl<T: Send> Stays<Sent> for T {}
        impl<T: Sync> Stays<Shared> for T {}
        <Guard<'_, u64> as Stays<_>>::stays();
    }

    /// With two threads nobody else sleeps as a woken one takes the lock.
    const THREADS: usize = 3;

    /// What a thread of the model does next: one step of the lock.
    #[derive(Clone, Copy, PartialEq, Eq, Hash)]
    enum Next {
        /// It wants the lock, some time or never.
        Try,
        TakeSleepers,
        StoreAwaited,
        Fence,
        TryLate,
        FallAsleep,
        Sleep,
        /// It has the lock, and has `sleepers` too.
        GiveSleepers,
        /// It has the lock, and then knows how to free it.
        Free,
        StoreAlone,
        StoreFenced,
        Look,
        PassSleepers,
        Wake,
    }

    /// What the model does wrong.
    #[derive(Clone, Copy, PartialEq, Eq)]
    enum Flaw {
        None,
        /// Who finds the lock taken frees it.
        Frees,
        /// Who is about to sleep stores nothing.
        StoresNothing,
        /// Who is about to sleep has no fence made.
        HasNoFence,
        /// Who frees the lock never has a fence.
        StoresAlone,
        /// Who takes the lock late forgets that others may sleep.
        Forgets,
        /// Who frees the lock doesn't wait until the other sleeps.
        WakesAtOnce,
    }

    /// What others see of a `FREE` that its thread has stored: the lock as held, for a while.
    const UNSEEN: u8 = 2;

    /// The lock's state, how it is freed, and whether a thread has `sleepers`.
    type Shared = (u8, u8, bool);

    /// What all threads see, and what each does next.
    type Model = (Shared, [Next; THREADS]);

    /// What the next step of a thread leaves. None: the thread waits.
    fn step(shared: Shared, next: Next, flaw: Flaw) -> Option<(Shared, Next)> {
        let (state, freeing, held) = shared;
        let is_fenced = freeing & FENCED != 0;
        let awaited = freeing | (AWAITED * u8::from(flaw != Flaw::StoresNothing));
        let forgotten = freeing & !AWAITED;
        Some(match next {
            Next::Try if state == FREE => ((HELD, freeing, held), Next::Free),
            Next::Try if flaw == Flaw::Frees => ((FREE, freeing, held), Next::TakeSleepers),
            Next::Try => (shared, Next::TakeSleepers),
            Next::TakeSleepers | Next::PassSleepers if held => return None,
            Next::TakeSleepers => ((state, freeing, true), Next::StoreAwaited),
            Next::StoreAwaited if is_fenced => ((state, awaited, held), Next::TryLate),
            Next::StoreAwaited => ((state, awaited, held), Next::Fence),
            Next::Fence if flaw == Flaw::HasNoFence => (shared, Next::TryLate),
            Next::Fence => (seen(shared), Next::TryLate),
            Next::TryLate if state == FREE => ((HELD, freeing | FENCED, held), Next::GiveSleepers),
            Next::TryLate => (shared, Next::FallAsleep),
            Next::FallAsleep => ((state, freeing, false), Next::Sleep),
            Next::Sleep => return None,
            Next::GiveSleepers if flaw == Flaw::Forgets => ((state, forgotten, false), Next::Free),
            Next::GiveSleepers => ((state, freeing, false), Next::Free),
            Next::Free if is_fenced && flaw != Flaw::StoresAlone => (shared, Next::StoreFenced),
            Next::Free => (shared, Next::StoreAlone),
            Next::StoreFenced => ((FREE, freeing, held), Next::Look),
            Next::StoreAlone => ((UNSEEN, freeing, held), Next::Look),
            Next::Look if freeing & AWAITED == 0 => (shared, Next::Try),
            Next::Look if flaw == Flaw::WakesAtOnce => ((state, forgotten, held), Next::Wake),
            Next::Look => (shared, Next::PassSleepers),
            // To lock `sleepers` makes the thread's earlier stores visible.
            Next::PassSleepers => ((seen(shared).0, forgotten, held), Next::Wake),
            Next::Wake => (shared, Next::Try),
        })
    }

    /// What is left once others see a stored `FREE`.
    fn seen((state, freeing, held): Shared) -> Shared {
        let state = if state == UNSEEN { FREE } else { state };
        (state, freeing, held)
    }

    /// What a wake may leave: one model for each thread that sleeps.
    fn with_one_woken((shared, threads): Model) -> Vec<Model> {
        let sleeps = |at: &usize| threads[*at] == Next::Sleep;
        let woken = |at: usize| {
            let mut threads = threads;
            threads[at] = Next::TakeSleepers;
            (shared, threads)
        };
        (0..THREADS).filter(sleeps).map(woken).collect()
    }

    /// What each step leaves that this thread may make next.
    fn steps((shared, threads): Model, at: usize, flaw: Flaw) -> Vec<Model> {
        let Some((shared, then)) = step(shared, threads[at], flaw) else {
            return Vec::new();
        };
        let mut left = (shared, threads);
        left.1[at] = then;
        let wakes = threads[at] == Next::Wake && left.1.contains(&Next::Sleep);
        if wakes {
            with_one_woken(left)
        } else {
            vec![left]
        }
    }

    /// What goes wrong in some order of the steps.
    fn fault(flaw: Flaw) -> Option<&'static str> {
        let first = ((FREE, ALONE, false), [Next::Try; THREADS]);
        let (mut known, mut left) = (HashSet::new(), vec![first]);
        while let Some(model) = left.pop() {
            if !known.insert(model) {
                continue;
            }
            let count = |these: &[Next]| model.1.iter().filter(|next| these.contains(next)).count();
            // It is, if only threads that never want the lock again could go on.
            let mut is_stuck = count(&[Next::Try]) < THREADS;
            for at in 0..THREADS {
                let steps = steps(model, at, flaw);
                is_stuck &= steps.is_empty() || model.1[at] == Next::Try;
                left.extend(steps);
            }
            let with_lock = [
                Next::Free,
                Next::StoreAlone,
                Next::StoreFenced,
                Next::GiveSleepers,
            ];
            if count(&with_lock) > 1 {
                return Some("two have the lock");
            }
            if is_stuck {
                return Some("one sleeps for ever");
            }
            // A thread that sleeps may wake by itself, and others see what was stored at any time.
            left.extend(with_one_woken(model));
            left.push((seen(model.0), model.1));
        }
        None
    }

    #[test]
    fn in_each_order_one_thread_has_the_lock_and_each_sleeper_is_woken() {
        assert_eq!(fault(Flaw::None), None);
        assert_eq!(fault(Flaw::Frees), Some("two have the lock"));
        assert_eq!(fault(Flaw::StoresNothing), Some("one sleeps for ever"));
        assert_eq!(fault(Flaw::HasNoFence), Some("one sleeps for ever"));
        assert_eq!(fault(Flaw::StoresAlone), Some("one sleeps for ever"));
        assert_eq!(fault(Flaw::Forgets), Some("one sleeps for ever"));
        assert_eq!(fault(Flaw::WakesAtOnce), Some("one sleeps for ever"));
    }
}
