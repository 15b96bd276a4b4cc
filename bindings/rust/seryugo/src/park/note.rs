//! What a seat waits at, for those who list the seats that wait.

use crate::switchboard::waiting::{Waiting, WaitsAt};
use std::cell::Cell;
use std::sync::atomic::{AtomicBool, AtomicU64, AtomicU8, Ordering};
use std::sync::{Mutex, PoisonError};
use std::thread::{self, Thread};

/// What a seat waits at. Only its own thread or task writes it, under the switchboard's lock.
#[derive(Default)]
pub(crate) struct WaitNote {
    /// `IDLE`, or which call.
    call: AtomicU8,
    is_open: AtomicBool,
    object: AtomicU64,
    since: AtomicU64,
    /// The number of the thread that began the wait.
    number: AtomicU64,
    thread: Mutex<Option<Thread>>,
}

const IDLE: u8 = 0;
const RECV: u8 = 1;
const GET: u8 = 2;
const TAKE: u8 = 3;
const SWAP: u8 = 4;

impl WaitNote {
    /// The seat begins to wait, after the journal has had so many entries.
    pub fn begin(&self, at: WaitsAt, is_open: bool, entries: u64) {
        let number = thread_number();
        if self.number.load(Ordering::Relaxed) != number {
            self.is_used_by_another(number);
        }
        let call = match at {
            WaitsAt::Recv(_) => RECV,
            WaitsAt::Get(_) => GET,
            WaitsAt::Take(_) => TAKE,
            WaitsAt::Swap(_) => SWAP,
        };
        self.object.store(at.object(), Ordering::Relaxed);
        self.since.store(entries, Ordering::Relaxed);
        self.is_open.store(is_open, Ordering::Relaxed);
        self.call.store(call, Ordering::Relaxed);
    }

    /// The seat waits no longer.
    #[inline]
    pub fn end(&self) {
        self.call.store(IDLE, Ordering::Relaxed);
    }

    /// To know a thread takes far longer than to see that it is the last one.
    #[cold]
    fn is_used_by_another(&self, number: u64) {
        let old =
            self.thread.lock().unwrap_or_else(PoisonError::into_inner).replace(thread::current());
        self.number.store(number, Ordering::Relaxed);
        drop(old);
    }

    /// What the seat of this number waits at, if it waits. The caller has the switchboard's lock.
    pub fn waiting(&self, seat: u64) -> Option<Waiting> {
        let object = self.object.load(Ordering::Relaxed);
        let at = match self.call.load(Ordering::Relaxed) {
            RECV => WaitsAt::Recv(object),
            GET => WaitsAt::Get(object),
            TAKE => WaitsAt::Take(object),
            SWAP => WaitsAt::Swap(object),
            _ => return None,
        };
        let thread = self.thread.lock().unwrap_or_else(PoisonError::into_inner);
        Some(Waiting {
            seat,
            at,
            since: self.since.load(Ordering::Relaxed),
            is_open: self.is_open.load(Ordering::Relaxed),
            thread: thread.as_ref().and_then(Thread::name).map(String::from),
        })
    }
}

/// A number of the calling thread, which no other one has or had.
#[inline]
fn thread_number() -> u64 {
    thread_local! {
        static OWN: Cell<u64> = const { Cell::new(0) };
    }
    static LAST: AtomicU64 = AtomicU64::new(0);
    match OWN.get() {
        0 => {
            let number = LAST.fetch_add(1, Ordering::Relaxed) + 1;
            OWN.set(number);
            number
        }
        number => number,
    }
}
