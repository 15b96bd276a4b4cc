//! Keeps a thread, and those that it starts, on one processor.
//!
//! One thread of a program runs at a time. If the next one is on another processor, it takes longer
//! to wake.

/// While it is there, the thread that made it stays on one processor, where the system allows it.
pub(crate) struct Pinned {
    /// Where the thread may run afterwards.
    before: Option<system::Processors>,
}

impl Pinned {
    pub fn new() -> Pinned {
        Pinned {
            before: system::pin(),
        }
    }
}

impl Drop for Pinned {
    fn drop(&mut self) {
        if let Some(before) = &self.before {
            system::allow(before);
        }
    }
}

#[cfg(target_os = "linux")]
mod system {
    use std::ffi::c_int;
    use std::mem::size_of;

    const MOST: usize = 1024;
    const BITS: usize = usize::BITS as usize;

    /// A bit for each processor.
    pub(super) type Processors = [usize; MOST / BITS];

    unsafe extern "C" {
        safe fn sched_getcpu() -> c_int;
        fn sched_getaffinity(thread: c_int, size: usize, processors: *mut Processors) -> c_int;
        fn sched_setaffinity(thread: c_int, size: usize, processors: *const Processors) -> c_int;
    }

    /// The thread that calls this.
    const OWN: c_int = 0;

    /// Lets the thread run only where it runs now. Returns where it might run before. `None`: the system doesn't let it.
    pub(super) fn pin() -> Option<Processors> {
        let processor = usize::try_from(sched_getcpu()).ok().filter(|number| *number < MOST)?;
        let mut before: Processors = [0; MOST / BITS];
        // SAFETY: the call writes at most this many bytes.
        let code = unsafe { sched_getaffinity(OWN, size_of::<Processors>(), &raw mut before) };
        let mut one: Processors = [0; MOST / BITS];
        one[processor / BITS] |= 1 << (processor % BITS);
        (code == 0 && allow(&one)).then_some(before)
    }

    /// Lets the thread run on these.
    pub(super) fn allow(processors: &Processors) -> bool {
        // SAFETY: the call reads this many bytes.
        unsafe { sched_setaffinity(OWN, size_of::<Processors>(), processors) == 0 }
    }
}

#[cfg(not(target_os = "linux"))]
mod system {
    pub(super) enum Processors {}

    pub(super) fn pin() -> Option<Processors> {
        None
    }

    pub(super) fn allow(processors: &Processors) {
        match *processors {}
    }
}

#[cfg(all(test, target_os = "linux"))]
mod tests {
    use super::Pinned;
    use std::thread;

    /// On how many processors the thread may run.
    fn processors() -> usize {
        thread::available_parallelism().map_or(1, usize::from)
    }

    #[test]
    fn a_thread_stays_on_one_processor_for_a_while() {
        let before = processors();
        let pinned = Pinned::new();
        assert_eq!(processors(), 1);
        assert_eq!(thread::spawn(processors).join().unwrap(), 1);
        drop(pinned);
        assert_eq!(processors(), before);
    }
}
