//! Fences in all threads of the program at once, which the system makes. Where a thread that rarely
//! waits asks for them, those that it may wait for need none of their own.

pub(crate) use system::{are_there, in_all_threads};

/// Linux has the call `membarrier` from 4.14 on. It takes about a microsecond.
#[cfg(all(
    target_os = "linux",
    any(target_arch = "x86_64", target_arch = "aarch64")
))]
mod system {
    use std::ffi::{c_int, c_long};
    use std::sync::OnceLock;

    #[cfg(target_arch = "x86_64")]
    const MEMBARRIER: c_long = 324;
    #[cfg(target_arch = "aarch64")]
    const MEMBARRIER: c_long = 283;

    const PRIVATE_EXPEDITED: c_int = 1 << 3;
    const REGISTER_PRIVATE_EXPEDITED: c_int = 1 << 4;
    const NO_FLAGS: c_int = 0;

    unsafe extern "C" {
        fn syscall(number: c_long, ...) -> c_long;
    }

    fn is_done(command: c_int) -> bool {
        // SAFETY: the system's call takes these two numbers, and no address.
        unsafe { syscall(MEMBARRIER, command, NO_FLAGS) == 0 }
    }

    /// Whether the system makes such fences for this program. The first call asks it to: where
    /// several threads run, that may take some milliseconds.
    pub(crate) fn are_there() -> bool {
        static ARE_THERE: OnceLock<bool> = OnceLock::new();
        *ARE_THERE.get_or_init(|| is_done(REGISTER_PRIVATE_EXPEDITED) && in_all_threads())
    }

    /// Makes a fence in each thread, and in this one. Returns whether the system has done so.
    pub(crate) fn in_all_threads() -> bool {
        is_done(PRIVATE_EXPEDITED)
    }
}

/// Elsewhere there are none.
#[cfg(not(all(
    target_os = "linux",
    any(target_arch = "x86_64", target_arch = "aarch64")
)))]
mod system {
    pub(crate) fn are_there() -> bool {
        false
    }

    pub(crate) fn in_all_threads() -> bool {
        false
    }
}
