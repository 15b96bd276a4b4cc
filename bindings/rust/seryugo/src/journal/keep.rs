//! What a call on a switchboard in a file waits for, and how a future waits for the disk.

use crate::error::Error;
use crate::message::carries::MessageKind;
use crate::park::parker::Parker;
use crate::raw::{code, File, FileWaiter};
use crate::switchboard::Switchboard;
use std::cell::UnsafeCell;
use std::ptr;
use std::sync::Arc;
use std::task::Waker;

/// What a call waits for before it returns, on a switchboard whose journal is in a file.
///
/// | | after `kill -9`, a panic, an abort | after a loss of power |
/// |---|---|---|
/// | [`Process`](Keep::Process) | each call that returned | what was synced; about the last second is lost |
/// | [`Disk`](Keep::Disk) | each call that returned | each call that returned |
///
/// A call that didn't return may be there or not. At both levels a message that was received is
/// gone from its mailbox: if its receiver ends before it has done its work, nobody has it again.
///
/// ```
/// use seryugo::{JournalFile, Keep};
///
/// # fn main() -> Result<(), seryugo::Error> {
/// # let path = std::env::temp_dir().join(format!("seryugo-doc-{}.keep", std::process::id()));
/// let board = JournalFile::new().keep(Keep::Disk).open(&path)?;
/// let mut seat = board.seat()?;
/// let orders = seat.mailbox_again::<String>(0)?;
/// seat.send(orders, "two apples")?;
/// println!("your order is on the disk");
/// # drop(seat);
/// # drop(board);
/// # std::fs::remove_file(&path).unwrap();
/// # Ok(())
/// # }
/// ```
#[derive(Clone, Copy, Debug, Default, PartialEq, Eq)]
#[non_exhaustive]
#[repr(u32)]
pub enum Keep {
    /// A call returns once its entry is in the system's memory, which survives the process.
    #[default]
    Process = 0,
    /// A call returns once its entry is on the disk, and each entry that its answer rests on.
    /// Threads that call at once share a sync. A time limit bounds the wait for a message alone.
    ///
    /// A future doesn't block its thread meanwhile. If it is dropped then, its call was made: the
    /// seat's next call that receives or takes from the same object returns the message. A swap has
    /// swapped. Calls that are no futures, as [`send`](crate::Seat::send), block.
    Disk = 1,
}

/// A future's wait for the disk. The file has the other owner until it has told.
pub(crate) struct Landing(Arc<Told>);

#[repr(C)]
struct Told {
    waiter: UnsafeCell<FileWaiter>,
    parker: Parker,
}

// SAFETY: of the waiter only the file makes use, one thread at a time.
unsafe impl Send for Told {}
// SAFETY: as above.
unsafe impl Sync for Told {}

extern "C" fn tell(waiter: *mut FileWaiter) {
    // SAFETY: the waiter is the first part of what `Landing::at` has handed over, and its callback runs once.
    let told = unsafe { Arc::from_raw(waiter.cast::<Told>().cast_const()) };
    told.parker.unpark(None);
}

impl Landing {
    /// Has the file tell once it is on the disk up to this position. `None`: a wait would end at
    /// once.
    fn at(file: &File, position: u64) -> Option<Landing> {
        let told = Arc::new(Told {
            waiter: UnsafeCell::new(FileWaiter {
                position,
                wake: tell,
                following: ptr::null_mut(),
            }),
            parker: Parker::new(0),
        });
        let given = Arc::into_raw(Arc::clone(&told)).cast_mut();
        // SAFETY: the file is an owner of the waiter until it tells.
        if unsafe { file.when(given.cast::<FileWaiter>()) } == code::PARKED {
            return Some(Landing(told));
        }
        // SAFETY: the file has not taken it, and won't tell.
        drop(unsafe { Arc::from_raw(given) });
        None
    }

    /// Whether the wait is over. If not, this waker is called once it is.
    pub fn poll(&self, waker: &Waker) -> bool {
        self.0.parker.poll(waker)
    }
}

impl<R: MessageKind> Switchboard<R> {
    /// A future's wait for this position in the file. `None`: it need not wait.
    pub(crate) fn landing(&self, position: u64) -> Option<Landing> {
        if position == 0 {
            return None;
        }
        self.file.as_ref().and_then(|opened| Landing::at(&opened.file, position))
    }

    /// Blocks until the entry is on the disk by which a feed has what it has just received, if the
    /// file is kept there. Its pump has waited for that, but may have failed.
    #[inline]
    pub(crate) fn settle_feed(&self) -> Result<(), Error> {
        let position = self.file.as_ref().map_or(0, |opened| opened.file.position());
        self.settled(position, Ok(()))
    }
}
