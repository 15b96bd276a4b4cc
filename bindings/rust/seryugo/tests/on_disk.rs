//! Switchboards that are kept on the disk, with syncs that a test holds up. A test waits a little for
//! what must not come.

mod common;

use common::{block_on, poll_once, without_a_hang, Scratch};
use seryugo::{Error, JournalFile, Keep, Seat, Switchboard};
use std::ffi::c_int;
use std::pin::pin;
use std::sync::{Condvar, Mutex, MutexGuard, PoisonError};
use std::task::Poll;
use std::thread;
use std::time::Duration;

/// What the disk does with each sync of this program.
struct Disk {
    is_held: bool,
    fails: bool,
    /// How many syncs have begun, and how many of them wait.
    syncs: u64,
    waiting: u64,
}

static DISK: Mutex<Disk> = Mutex::new(Disk {
    is_held: false,
    fails: false,
    syncs: 0,
    waiting: 0,
});
static MOVED: Condvar = Condvar::new();

fn disk() -> MutexGuard<'static, Disk> {
    DISK.lock().unwrap_or_else(PoisonError::into_inner)
}

fn wait(disk: MutexGuard<'static, Disk>) -> MutexGuard<'static, Disk> {
    MOVED.wait(disk).unwrap_or_else(PoisonError::into_inner)
}

unsafe extern "C" {
    safe fn __errno_location() -> *mut c_int;
}

/// The library calls it in place of the system's.
#[unsafe(no_mangle)]
extern "C" fn fdatasync(_: c_int) -> c_int {
    let mut disk = disk();
    disk.syncs += 1;
    disk.waiting += 1;
    MOVED.notify_all();
    while disk.is_held {
        disk = wait(disk);
    }
    disk.waiting -= 1;
    if disk.fails {
        // SAFETY: it leads to this thread's number.
        unsafe { *__errno_location() = 5 };
        return -1;
    }
    0
}

/// The disk is one test's, until this is dropped.
struct Turn {
    _tests: MutexGuard<'static, ()>,
}

impl Turn {
    fn new() -> Turn {
        static TESTS: Mutex<()> = Mutex::new(());
        let tests = TESTS.lock().unwrap_or_else(PoisonError::into_inner);
        disk().fails = false;
        Turn { _tests: tests }
    }
}

impl Drop for Turn {
    fn drop(&mut self) {
        free();
    }
}

fn hold() {
    disk().is_held = true;
}

fn free() {
    disk().is_held = false;
    MOVED.notify_all();
}

fn is_free() -> bool {
    !disk().is_held
}

/// Waits until a sync is held up.
fn await_sync() {
    let mut disk = disk();
    while disk.waiting == 0 {
        disk = wait(disk);
    }
}

/// Gives those who must wait a while to return too early.
fn free_later() {
    thread::sleep(Duration::from_millis(30));
    free();
}

/// Has the sync that is held up fail.
fn fail_later() {
    disk().fails = true;
    free_later();
}

fn opened(scratch: &Scratch) -> Switchboard {
    JournalFile::new().sync_by_hand().grow_by(4_096).keep(Keep::Disk).open(scratch.path()).unwrap()
}

#[test]
fn a_call_and_a_reader_return_what_is_on_the_disk() {
    without_a_hang(|| {
        let (_turn, scratch) = (Turn::new(), Scratch::new("disk-call"));
        let board = opened(&scratch);
        let mut seat = board.seat().unwrap();
        let letters = seat.mailbox_again::<u64>(0).unwrap();
        hold();
        thread::scope(|scope| {
            let sender = scope.spawn(|| (seat.send(letters, 5), is_free()));
            await_sync();
            let owed = scope.spawn(|| (board.owed(letters), is_free()));
            let entries = scope.spawn(|| (board.entries(), is_free()));
            let short = scope.spawn(|| (board.compact().map(|short| short.len()), is_free()));
            free_later();
            assert_eq!(sender.join().unwrap(), (Ok(()), true));
            assert_eq!(owed.join().unwrap(), (Ok(1), true));
            assert_eq!(entries.join().unwrap(), (2, true));
            assert_eq!(short.join().unwrap(), (Ok(2), true));
        });
    });
}

#[test]
fn a_call_with_a_time_limit_waits_for_the_disk() {
    without_a_hang(|| {
        let (_turn, scratch) = (Turn::new(), Scratch::new("disk-timed"));
        let board = opened(&scratch);
        let (mut ann, mut ben, mut carol) =
            (board.seat().unwrap(), board.seat().unwrap(), board.seat().unwrap());
        let letters = ann.mailbox_again::<u64>(0).unwrap();
        let others = ann.mailbox_again::<u64>(1).unwrap();
        let limit = Duration::from_millis(1);
        hold();
        thread::scope(|scope| {
            let sender = scope.spawn(|| (ann.send(letters, 5), is_free()));
            await_sync();
            let receiver = scope.spawn(|| (ben.recv_timeout(letters, limit), is_free()));
            let late = scope.spawn(|| (carol.recv_timeout(others, limit), is_free()));
            free_later();
            assert_eq!(sender.join().unwrap(), (Ok(()), true));
            assert_eq!(receiver.join().unwrap(), (Ok(5), true));
            assert_eq!(late.join().unwrap(), (Err(Error::TimedOut), true));
        });
    });
}

#[test]
fn a_future_waits_for_the_disk_and_blocks_no_thread() {
    without_a_hang(|| {
        let (_turn, scratch) = (Turn::new(), Scratch::new("disk-future"));
        let board = opened(&scratch);
        let (mut ann, mut ben) = (board.seat().unwrap(), board.seat().unwrap());
        let letters = ann.mailbox_again::<u64>(0).unwrap();
        hold();
        thread::scope(|scope| {
            let sender = scope.spawn(|| ann.send(letters, 5));
            await_sync();
            let mut received = pin!(ben.recv_async(letters));
            assert_eq!(poll_once(received.as_mut()), Poll::Pending);
            assert_eq!(poll_once(received.as_mut()), Poll::Pending);
            let waiter = scope.spawn(|| {
                free_later();
                sender.join().unwrap()
            });
            // It ends only if its waker is called.
            assert_eq!(block_on(received), Ok(5));
            assert!(is_free());
            assert_eq!(waiter.join().unwrap(), Ok(()));
        });
    });
}

/// Nobody else has the file synced.
#[test]
fn a_future_has_a_sync_made() {
    without_a_hang(|| {
        let (_turn, scratch) = (Turn::new(), Scratch::new("disk-asked"));
        let board = opened(&scratch);
        let mut seat = board.seat().unwrap();
        let letters = seat.mailbox_again::<u64>(0).unwrap();
        seat.send(letters, 5).unwrap();
        let before = disk().syncs;
        assert_eq!(block_on(seat.recv_async(letters)), Ok(5));
        assert_eq!(disk().syncs, before + 1);
        drop(seat);
        board.close().unwrap();
        assert_eq!(disk().syncs, before + 1, "all was on the disk");
    });
}

/// The seat's next call for the same returns what it has received, once that is on the disk.
#[test]
fn a_future_that_is_dropped_while_it_waits_for_the_disk_loses_no_message() {
    without_a_hang(|| {
        let (_turn, scratch) = (Turn::new(), Scratch::new("disk-dropped"));
        let board = opened(&scratch);
        let mut seat = board.seat().unwrap();
        let letters = seat.mailbox_again::<String>(0).unwrap();
        let others = seat.mailbox_again::<String>(1).unwrap();
        let last = seat.mvar_again::<u64>(2).unwrap();
        for letter in ["one", "two", "three", "four", "five", "six"] {
            seat.send(letters, letter).unwrap();
        }
        seat.send(others, "another").unwrap();
        seat.put(last, 7).unwrap();
        let drop_one = |seat: &mut Seat<'_>| {
            hold();
            assert_eq!(poll_once(pin!(seat.recv_async(letters))), Poll::Pending);
        };
        drop_one(&mut seat);
        // This one finds the first, and is dropped too.
        assert_eq!(poll_once(pin!(seat.recv_async(letters))), Poll::Pending);
        free();
        assert_eq!(seat.recv(others).unwrap(), "another");
        assert_eq!(block_on(seat.recv_async(letters)).unwrap(), "one");
        drop_one(&mut seat);
        free();
        assert_eq!(seat.recv(letters).unwrap(), "two");
        drop_one(&mut seat);
        free();
        assert_eq!(seat.recv_poll(letters).unwrap().unwrap(), "three");
        drop_one(&mut seat);
        free();
        assert_eq!(seat.recv_timeout(letters, Duration::ZERO).unwrap(), "four");
        hold();
        assert_eq!(poll_once(pin!(seat.take_async(last))), Poll::Pending);
        free();
        assert_eq!(seat.take_poll(last).unwrap(), Some(7));
        assert_eq!(seat.recv(letters).unwrap(), "five");
        // What nobody asked for again goes with the seat.
        drop_one(&mut seat);
        free();
        drop(seat);
        assert_eq!(board.owed(letters), Ok(0));
        board.close().unwrap();
    });
}

#[test]
fn a_failed_sync_fails_all_who_wait() {
    without_a_hang(|| {
        let (_turn, scratch) = (Turn::new(), Scratch::new("disk-failed"));
        let board = opened(&scratch);
        let (mut ann, mut ben, mut carol) =
            (board.seat().unwrap(), board.seat().unwrap(), board.seat().unwrap());
        let letters = ann.mailbox_again::<u64>(0).unwrap();
        let others = ann.mailbox_again::<u64>(1).unwrap();
        let channel = ann.channel_again::<u64>(2).unwrap();
        let mut feed = board.feed(channel, 4).unwrap();
        ann.multicast(channel, 7).unwrap();
        hold();
        thread::scope(|scope| {
            let waiter = scope.spawn(|| carol.recv(others));
            let sender = scope.spawn(|| ann.send(letters, 5).map_err(|refused| refused.error));
            await_sync();
            let mut received = pin!(ben.recv_async(letters));
            assert_eq!(poll_once(received.as_mut()), Poll::Pending);
            let reader = scope.spawn(|| board.owed(letters));
            let pump = scope.spawn(|| (feed.pump(), feed.recv()));
            fail_later();
            for error in [
                sender.join().unwrap().unwrap_err(),
                block_on(received).unwrap_err(),
                reader.join().unwrap().unwrap_err(),
                waiter.join().unwrap().unwrap_err(),
            ] {
                assert!(matches!(error, Error::FileLost(_)), "{error:?}");
            }
            let (pumped, fed) = pump.join().unwrap();
            assert!(matches!(pumped, Err(Error::FileLost(_))), "{pumped:?}");
            assert!(matches!(fed, Err(Error::FileLost(_)) | Ok(None)), "{fed:?}");
        });
        let cause = board.keeping_error().unwrap().to_string();
        assert_eq!(cause, "fdatasync: Input/output error");
        drop((ann, ben, carol, feed));
        assert!(matches!(board.close(), Err(Error::FileLost(_))));
    });
}
