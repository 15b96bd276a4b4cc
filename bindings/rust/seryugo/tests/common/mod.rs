//! What several tests need.

// Each test is its own crate, and none needs all of it.
#![allow(dead_code)]

pub mod calls;
mod patience;

pub use patience::PATIENCE;
use seryugo::{Numbers, Switchboard};
use std::fs;
use std::future::Future;
use std::path::{Path, PathBuf};
use std::pin::{pin, Pin};
use std::process::{Command, Output};
use std::sync::mpsc::{self, RecvTimeoutError};
use std::sync::Arc;
use std::task::{Context, Poll, Wake, Waker};
use std::thread::{self, Thread};
use std::time::Duration;

/// Most tests are on numbers: the calls are the same on bytes.
pub type Board = Switchboard<Numbers>;
pub type Seat<'a> = seryugo::Seat<'a, Numbers>;
pub type Lane<'a> = seryugo::Lane<'a, Numbers, u64>;
pub type Feed<'a> = seryugo::Feed<'a, Numbers, u64>;
pub type Mailbox = seryugo::Mailbox<u64>;
pub type Channel = seryugo::Channel<u64>;
pub type Port = seryugo::Port<u64>;
pub type IVar = seryugo::IVar<u64>;
pub type MVar = seryugo::MVar<u64>;

/// Fails where the test hangs.
pub fn without_a_hang(test: impl FnOnce() + Send + 'static) {
    let (ended, ends) = mpsc::channel();
    let tested = thread::spawn(move || {
        test();
        ended.send(())
    });
    match ends.recv_timeout(PATIENCE) {
        Err(RecvTimeoutError::Timeout) => panic!("a thread sleeps though its seat is due"),
        _ => tested.join().unwrap().unwrap(),
    }
}

/// Waits until the other threads most likely wait. No test needs that it is so.
pub fn let_them_wait() {
    thread::sleep(Duration::from_micros(200));
}

pub fn seats(board: &Board, count: usize) -> Vec<Seat<'_>> {
    (0..count).map(|_| board.seat().unwrap()).collect()
}

/// Numbers that look like random ones, the same in each run.
pub struct Random(u64);

impl Random {
    pub fn new(seed: u64) -> Random {
        Random(seed)
    }

    /// The next one, less than this.
    pub fn below(&mut self, most: u64) -> u64 {
        self.0 =
            self.0.wrapping_mul(6_364_136_223_846_793_005).wrapping_add(1_442_695_040_888_963_407);
        (self.0 >> 33) % most
    }
}

/// Wakes a thread that runs one future.
struct Unpark(Thread);

impl Wake for Unpark {
    fn wake(self: Arc<Self>) {
        self.0.unpark();
    }
}

/// Runs a future on this thread.
pub fn block_on<T>(future: impl Future<Output = T>) -> T {
    let waker = Waker::from(Arc::new(Unpark(thread::current())));
    let mut future = pin!(future);
    loop {
        match future.as_mut().poll(&mut Context::from_waker(&waker)) {
            Poll::Ready(answer) => return answer,
            Poll::Pending => thread::park(),
        }
    }
}

/// Polls a future, and wakes nobody.
pub fn poll_once<F: Future>(future: Pin<&mut F>) -> Poll<F::Output> {
    future.poll(&mut Context::from_waker(Waker::noop()))
}

pub fn is_waiting<F: Future>(future: &mut Pin<Box<F>>) -> bool {
    poll_once(future.as_mut()).is_pending()
}

/// A question that was asked.
pub fn asking<F: Future>(future: F) -> Pin<Box<F>> {
    let mut future = Box::pin(future);
    assert!(is_waiting(&mut future));
    future
}

/// What a question was answered, which is there.
pub fn answered<F: Future>(mut future: Pin<Box<F>>) -> F::Output {
    match poll_once(future.as_mut()) {
        Poll::Ready(answer) => answer,
        Poll::Pending => panic!("it waits"),
    }
}

/// A folder of a test, which is removed in the end.
pub struct Scratch(pub PathBuf);

impl Scratch {
    pub fn new(name: &str) -> Scratch {
        let name = format!("seryugo_test_{}_{name}", std::process::id());
        let folder = std::env::temp_dir().join(name);
        let _ = fs::remove_dir_all(&folder);
        fs::create_dir(&folder).unwrap();
        Scratch(folder)
    }

    pub fn path(&self) -> PathBuf {
        self.0.join("x.journal")
    }

    /// The journal's text, without the zeros after it.
    pub fn text(&self) -> String {
        let bytes = fs::read(self.path()).unwrap();
        let text = bytes.split(|byte| *byte == 0).next().unwrap();
        String::from_utf8(text.to_vec()).unwrap()
    }
}

impl Drop for Scratch {
    fn drop(&mut self) {
        let _ = fs::remove_dir_all(&self.0);
    }
}

/// What a shell runs: one ignored test of the same file, for which it prepares.
pub fn script_apart(test: &str, prepare: &str) -> String {
    let this = std::env::current_exe().unwrap();
    format!("{prepare} exec '{}' --ignored --exact --nocapture {test}", this.display())
}

/// Runs one ignored test of the same file in another process, which a shell prepares.
pub fn run_apart(test: &str, prepare: &str, path: &Path) -> Output {
    let run = script_apart(test, prepare);
    Command::new("sh").args(["-c", &run]).env("SERYUGO_PATH", path).output().unwrap()
}

/// The path that `run_apart` was given.
pub fn path_given() -> PathBuf {
    std::env::var_os("SERYUGO_PATH").unwrap().into()
}
