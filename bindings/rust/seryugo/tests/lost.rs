//! Journals whose file takes no more: a full disk, a file that others cut, a child of a fork, and a
//! process that is killed.

mod common;

use common::{asking, path_given, poll_once, run_apart, script_apart, without_a_hang, Scratch};
use seryugo::{Error, JournalFile, Numbers, Switchboard};
use std::error::Error as _;
use std::fs;
use std::io::{self, ErrorKind};
use std::os::unix::process::CommandExt;
use std::process::Command;
use std::sync::atomic::{AtomicBool, Ordering};
use std::sync::Arc;
use std::task::Poll;
use std::thread;

/// A file that may grow no further refuses calls by name, and has all others.
#[test]
fn a_full_disk_refuses_calls_and_loses_none() {
    let scratch = Scratch::new("full");
    let other = run_apart("fills_a_file", "ulimit -f 500 &&", &scratch.path());
    assert!(other.status.success(), "{other:?}");
    let said = String::from_utf8(other.stdout).unwrap();
    let sent: u64 =
        said.lines().find_map(|line| line.strip_prefix("sent ")).unwrap().parse().unwrap();
    let board = Switchboard::open_numbers(scratch.path()).unwrap();
    assert_eq!(board.owed(board.mailbox(0).unwrap()), Ok(sent));
    assert!(sent > 1_000);
}

#[test]
#[ignore = "another test runs it in its own process"]
fn fills_a_file() {
    let options = JournalFile::new().grow_by(4096);
    let board = options.open_numbers(path_given()).unwrap();
    let (mut seat, mut waits) = (board.seat().unwrap(), board.seat().unwrap());
    let (mailbox, other) = (seat.mailbox_again(0).unwrap(), seat.mailbox_again(1).unwrap());
    let mut asked = asking(waits.recv_async(other));
    let refused = loop {
        if let Err(refused) = seat.send(mailbox, 7) {
            break refused.error;
        }
    };
    assert!(is_full(&refused), "{refused:?}");
    let sent = board.sent(mailbox).unwrap();
    assert_eq!(board.keeping_error().unwrap().kind(), ErrorKind::FileTooLarge);
    assert!(is_full(&seat.recv_poll(mailbox).unwrap_err()));
    let mut lane = board.lane(mailbox, 8).unwrap();
    lane.send(8).unwrap();
    assert!(is_full(&lane.drain().unwrap_err()));
    drop(lane);
    assert_eq!((board.lost(), board.sent(mailbox)), (1, Ok(sent)));
    assert!(poll_once(asked.as_mut()).is_pending());
    drop(asked);
    drop((seat, waits));
    board.close().unwrap();
    println!("\nsent {sent}");
}

/// The file may grow no further, and the error says so.
fn is_full(error: &Error) -> bool {
    let cause = error.source().and_then(|source| source.downcast_ref::<io::Error>());
    let is_told = cause.is_some_and(|cause| cause.kind() == ErrorKind::FileTooLarge);
    is_told && matches!(error, Error::FileFull(_)) && error.to_string().contains("File too large")
}

/// On a small disk that nobody else sees. Only root can mount one.
#[test]
fn a_send_to_a_full_disk_says_that_no_space_is_left() {
    if !Command::new("unshare").args(["-m", "true"]).status().is_ok_and(|ended| ended.success()) {
        println!("left out: only root can mount a small disk");
        return;
    }
    let scratch = Scratch::new("space");
    let mounts = format!("mount -t tmpfs -o size=12m tmpfs '{}' &&", scratch.0.display());
    let run = script_apart("fills_a_disk", &mounts);
    let mut other = Command::new("unshare");
    let other = other.args(["-m", "sh", "-c", &run]).env("SERYUGO_PATH", scratch.path()).output();
    assert!(other.as_ref().is_ok_and(|other| other.status.success()), "{other:?}");
}

#[test]
#[ignore = "another test runs it in its own process"]
fn fills_a_disk() {
    let board = Switchboard::open(path_given()).unwrap();
    let mut seat = board.seat().unwrap();
    let mailbox = seat.mailbox_again::<Vec<u8>>(0).unwrap();
    let refused = loop {
        if let Err(refused) = seat.send(mailbox, vec![0; 100_000]) {
            break refused.error;
        }
    };
    let said =
        "the disk has no room for the journal's file: posix_fallocate: No space left on device";
    assert_eq!(refused.to_string(), said);
    let cause = refused.source().unwrap().downcast_ref::<io::Error>().unwrap();
    assert_eq!(cause.kind(), ErrorKind::StorageFull);
}

/// The zeros at the file's end can't be cut off. A library before the system's refuses that.
#[test]
fn a_close_that_fails_says_why() {
    let scratch = Scratch::new("close");
    let source = concat!(env!("CARGO_MANIFEST_DIR"), "/../../../tests/c/faults.c");
    let faults = scratch.0.join("faults.so");
    let mut compiler = Command::new("cc");
    let compiler = compiler.args(["-shared", "-fPIC", source, "-ldl", "-o"]).arg(&faults);
    if !compiler.output().is_ok_and(|compiled| compiled.status.success()) {
        println!("left out: there is nothing by which calls of the system fail");
        return;
    }
    let words = format!("export FAULT=ftruncate:2:fail:all LD_PRELOAD='{}';", faults.display());
    let other = run_apart("closes_in_vain", &words, &scratch.path());
    assert!(other.status.success(), "{other:?}");
}

#[test]
#[ignore = "another test runs it in its own process"]
fn closes_in_vain() {
    let board = Switchboard::open(path_given()).unwrap();
    board.seat().unwrap().mailbox_again::<u64>(0).unwrap();
    let unclosed = board.close().unwrap_err();
    assert!(matches!(unclosed, Error::FileLost(_)), "{unclosed:?}");
    assert!(unclosed.to_string().contains("Input/output error"), "{unclosed}");
    let cause = unclosed.source().and_then(|source| source.downcast_ref::<io::Error>());
    assert_eq!(cause.and_then(io::Error::raw_os_error), Some(5));
}

/// A drain moves more than the file has room for. Nobody sees that before it is kept.
#[test]
fn long_messages_of_a_lane_meet_a_full_disk() {
    let scratch = Scratch::new("lane");
    let other = run_apart("fills_a_file_by_a_lane", "ulimit -S -f 11200 &&", &scratch.path());
    assert!(other.status.success(), "{other:?}");
    let board = Switchboard::open(scratch.path()).unwrap();
    assert_eq!(board.owed(board.mailbox::<Vec<u8>>(0).unwrap()), Ok(3));
}

#[test]
#[ignore = "another test runs it in its own process"]
fn fills_a_file_by_a_lane() {
    let board = JournalFile::new().grow_by(4096).open(path_given()).unwrap();
    let mut seat = board.seat().unwrap();
    let mailbox = seat.mailbox_again::<Vec<u8>>(0).unwrap();
    let mut lane = board.lane(mailbox, 8).unwrap();
    for _ in 0..3 {
        lane.send(vec![0xFF; 1_398_000]).unwrap();
    }
    let unclosed = lane.close().unwrap_err();
    assert!(is_full(&unclosed.error()) && is_full(&seat.recv(mailbox).unwrap_err()));
    let unclosed = unclosed.close().unwrap_err();
    assert!(is_full(&unclosed.error()));
    let own = std::process::id().to_string();
    let grows = Command::new("prlimit").args(["--pid", &own, "--fsize=unlimited"]).status();
    assert!(grows.unwrap().success());
    unclosed.close().unwrap();
    assert_eq!(board.lost(), 0);
    drop(seat);
    board.close().unwrap();
}

/// The file was cut by others, and the error says so. The system refused nothing.
fn is_lost<T>(answer: Result<T, impl Into<Error>>) -> bool {
    let Err(error) = answer.map_err(Into::into) else {
        return false;
    };
    let is_told = error.to_string().ends_with(": the file was cut by others");
    is_told && error.source().is_none() && matches!(error, Error::FileLost(_))
}

/// Cuts the file as no program may while it is open, and has the switchboard see it.
fn lose(scratch: &Scratch, board: &Switchboard) {
    fs::File::options().write(true).open(scratch.path()).unwrap().set_len(0).unwrap();
    assert!(is_lost(board.sync()));
}

#[test]
fn a_file_that_is_lost_refuses_calls_and_wakes_all_who_wait() {
    without_a_hang(|| {
        let scratch = Scratch::new("lost");
        let board = JournalFile::new().sync_by_hand().open(scratch.path()).unwrap();
        let [mut seat, mut waits, mut future] = [(); 3].map(|()| board.seat().unwrap());
        let mailbox = seat.mailbox_again::<u64>(0).unwrap();
        let mut asked = asking(future.recv_async(mailbox));
        thread::scope(|scope| {
            let waiter = scope.spawn(move || waits.recv(mailbox));
            common::let_them_wait();
            lose(&scratch, &board);
            assert!(is_lost(seat.send(mailbox, 5)));
            assert!(is_lost(waiter.join().unwrap()));
        });
        let Poll::Ready(answer) = poll_once(asked.as_mut()) else {
            panic!("it waits")
        };
        assert!(is_lost(answer));
        drop(asked);
        let why = board.keeping_error().unwrap().to_string();
        assert_eq!(why, "the file was cut by others");
        assert!(is_lost(seat.recv_poll(mailbox)));
        assert!(is_lost(board.lane(mailbox, 8).unwrap().drain()));
        drop((seat, future));
        assert!(is_lost(board.close()));
    });
}

/// A seat's calls, and others, as a child of a fork makes them. `Ok`: each fails by name.
fn refused_in_a_child(board: &Arc<Switchboard<Numbers>>) -> io::Result<()> {
    let mut seat = board.seat_owned().unwrap();
    let mailbox = seat.mailbox_again(0).unwrap();
    let child = board.clone();
    let run = move || {
        let refused = [
            seat.send(mailbox, 5).map_err(Error::from).err(),
            seat.recv(mailbox).err(),
            seat.mailbox_again(1).err(),
            child.lane(mailbox, 8).err(),
            child.drain(0).err(),
            child.owed(mailbox).err(),
            child.seat().err(),
            child.hold().err(),
            child.sync().err(),
        ];
        match refused.iter().all(|error| *error == Some(Error::Forked)) {
            true => Ok(()),
            false => Err(io::Error::from_raw_os_error(1)),
        }
    };
    let mut command = Command::new("true");
    // SAFETY: glibc lets a child of a process with threads allocate memory, and the calls take no
    // other lock.
    unsafe { command.pre_exec(run) };
    let ended = command.status()?;
    assert!(ended.success() && board.sync().is_ok());
    Ok(())
}

/// Another thread has the lock most of the time.
#[test]
fn a_child_of_a_fork_is_refused_and_its_parent_goes_on() {
    without_a_hang(|| {
        let scratch = Scratch::new("fork");
        let board = Arc::new(Switchboard::open_numbers(scratch.path()).unwrap());
        let mut busy = board.seat_owned().unwrap();
        let mailbox = busy.mailbox_again(0).unwrap();
        let ends = Arc::new(AtomicBool::new(false));
        let sends = ends.clone();
        let sender = thread::spawn(move || {
            let mut sent = 0;
            while !sends.load(Ordering::Relaxed) {
                busy.send(mailbox, sent).unwrap();
                sent += 1;
            }
            sent
        });
        for _ in 0..20 {
            refused_in_a_child(&board).unwrap();
        }
        ends.store(true, Ordering::Relaxed);
        let sent = sender.join().unwrap();
        drop(board);
        let board = Switchboard::open_numbers(scratch.path()).unwrap();
        assert_eq!(board.owed(board.mailbox(0).unwrap()), Ok(sent));
    });
}

/// A process that is killed loses nothing of what returned.
#[test]
fn a_kill_loses_no_call_that_returned() {
    let scratch = Scratch::new("kill");
    for run in 1..=3 {
        let other = run_apart("kills_itself", "", &scratch.path());
        assert!(!other.status.success());
        let said = String::from_utf8_lossy(&other.stdout).into_owned();
        assert!(said.contains("sent 300"), "{said}");
        let text = scratch.text();
        let sends = text.lines().filter(|line| line.contains(" send 0 ")).count();
        assert_eq!(sends, 300 * run);
    }
    let board = Switchboard::open(scratch.path()).unwrap();
    assert_eq!(board.owed(board.mailbox::<u64>(0).unwrap()), Ok(900));
}

#[test]
#[ignore = "another test runs it in its own process"]
fn kills_itself() {
    let board = JournalFile::new().grow_by(4096).open(path_given()).unwrap();
    let mut seat = board.seat().unwrap();
    let mailbox = seat.mailbox_again::<u64>(0).unwrap();
    for number in 0..300 {
        seat.send(mailbox, number).unwrap();
    }
    println!("\nsent 300");
    let own = std::process::id().to_string();
    Command::new("kill").args(["-9", &own]).status().unwrap();
    unreachable!("the process was killed");
}
