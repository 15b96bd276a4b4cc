//! A library that isn't the one of this crate, though it has the same version: its calls return any
//! code. No call of the crate panics, and each that fails says by which code.

mod common;

use common::calls::{at_once, blocking, readers, timed, Names, A_MILLISECOND};
use seryugo::{
    Asker, Carries, CheckError, Checker, Error, FileCause, Message, Object, Request, Switchboard,
};
use std::env;
use std::fs;
use std::path::{Path, PathBuf};
use std::process::Command;

/// The variables of the environment that have what the library returns: from the calls that open or
/// make something, and from others.
const OPENING: &str = "SERYUGO_TEST_OPENING";
const OTHER: &str = "SERYUGO_TEST_OTHER";

/// The head of the library.
const HEAD: &str = r#"
#include <stdbool.h>
#include <stddef.h>
#include <stdint.h>
#include <stdlib.h>
static uint32_t code(const char *of) { return (uint32_t)strtoul(getenv(of), NULL, 10); }
uint32_t seryugo_read(void *room, uint32_t reader, uint64_t object, uint64_t *number)
{
    if (reader == 5) {
        *number = object;
        return 0;
    }
    return code(reader == 10 ? "SERYUGO_TEST_OPENING" : "SERYUGO_TEST_OTHER");
}
uint32_t seryugo_take_by(void *room, uint32_t taking, void **journal, uint64_t *count)
{
    *journal = journal;
    return code(taking < 2 ? "SERYUGO_TEST_OPENING" : "SERYUGO_TEST_OTHER");
}
uint32_t seryugo_call_from(void *room, const uint32_t *kind, uint64_t *given, void *message)
{
    bool makes = *kind < 3 || *kind == 5 || *kind == 6;
    return code(makes ? "SERYUGO_TEST_OPENING" : "SERYUGO_TEST_OTHER");
}
"#;

/// The files that declare what the crate calls.
const DECLARING: [&str; 5] = [
    include_str!("../src/raw.rs"),
    include_str!("../src/numbers.rs"),
    include_str!("../src/bytes.rs"),
    include_str!("../src/message/received.rs"),
    include_str!("../src/version.rs"),
];

/// A library of this version with each function that the crate calls.
fn library_in_c() -> String {
    let part = |digits: &str| digits.parse::<u32>().unwrap();
    let version = part(env!("CARGO_PKG_VERSION_MAJOR")) << 16
        | part(env!("CARGO_PKG_VERSION_MINOR")) << 8
        | part(env!("CARGO_PKG_VERSION_PATCH"));
    let mut library = format!("{HEAD}uint32_t seryugo_version(void) {{ return {version}; }}\n");
    let declared = DECLARING.iter().flat_map(|file| file.split("fn seryugo_").skip(1));
    for function in declared {
        let (name, rest) = function.split_once('(').unwrap();
        if !matches!(name, "version" | "read" | "take_by") {
            library += &function_in_c(name, rest.split_once(')').unwrap().0);
        }
    }
    library
}

/// A function that returns a code. If it opens a handle, it writes one.
fn function_in_c(name: &str, declared: &str) -> String {
    let variable = if opens(name) { OPENING } else { OTHER };
    let types = declared.split(',').filter_map(|parameter| Some(parameter.split_once(": ")?.1));
    let (mut parameters, mut writes) = (Vec::new(), String::new());
    for (at, declared) in types.enumerate() {
        let in_c = match declared {
            "u64" => "uint64_t",
            "usize" => "size_t",
            "bool" => "bool",
            "&mut Opening" => "void **",
            _ => "void *",
        };
        parameters.push(format!("{in_c} p{at}"));
        if declared == "&mut Opening" {
            writes = format!("*p{at} = p{at}; ");
        }
    }
    let parameters = parameters.join(", ");
    format!("uint32_t seryugo_{name}({parameters}) {{ {writes}return code(\"{variable}\"); }}\n")
}

/// Whether a call opens or makes something, or is needed for that.
fn opens(name: &str) -> bool {
    match name {
        "room_restore" | "feed_port" | "lane_open" | "feed_open" | "file_open" => true,
        _ => name.starts_with("open_") || name.starts_with("new_"),
    }
}

/// Builds that library into a folder. `None` if there is no compiler for C.
fn built(folder: &Path) -> Option<()> {
    fs::create_dir_all(folder.join("lib")).unwrap();
    fs::write(folder.join("library.c"), library_in_c()).unwrap();
    let run = |program: &str, words: &[&str]| {
        Command::new(program).args(words).current_dir(folder).status().ok()
    };
    let compiled = run("cc", &["-c", "library.c", "-o", "library.o"])?;
    let archived = run("ar", &["rcs", "lib/libseryugo.a", "library.o"])?;
    assert!(compiled.success() && archived.success());
    Some(())
}

/// Links the next test with that library, and runs it.
#[test]
fn a_foreign_library_makes_no_call_panic() {
    let folder = PathBuf::from(env!("CARGO_TARGET_TMPDIR")).join("foreign");
    if built(&folder).is_none() {
        println!("left out: there is no compiler for C");
        return;
    }
    let ended = Command::new(env!("CARGO"))
        .args([
            "test",
            "--quiet",
            "--offline",
            "--test",
            "foreign",
            "--",
            "--ignored",
        ])
        .current_dir(env!("CARGO_MANIFEST_DIR"))
        .env("SERYUGO_PREFIX", &folder)
        .env("CARGO_TARGET_DIR", folder.join("target"))
        .output()
        .unwrap();
    let text = String::from_utf8_lossy(&ended.stdout) + String::from_utf8_lossy(&ended.stderr);
    assert!(ended.status.success() && text.contains("1 passed"), "{text}");
}

/// What the library returns from now on.
fn returns(opening: u32, other: u32) {
    // SAFETY: this test is the only one of its process, and no other thread reads the environment.
    unsafe {
        env::set_var(OPENING, opening.to_string());
        env::set_var(OTHER, other.to_string());
    }
}

#[test]
#[ignore = "a_foreign_library_makes_no_call_panic runs it with that library"]
fn each_code_at_each_call() {
    const PARKED: u32 = 4;
    const NO_MEMORY: u32 = 11;

    for code in (1..=40).chain([255, u32::MAX]) {
        returns(code, code);
        assert_eq!(Switchboard::new(9).err(), Some(error_of(code)));
        assert_eq!(Switchboard::of_numbers(9).err(), Some(error_of(code)));
        assert!(Checker::new().is_err());
        assert_eq!(Switchboard::open("x.journal").err(), Some(unopened(code)));
        returns(0, code);
        // A future that this library lets fail as stalled would wait.
        let bytes = Switchboard::new(9).unwrap().open_waits_stall();
        let numbers = Switchboard::of_numbers(9).unwrap().open_waits_stall();
        calls(&bytes, code);
        calls(&numbers, code);
        questions(&bytes, code);
        if code != PARKED {
            blocking_calls(&bytes, code);
            blocking_calls(&numbers, code);
        }
        if code != NO_MEMORY {
            assert_eq!((bytes.entry(0), numbers.entry(0)), (None, None));
            assert_eq!(bytes.take_journal().unwrap().entry(0), None);
        }
        assert!(numbers.take_journal().unwrap().write_to(&mut Vec::new()).is_err());
        assert!(Switchboard::<seryugo::Bytes>::restore(&b"journal 2\nend 0\n"[..], 9).is_err());
        assert_eq!((bytes.entries(), bytes.cut_at(), bytes.lost()), (0, 0, 0));
        checks(code);
        guests(code);
    }
}

fn error_of(code: u32) -> Error {
    match code {
        5 => Error::Gone,
        6 => Error::Busy,
        9 => Error::JournalFull,
        10 => Error::Stalled,
        11 => Error::NoMemory,
        12 => Error::Unseen,
        13 => Error::Full,
        16 => Error::OutOfBounds,
        20 => Error::TooLong,
        23 => Error::NoJournal,
        24 => Error::FileBusy,
        25 => Error::OtherVersion,
        26 => Error::OtherMessages,
        27 => Error::BeginsLater,
        29 => Error::FileFull(FileCause::default()),
        30 => Error::FileLost(FileCause::default()),
        31 => Error::Forked,
        code => Error::Unknown(code),
    }
}

/// Why no file is opened, of which the library says nothing else.
fn unopened(code: u32) -> Error {
    match code {
        17 => Error::Unlawful(0),
        18 => Error::Fault(1),
        28 => Error::FileFailed(FileCause::default()),
        code => error_of(code),
    }
}

/// The answer of a call. In this library an object's number is that of its kind. The first codes
/// are answers of some calls: then it may be one.
fn see<T>(call: &str, answer: Result<T, impl Into<Error>>, code: u32) {
    match answer.map_err(Into::into) {
        Ok(_) => assert!(code < 5, "{call} with the code {code}"),
        Err(Error::TimedOut) => assert_eq!(code, 4, "{call}"),
        Err(error) => assert!(is_of(&error, code), "{call} with the code {code}: {error:?}"),
    }
}

/// Whether a call that failed so had this code. Two codes say of some calls what their object is.
/// No other call has them.
fn is_of(error: &Error, code: u32) -> bool {
    match error {
        Error::NoSuch(_) => code == 7,
        Error::WrongKind(_) => code == 8,
        error => *error == error_of(code),
    }
}

fn calls<R: Carries<u64>>(board: &Switchboard<R>, code: u32) {
    let names = Names::of(board);
    let mut seat = board.seat().unwrap();
    for (call, make) in at_once().into_iter().chain(timed()).chain(readers()) {
        see(call, make(board, &mut seat, &names), code);
    }
    see("mvar_init", seat.mvar_init(5), code);
    assert_eq!(seat.try_iter(names.mailbox).next(), None);
    see("reserve", board.reserve(1), code);
    see("cut", board.cut(), code);
    see("cut_open", board.cut_open(), code);
    lanes_and_feeds(board, code);
    drop(seat);
}

fn lanes_and_feeds<R: Carries<u64>>(board: &Switchboard<R>, code: u32) {
    let names = Names::of(board);
    let mut feed = board.feed(names.channel, 1).unwrap();
    see("feed.pump", feed.pump(), code);
    see("feed.recv", feed.recv(), code);
    let mut lane = board.lane(names.mailbox, 1).unwrap();
    see("lane.send", lane.send(5), code);
    see("lane.drain", lane.drain(), code);
    let unclosed = lane.close().unwrap_err();
    assert_eq!(unclosed.error(), error_of(code));
    assert_eq!((unclosed.close().unwrap_err().abandon(), board.lost()), (0, 0));
}

/// The seat gets no mailbox for its answers, and a request of another program none for its answer.
fn questions(board: &Switchboard, code: u32) {
    let mut seat = board.seat().unwrap();
    let doubles = Names::of(board).mailbox.number();
    let doubles = board.mailbox::<Request<u64, u64>>(doubles).unwrap();
    let unsent = seat.request_timeout(doubles, 5, A_MILLISECOND);
    assert!(unsent.as_ref().is_err_and(|unsent| !unsent.was_sent));
    see("request_timeout", unsent, code);
    let asker = || Asker::<u64>::from_bytes(&[0; 16]).unwrap();
    see("answer", asker().answer(&mut seat, 5), code);
    see("decline", asker().decline(&mut seat), code);
}

/// These would wait for ever if each of them parked.
fn blocking_calls<R: Carries<u64>>(board: &Switchboard<R>, code: u32) {
    let names = Names::of(board);
    let mut seat = board.seat().unwrap();
    for (call, make) in blocking() {
        see(call, make(board, &mut seat, &names), code);
    }
    let mut messages = seat.iter(names.mailbox);
    assert_eq!(messages.next(), None);
    assert!(messages.error().is_some_and(|error| is_of(&error, code)));
}

fn checks(code: u32) {
    let mut checker = Checker::new().unwrap();
    stopped(checker.read(&b"journal 2\n"[..]), code);
    assert_eq!((checker.entries(), checker.is_whole()), (0, false));
    stopped(checker.compact(), code);
}

fn stopped<T>(told: Result<T, CheckError>, code: u32) {
    let error = told.err().unwrap();
    match code {
        17 => assert!(matches!(error, CheckError::Unlawful(0))),
        18 => assert!(matches!(error, CheckError::Fault(1, _))),
        11 => assert!(matches!(error, CheckError::NoMemory)),
        code => assert!(matches!(error, CheckError::Library(error) if error == error_of(code))),
    }
}

/// A seat that isn't made uses up no expected one.
fn guests(code: u32) {
    returns(0, code);
    let board = Switchboard::of_numbers(9).unwrap();
    returns(code, code);
    assert_eq!(board.hold().err(), Some(error_of(code)));
    assert_eq!(board.expect(1), Err(error_of(code)));
    returns(0, code);
    let guest = board.hold().unwrap();
    board.expect(1).unwrap();
    returns(code, code);
    assert_eq!(board.seat().err(), Some(error_of(code)));
    // While somebody is awaited, another guest needs nothing of the library.
    drop(board.hold().unwrap());
    drop(guest);
    // Nor does the last seat that is expected.
    assert!(board.seat().is_ok());
    assert_eq!(board.seat().err(), Some(error_of(code)));
}
