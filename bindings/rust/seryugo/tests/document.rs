//! Each example of `docs/RUST.md` is in this file, so it compiles as it is printed there.

use seryugo::{Error, Mailbox, Object, Request, Seat, Switchboard};
use std::error::Error as AnyError;
use std::fs;
use std::path::Path;
use std::time::Duration;

const DOCUMENT: &str = "../../../docs/RUST.md";

const THIS_FILE: &str = include_str!("document.rs");

type Ended = Result<(), Box<dyn AnyError>>;

/// The text without blanks at the ends of its lines.
fn trimmed<'a>(lines: impl Iterator<Item = &'a str>) -> String {
    lines.map(str::trim).flat_map(|line| [line, "\n"]).collect()
}

#[test]
fn each_example_is_in_this_file() {
    let path = Path::new(env!("CARGO_MANIFEST_DIR")).join(DOCUMENT);
    let document = fs::read_to_string(path).unwrap();
    let compiled = trimmed(THIS_FILE.lines());
    let examples: Vec<&str> = document.split("```").skip(1).step_by(2).collect();
    assert!(examples.len() > 5, "only {} were compared", examples.len());
    for example in examples {
        // The fence's own line may name a language.
        let printed = trimmed(example.lines().skip(1));
        assert!(compiled.contains(&format!("\n{printed}")), "this file lacks\n{printed}");
    }
}

#[test]
fn examples_end_well() {
    two_mailboxes().unwrap();
    let board = Switchboard::new(9).unwrap();
    let _guest = board.hold();
    let mut seat = board.seat().unwrap();
    let ages = seat.mailbox().unwrap();
    with_a_limit(&mut seat, ages).unwrap();
    goes_on(&board).unwrap();
    let path = std::env::temp_dir().join(format!("seryugo_document_{}", std::process::id()));
    in_a_file(&path).unwrap();
    in_a_file(&path).unwrap();
    fs::remove_file(&path).unwrap();
}

fn two_mailboxes() -> Ended {
    let board = Switchboard::new(65_536)?;
    let mut seat = board.seat()?;
    let (ages, names) = (seat.mailbox::<u64>()?, seat.mailbox::<String>()?);
    seat.send(ages, 5)?;
    seat.send(names, "Ann")?;
    assert_eq!(seat.recv(ages)?, 5);
    assert_eq!(seat.recv(names)?, "Ann");
    Ok(())
}

fn with_a_limit(seat: &mut Seat, ages: Mailbox<u64>) -> Ended {
    match seat.recv_timeout(ages, Duration::from_millis(10)) {
        Err(Error::TimedOut) => println!("no message yet"),
        received => println!("received {}", received?),
    }
    Ok(())
}

/// Of two threads, so that it isn't run.
#[allow(dead_code)]
fn a_question(mut server: Seat, mut client: Seat) -> Ended {
    let lengths = server.mailbox::<Request<String, u64>>()?;
    // On the server's thread:
    while let Ok(Request { question, asker }) = server.recv(lengths) {
        asker.answer(&mut server, question.len() as u64)?;
    }
    // On the client's thread:
    assert_eq!(client.request(lengths, "four")?, 4);
    Ok(())
}

fn in_a_file(path: &Path) -> Ended {
    let board = Switchboard::open(path)?;
    let mut seat = board.seat()?;
    let letters = seat.mailbox_again::<String>(0)?;
    let runs = seat.mvar_again::<u64>(1)?;
    seat.send(letters, "Dear Ben")?;
    seat.put(runs, 0)?;
    let before = seat.get(runs)?;
    seat.swap(runs, before + 1)?;
    board.sync()?;
    Ok(())
}

fn goes_on(board: &Switchboard) -> Ended {
    let mut text = Vec::new();
    board.take_journal()?.write_to(&mut text)?;

    let board: Switchboard = Switchboard::restore(&text[..], 65_536)?;
    let mailbox = board.mailbox::<u64>(0)?;
    assert_eq!(mailbox.number(), 0);
    Ok(())
}

#[cfg(feature = "scripts")]
#[allow(dead_code)]
fn a_script(script: &[u8]) -> Ended {
    let replayed = seryugo::replay(script, 65_536)?;
    print!("{}", replayed.report);
    Ok(())
}
