//! What errors say to a person, and which calls may be made again.

use seryugo::explore::Diverged;
use seryugo::{Error, FileCause, Kind, Misfit, Missing, Object, Switchboard, Version};
use std::any::type_name;

/// An error of each kind.
fn each() -> Vec<Error> {
    let version = |minor| Version::new(0, minor, 0);
    vec![
        Error::Gone,
        Error::Busy,
        Error::NoSuch(Missing::Object(7)),
        Error::NoSuch(Missing::Elsewhere(Kind::Port, 7)),
        Error::NoSuch(Missing::Count(Kind::Port, 7)),
        Error::NoSuch(Missing::Lane(7)),
        Error::WrongKind(Misfit::Feed(7)),
        Error::WrongKind(Misfit::Kind {
            number: 7,
            is: Kind::IVar,
            wanted: Kind::MVar,
        }),
        Error::JournalFull,
        Error::NotKept,
        Error::Stalled,
        Error::NoMemory,
        Error::Unseen,
        Error::Full,
        Error::OutOfBounds,
        Error::TooLong,
        Error::TimedOut,
        Error::Declined,
        Error::FileBusy,
        Error::NoJournal,
        Error::OtherVersion,
        Error::OtherMessages,
        Error::BeginsLater,
        Error::Fault(7),
        Error::Unlawful(7),
        Error::FileFailed(FileCause::default()),
        Error::FileFull(FileCause::default()),
        Error::FileLost(FileCause::default()),
        Error::Forked,
        Error::HasFile,
        Error::Diverged(Box::new(Diverged {
            position: 7,
            expected: "seat 0 send 0 5: done".to_string(),
            found: "seat 0 leaves".to_string(),
        })),
        Error::RerunEnded,
        Error::Unreadable {
            wanted: "u64",
            bytes: vec![1, 2],
        },
        Error::Version {
            library: version(2),
            wanted: version(1),
        },
        Error::Unknown(40),
    ]
}

#[test]
fn errors_have_plain_words() {
    let mut texts = each().iter().map(Error::to_string).collect::<Vec<_>>();
    texts.sort();
    assert!(texts.windows(2).all(|pair| pair[0] != pair[1]));
    assert!(texts.iter().all(|text| text.len() > 20 && !text.ends_with('.')));
    let retryable: Vec<Error> = each().into_iter().filter(seryugo::Error::is_retryable).collect();
    assert_eq!(
        retryable,
        [
            Error::Busy,
            Error::JournalFull,
            Error::NotKept,
            Error::NoMemory,
            Error::Unseen,
            Error::Full,
            Error::TimedOut,
            Error::FileBusy,
            Error::FileFull(FileCause::default())
        ]
    );
}

/// What a person reads, who has the switchboard's journal beside it.
#[test]
fn errors_say_what_is_wrong() {
    let board = Switchboard::new(100).unwrap();
    let mut seat = board.seat().unwrap();
    seat.ivar::<u64>().unwrap();
    let texts = seat.mailbox::<String>().unwrap();
    seat.send(board.mailbox::<u8>(texts.number()).unwrap(), 255).unwrap();
    let unreadable = seat.recv(texts).unwrap_err();
    let wanted = type_name::<String>();
    let bytes = vec![255];
    assert_eq!(unreadable, Error::Unreadable { wanted, bytes });
    let said = [
        unreadable,
        board.mailbox::<u64>(0).unwrap_err(),
        board.mvar::<u64>(7).unwrap_err(),
        Switchboard::new(100).unwrap().seat().unwrap().recv(texts).unwrap_err(),
        board.got(board.ivar::<u64>(0).unwrap()).unwrap_err(),
        board.drain(5).unwrap_err(),
    ];
    assert_eq!(
        said.map(|error| error.to_string()),
        [
            &*format!("the message received, of 1 byte, is no `{wanted}`"),
            "object 0 is an i-variable, and no mailbox",
            "there is no object 7 on this switchboard",
            "mailbox 1 is another switchboard's",
            "i-variable 0 has no such count of messages",
            "there is no open lane 5 on this switchboard",
        ]
    );
}
