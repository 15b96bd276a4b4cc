//! What a client's lines ask for, and why they are refused.

use crate::lines::LONGEST;
use std::fmt;

/// How many messages `/history` returns if it has no number.
const SOME: u64 = 10;

/// What `/help` returns.
pub const HELP: [&str; 9] = [
    "/name NAME        says who you are; if you come back, you get what you missed",
    "/name NAME LAST   the same, if you have seen all messages up to number LAST",
    "/join ROOM        gives you a place in a room, which you keep until you leave it",
    "/leave            gives up your place, and what you haven't read",
    "/who              returns who has a place in your room",
    "/history [N]      returns the last N messages of your room",
    "/history FROM TO  returns the messages with these numbers",
    "/quit             ends the connection, and keeps your place",
    "anything else     is said in your room; begin with // to say a line that begins with /",
];

/// A client's or a room's name: 1 to 32 letters and digits of ASCII, `-` and `_`.
#[derive(Clone, Debug, PartialEq, Eq, Hash, PartialOrd, Ord)]
pub struct Name(String);

impl Name {
    pub fn new(word: &str) -> Option<Name> {
        let is_good = |byte: u8| byte.is_ascii_alphanumeric() || byte == b'-' || byte == b'_';
        ((1..=32).contains(&word.len()) && word.bytes().all(is_good)).then(|| Name(word.to_owned()))
    }

    pub fn as_str(&self) -> &str {
        &self.0
    }
}

impl fmt::Display for Name {
    fn fmt(&self, f: &mut fmt::Formatter<'_>) -> fmt::Result {
        f.write_str(&self.0)
    }
}

/// Which messages `/history` returns.
#[derive(Clone, Copy, Debug, PartialEq, Eq)]
pub enum Wanted {
    Last(u64),
    Between(u64, u64),
}

/// What a line asks for.
#[derive(Debug, PartialEq, Eq)]
pub enum Request<'a> {
    Nothing,
    Say(&'a str),
    /// The name, and the number of the last message that the client has seen.
    Name(Name, Option<u64>),
    Join(Name),
    Leave,
    Who,
    History(Wanted),
    Quit,
    Help,
}

/// Why a line was refused. The connection stays, unless the server is full.
#[derive(Debug, PartialEq, Eq)]
pub enum Refusal {
    TooLong,
    NotUtf8,
    ControlCharacter,
    UnknownCommand,
    WrongWords(&'static str),
    BadName,
    BadNumber,
    NoName,
    AlreadyNamed,
    NameInUse,
    NoRoom,
    InRoom(Name),
    RoomLimit(u64),
    MemberLimit(u64),
    ServerFull(u64),
    FellBehind { room: Name, last: u64 },
}

impl Refusal {
    /// The word by which a program tells it.
    pub fn name(&self) -> &'static str {
        match self {
            Refusal::TooLong => "too-long",
            Refusal::NotUtf8 => "not-utf8",
            Refusal::ControlCharacter => "control-character",
            Refusal::UnknownCommand => "unknown-command",
            Refusal::WrongWords(_) => "wrong-words",
            Refusal::BadName => "bad-name",
            Refusal::BadNumber => "bad-number",
            Refusal::NoName => "no-name",
            Refusal::AlreadyNamed => "already-named",
            Refusal::NameInUse => "name-in-use",
            Refusal::NoRoom => "no-room",
            Refusal::InRoom(_) => "in-room",
            Refusal::RoomLimit(_) => "room-limit",
            Refusal::MemberLimit(_) => "member-limit",
            Refusal::ServerFull(_) => "server-full",
            Refusal::FellBehind { .. } => "fell-behind",
        }
    }
}

impl fmt::Display for Refusal {
    fn fmt(&self, f: &mut fmt::Formatter<'_>) -> fmt::Result {
        write!(f, "error {}: ", self.name())?;
        match self {
            Refusal::TooLong => write!(f, "a line has at most {LONGEST} bytes"),
            Refusal::NotUtf8 => f.write_str("the line isn't UTF-8"),
            Refusal::ControlCharacter => f.write_str("the line has a control character"),
            Refusal::UnknownCommand => f.write_str("there is no such command; see /help"),
            Refusal::WrongWords(usage) => write!(f, "say {usage}"),
            Refusal::BadName => f.write_str("a name has 1 to 32 letters, digits, - or _"),
            Refusal::BadNumber => f.write_str("no message has such a number"),
            Refusal::NoName => f.write_str("say /name NAME first"),
            Refusal::AlreadyNamed => f.write_str("you have a name"),
            Refusal::NameInUse => f.write_str("the connection that has this name hasn't ended"),
            Refusal::NoRoom => f.write_str("say /join ROOM first"),
            Refusal::InRoom(room) => write!(f, "you have a place in {room}; say /leave first"),
            Refusal::RoomLimit(limit) => write!(f, "there are {limit} rooms, and can't be more"),
            Refusal::MemberLimit(limit) => write!(f, "{limit} names have a place, and no more can"),
            Refusal::ServerFull(limit) => write!(f, "{limit} clients are connected, and no more can be"),
            Refusal::FellBehind { room, last } => {
                write!(f, "you were too far behind, and lost your place in {room} after message {last}; /join {room} again")
            }
        }
    }
}

/// Reads a line.
pub fn parse(line: &[u8]) -> Result<Request<'_>, Refusal> {
    let line = std::str::from_utf8(line).map_err(|_| Refusal::NotUtf8)?;
    // Telnet ends its lines with two bytes.
    let line = line.strip_suffix('\r').unwrap_or(line);
    if line.chars().any(|character| character.is_control() && character != '\t') {
        return Err(Refusal::ControlCharacter);
    }
    match line.strip_prefix('/') {
        None if line.is_empty() => Ok(Request::Nothing),
        None => Ok(Request::Say(line)),
        Some(said) if said.starts_with('/') => Ok(Request::Say(said)),
        Some(command) => read_command(command),
    }
}

fn read_command(command: &str) -> Result<Request<'_>, Refusal> {
    let words: Vec<&str> = command.split_whitespace().collect();
    match words[..] {
        ["name", name] => Ok(Request::Name(read_name(name)?, None)),
        ["name", name, last] => Ok(Request::Name(read_name(name)?, Some(read_number(last)?))),
        ["name", ..] => Err(Refusal::WrongWords("/name NAME [LAST]")),
        ["join", room] => Ok(Request::Join(read_name(room)?)),
        ["join", ..] => Err(Refusal::WrongWords("/join ROOM")),
        ["leave"] => Ok(Request::Leave),
        ["leave", ..] => Err(Refusal::WrongWords("/leave")),
        ["who"] => Ok(Request::Who),
        ["who", ..] => Err(Refusal::WrongWords("/who")),
        ["history"] => Ok(Request::History(Wanted::Last(SOME))),
        ["history", count] => Ok(Request::History(Wanted::Last(read_number(count)?))),
        ["history", from, to] => read_between(from, to),
        ["history", ..] => Err(Refusal::WrongWords("/history [N] or /history FROM TO")),
        ["quit"] => Ok(Request::Quit),
        ["quit", ..] => Err(Refusal::WrongWords("/quit")),
        ["help", ..] => Ok(Request::Help),
        _ => Err(Refusal::UnknownCommand),
    }
}

fn read_between<'a>(from: &str, to: &str) -> Result<Request<'a>, Refusal> {
    let (from, to) = (read_number(from)?, read_number(to)?);
    if from == 0 || from > to {
        return Err(Refusal::BadNumber);
    }
    Ok(Request::History(Wanted::Between(from, to)))
}

fn read_name(word: &str) -> Result<Name, Refusal> {
    Name::new(word).ok_or(Refusal::BadName)
}

fn read_number(word: &str) -> Result<u64, Refusal> {
    match word.bytes().all(|byte| byte.is_ascii_digit()) {
        true => word.parse().map_err(|_| Refusal::BadNumber),
        false => Err(Refusal::BadNumber),
    }
}

#[cfg(test)]
mod tests {
    use super::*;

    fn name(word: &str) -> Name {
        Name::new(word).unwrap()
    }

    #[test]
    fn a_line_is_said_or_a_command() {
        assert_eq!(parse(b"hello there"), Ok(Request::Say("hello there")));
        assert_eq!(parse(b" /who"), Ok(Request::Say(" /who")));
        assert_eq!(parse(b"//who"), Ok(Request::Say("/who")));
        assert_eq!(parse(b"hello\r"), Ok(Request::Say("hello")));
        assert_eq!(parse(b""), Ok(Request::Nothing));
        assert_eq!(parse(b"\r"), Ok(Request::Nothing));
        assert_eq!(parse("\tgrüß".as_bytes()), Ok(Request::Say("\tgrüß")));
    }

    #[test]
    fn each_command_has_its_request() {
        assert_eq!(parse(b"/name ann"), Ok(Request::Name(name("ann"), None)));
        assert_eq!(parse(b"/name ann 17"), Ok(Request::Name(name("ann"), Some(17))));
        assert_eq!(parse(b"/join  kitchen "), Ok(Request::Join(name("kitchen"))));
        assert_eq!(parse(b"/leave"), Ok(Request::Leave));
        assert_eq!(parse(b"/who"), Ok(Request::Who));
        assert_eq!(parse(b"/history"), Ok(Request::History(Wanted::Last(10))));
        assert_eq!(parse(b"/history 3"), Ok(Request::History(Wanted::Last(3))));
        assert_eq!(parse(b"/history 3 5"), Ok(Request::History(Wanted::Between(3, 5))));
        assert_eq!(parse(b"/quit"), Ok(Request::Quit));
        assert_eq!(parse(b"/help me"), Ok(Request::Help));
    }

    #[test]
    fn each_wrong_line_has_its_refusal() {
        assert_eq!(parse(b"\xff"), Err(Refusal::NotUtf8));
        assert_eq!(parse(b"a\x1b[2Jb"), Err(Refusal::ControlCharacter));
        assert_eq!(parse(b"a\rb"), Err(Refusal::ControlCharacter));
        assert_eq!(parse(b"a\0b"), Err(Refusal::ControlCharacter));
        assert_eq!(parse(b"/"), Err(Refusal::UnknownCommand));
        assert_eq!(parse(b"/Join kitchen"), Err(Refusal::UnknownCommand));
        assert_eq!(parse(b"/join"), Err(Refusal::WrongWords("/join ROOM")));
        assert_eq!(parse(b"/leave now"), Err(Refusal::WrongWords("/leave")));
        assert_eq!(parse("/name änn".as_bytes()), Err(Refusal::BadName));
        assert_eq!(parse(format!("/name {}", "a".repeat(33)).as_bytes()), Err(Refusal::BadName));
        for number in ["x", "-1", "+1", "18446744073709551616"] {
            assert_eq!(parse(format!("/name ann {number}").as_bytes()), Err(Refusal::BadNumber));
        }
        for between in ["0 1", "5 3"] {
            assert_eq!(parse(format!("/history {between}").as_bytes()), Err(Refusal::BadNumber));
        }
    }

    #[test]
    fn a_refusal_begins_with_its_name() {
        assert_eq!(Refusal::NoName.to_string(), "error no-name: say /name NAME first");
        assert_eq!(Refusal::TooLong.to_string(), "error too-long: a line has at most 4096 bytes");
    }
}
