//! The words of the command line.

use std::fmt;
use std::net::SocketAddr;
use std::path::PathBuf;
use std::str::FromStr;

/// What `--help` prints.
pub const HELP: &str = "\
usage: chat_server --listen ADDRESS --journal FILE [OPTION..]

A chat server over TCP, whose lines are plain text: connect by `nc ADDRESS PORT`, and say /help.
It keeps every message in FILE. Kill it at any time: the next one goes on from FILE.
A line `/shutdown` on standard input ends it. The end of standard input doesn't.

  --listen ADDRESS      where it listens, such as 127.0.0.1:7000; with port 0 the system chooses
  --journal FILE        the file that keeps the journal; it is made if it isn't there
  --client-limit N      how many clients may be connected (1000)
  --room-limit N        how many rooms there may be (1000)
  --member-limit N      how many names may have a place in a room (10000)
  --owed-limit N        how many messages a member may be behind before it loses its place (10000)
  --history-limit N     how many of a room's last messages the server keeps (1000)
  --compact-from BYTES  how long the file is at the least before it is made short (1000000)
  --help                prints this

Exit statuses: 0 after /shutdown or --help; 1 a call of the library failed; 2 wrong words; 3 it can't listen;
4 the file can't be read or written; 5 the file is no journal of a chat server; 6 another server has the file.
";

/// What the words ask for.
#[derive(Debug, PartialEq, Eq)]
pub enum Asked {
    Help,
    Serve(Arguments),
}

#[derive(Debug, PartialEq, Eq)]
pub struct Arguments {
    pub listen: SocketAddr,
    pub journal: PathBuf,
    pub limits: Limits,
}

/// What the server bounds.
#[derive(Clone, Copy, Debug, PartialEq, Eq)]
pub struct Limits {
    pub clients: u64,
    pub rooms: u64,
    pub members: u64,
    pub owed: u64,
    pub history: u64,
    pub compact_from: u64,
}

impl Default for Limits {
    fn default() -> Limits {
        Limits {
            clients: 1_000,
            rooms: 1_000,
            members: 10_000,
            owed: 10_000,
            history: 1_000,
            compact_from: 1_000_000,
        }
    }
}

/// Why the words were not understood.
#[derive(Debug, PartialEq, Eq)]
pub enum BadArguments {
    Unknown(String),
    Twice(String),
    NoValue(String),
    BadValue(String, String),
    Missing(&'static str),
}

impl fmt::Display for BadArguments {
    fn fmt(&self, f: &mut fmt::Formatter<'_>) -> fmt::Result {
        match self {
            BadArguments::Unknown(word) => write!(f, "unknown word: {word}"),
            BadArguments::Twice(option) => write!(f, "{option} is there twice"),
            BadArguments::NoValue(option) => write!(f, "{option} has no value"),
            BadArguments::BadValue(option, value) => write!(f, "{option} can't be {value}"),
            BadArguments::Missing(option) => write!(f, "{option} is missing"),
        }
    }
}

/// Reads the words after the program's name.
pub fn parse(words: impl IntoIterator<Item = String>) -> Result<Asked, BadArguments> {
    let mut words = words.into_iter();
    let (mut listen, mut journal) = (None, None);
    let mut limits = Limits::default();
    let mut seen = Vec::new();
    while let Some(option) = words.next() {
        if option == "--help" {
            return Ok(Asked::Help);
        }
        let limit = match option.as_str() {
            "--listen" | "--journal" => None,
            "--client-limit" => Some((&mut limits.clients, 1 << 20)),
            "--room-limit" => Some((&mut limits.rooms, 1 << 32)),
            "--member-limit" => Some((&mut limits.members, 1 << 32)),
            "--owed-limit" => Some((&mut limits.owed, 1 << 32)),
            "--history-limit" => Some((&mut limits.history, 1 << 32)),
            "--compact-from" => Some((&mut limits.compact_from, 1 << 62)),
            _ => return Err(BadArguments::Unknown(option)),
        };
        if seen.contains(&option) {
            return Err(BadArguments::Twice(option));
        }
        let value = words.next().ok_or_else(|| BadArguments::NoValue(option.clone()))?;
        match limit {
            Some((limit, most)) => *limit = number(&option, &value, most)?,
            None if option == "--listen" => listen = Some(read::<SocketAddr>(&option, &value)?),
            None => journal = Some(PathBuf::from(value)),
        }
        seen.push(option);
    }
    Ok(Asked::Serve(Arguments {
        listen: listen.ok_or(BadArguments::Missing("--listen"))?,
        journal: journal.ok_or(BadArguments::Missing("--journal"))?,
        limits,
    }))
}

fn read<T: FromStr>(option: &str, value: &str) -> Result<T, BadArguments> {
    value.parse().map_err(|_| BadArguments::BadValue(option.to_owned(), value.to_owned()))
}

/// A number from 1 to this.
fn number(option: &str, value: &str, most: u64) -> Result<u64, BadArguments> {
    let number = read(option, value)?;
    if (1..=most).contains(&number) {
        Ok(number)
    } else {
        Err(BadArguments::BadValue(option.to_owned(), value.to_owned()))
    }
}

#[cfg(test)]
mod tests {
    use super::*;

    fn parsed(line: &str) -> Result<Asked, BadArguments> {
        parse(line.split_whitespace().map(str::to_owned))
    }

    #[test]
    fn words_are_read_in_any_order() {
        let asked = parsed("--journal kept --owed-limit 5 --listen 127.0.0.1:70").unwrap();
        let Asked::Serve(arguments) = asked else {
            panic!("it is not help")
        };
        assert_eq!(arguments.listen, "127.0.0.1:70".parse().unwrap());
        assert_eq!(arguments.journal, PathBuf::from("kept"));
        assert_eq!(
            arguments.limits,
            Limits {
                owed: 5,
                ..Limits::default()
            }
        );
        assert_eq!(parsed("--listen --help"), Err(BadArguments::BadValue("--listen".into(), "--help".into())));
        assert_eq!(parsed("--help"), Ok(Asked::Help));
    }

    #[test]
    fn each_wrong_word_has_its_error() {
        assert_eq!(parsed("--journal kept"), Err(BadArguments::Missing("--listen")));
        assert_eq!(parsed("--listen 127.0.0.1:70"), Err(BadArguments::Missing("--journal")));
        assert_eq!(parsed("--listen"), Err(BadArguments::NoValue("--listen".into())));
        assert_eq!(parsed("listen"), Err(BadArguments::Unknown("listen".into())));
        assert_eq!(parsed("--journal a --journal b"), Err(BadArguments::Twice("--journal".into())));
        for wrong in ["0", "-1", "x", "4294967297", ""] {
            let told = parse(["--owed-limit".to_owned(), wrong.to_owned()]);
            assert_eq!(told, Err(BadArguments::BadValue("--owed-limit".into(), wrong.into())));
        }
    }
}
