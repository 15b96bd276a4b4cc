//! An entry as a line of a journal's text, which `docs/FORMATS.md` describes.

use crate::explore::step::Step;
use crate::journal::entry::{Call, Entry, Reply, Who};
use crate::message::carries::MessageKind;

/// The line of an entry, without its end.
pub(crate) fn line_of<R: MessageKind>(entry: &Entry<R>) -> String {
    let message = entry.call.message().map(|message| format!(" {}", R::word(message)));
    let (step, message) = (Step::of(&entry.call), message.unwrap_or_default());
    format!("{} {step}{message}: {}", name_of(entry.who), reply_of::<R>(&entry.reply))
}

/// Who makes an entry, in the journal's words.
pub(crate) fn name_of(who: Who) -> String {
    match who {
        Who::Seat(number) => format!("seat {number}"),
        Who::Lane(number) => format!("lane {number}"),
        Who::Feed(number) => format!("feed {number}"),
    }
}

fn reply_of<R: MessageKind>(reply: &Reply<R::Message>) -> String {
    match reply {
        Reply::Done => "done".to_string(),
        Reply::Made(number) => format!("made {number}"),
        Reply::Got(message) => R::word(message),
        Reply::Nothing => "none".to_string(),
        Reply::Put => "put".to_string(),
        Reply::Closed => "closed".to_string(),
    }
}

/// The entry of a line. The library has read the line before, and it has no fault.
pub(crate) fn entry_of<R: MessageKind>(line: &str) -> Option<Entry<R>> {
    let (made, reply) = line.split_once(": ")?;
    let mut words = made.split(' ');
    let (who, number) = (words.next()?, words.next()?.parse().ok()?);
    let who = match who {
        "seat" => Who::Seat(number),
        "lane" => Who::Lane(number),
        "feed" => Who::Feed(number),
        _ => return None,
    };
    Some(Entry {
        who,
        call: call_in::<R>(words.next()?, words.next(), words.next())?,
        reply: reply_in::<R>(reply)?,
    })
}

/// The call of this word, with its object and its message.
fn call_in<R: MessageKind>(
    word: &str,
    first: Option<&str>,
    second: Option<&str>,
) -> Option<Call<R::Message>> {
    let object = || first?.parse().ok();
    let message = || R::message_of(second?);
    Some(match (word, first) {
        ("mailbox", _) => Call::NewMailbox,
        ("channel", _) => Call::NewChannel,
        ("port", _) => Call::NewPort(object()?),
        ("copy", _) => Call::CopyPort(object()?),
        ("close", _) => Call::ClosePort(object()?),
        ("ivar", _) => Call::NewIVar,
        ("mvar", None) => Call::NewMVar,
        ("mvar", Some(message)) => Call::MVarInit(R::message_of(message)?),
        ("send", _) => Call::Send(object()?, message()?),
        ("multicast", _) => Call::Multicast(object()?, message()?),
        ("recv", _) => Call::Recv(object()?),
        ("poll", _) => Call::RecvPoll(object()?),
        ("put", _) => Call::Put(object()?, message()?),
        ("get", _) => Call::Get(object()?),
        ("getpoll", _) => Call::GetPoll(object()?),
        ("take", _) => Call::Take(object()?),
        ("takepoll", _) => Call::TakePoll(object()?),
        ("swap", _) => Call::Swap(object()?, message()?),
        _ => return None,
    })
}

fn reply_in<R: MessageKind>(reply: &str) -> Option<Reply<R::Message>> {
    Some(match reply {
        "done" => Reply::Done,
        "none" => Reply::Nothing,
        "put" => Reply::Put,
        "closed" => Reply::Closed,
        _ => match reply.strip_prefix("made ") {
            Some(number) => Reply::Made(number.parse().ok()?),
            None => Reply::Got(R::message_of(reply)?),
        },
    })
}

/// The word of a message of bytes.
pub(crate) fn word_of(bytes: &[u8]) -> String {
    let spelled = bytes.iter().map(|byte| match byte {
        0x21..=0x7E if *byte != b'%' => char::from(*byte).to_string(),
        _ => format!("%{byte:02X}"),
    });
    std::iter::once("=".to_string()).chain(spelled).collect()
}

/// The bytes of such a word.
pub(crate) fn bytes_of(word: &str) -> Option<Vec<u8>> {
    let mut rest = word.strip_prefix('=')?;
    let mut bytes = Vec::with_capacity(rest.len());
    while let Some(first) = rest.bytes().next() {
        let (byte, length) = match first {
            b'%' => (u8::from_str_radix(rest.get(1..3)?, 16).ok()?, 3),
            _ => (first, 1),
        };
        bytes.push(byte);
        rest = rest.get(length..)?;
    }
    Some(bytes)
}

#[cfg(test)]
mod tests {
    use super::*;
    use crate::message::carries::{Bytes, Numbers};
    use std::fmt::Debug;

    /// Each call and each reply, with these words for messages.
    fn lines(message: &str, empty: &str) -> Vec<String> {
        let lines = "seat 0 mailbox: made 0\nseat 0 channel: made 1\nseat 7 port 1: made 2\n\
            seat 0 copy 2: made 3\nseat 0 copy 2: closed\nseat 0 close 3: done\n\
            seat 0 close 3: closed\nseat 0 ivar: made 4\nseat 0 mvar: made 5\n\
            seat 0 mvar MESSAGE: made 6\nlane 0 send 0 MESSAGE: done\nlane 3 multicast 1 EMPTY: done\n\
            seat 0 recv 0: MESSAGE\nfeed 2 poll 2: EMPTY\nseat 0 poll 2: closed\n\
            seat 0 poll 0: none\nseat 0 put 4 MESSAGE: done\nseat 0 put 4 EMPTY: put\n\
            seat 0 get 4: MESSAGE\nseat 0 getpoll 5: none\nseat 0 take 6: MESSAGE\n\
            seat 0 takepoll 6: none\nseat 18446744073709551615 swap 6 MESSAGE: EMPTY";
        let lines = lines.replace("MESSAGE", message).replace("EMPTY", empty);
        lines.lines().map(str::to_string).collect()
    }

    fn are_read_as_written<R: MessageKind + Debug>(lines: &[String]) {
        for line in lines {
            let entry = entry_of::<R>(line).unwrap_or_else(|| panic!("{line}"));
            assert_eq!(line_of(&entry), *line);
        }
    }

    #[test]
    fn lines_are_read_as_they_are_written() {
        are_read_as_written::<Numbers>(&lines("5", "18446744073709551615"));
        are_read_as_written::<Bytes>(&lines("=a:b%20%25%00%C3%A4:", "="));
    }

    #[test]
    fn bytes_have_words() {
        let all: Vec<u8> = (0..=255).collect();
        assert_eq!(bytes_of(&word_of(&all)), Some(all));
        assert_eq!(word_of("ä %:".as_bytes()), "=%C3%A4%20%25:");
        for word in ["", "5", "=%", "=%4", "=%zz", "=%\u{e4}x"] {
            assert_eq!(bytes_of(word), None, "{word}");
        }
    }
}
