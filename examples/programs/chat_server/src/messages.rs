//! What the switchboard's messages say: the lines of the rooms, and the records of the directory.

use crate::protocol::Name;
use seryugo::Message;
use std::fmt;

/// A line that a client said. In the journal it is its number in the room, the name, and the text, with a space after each.
#[derive(Clone, Debug, PartialEq, Eq)]
pub struct Said {
    pub number: u64,
    pub name: Name,
    pub text: String,
}

impl Message for Said {
    fn write_to(&self, bytes: &mut Vec<u8>) {
        for part in [
            self.number.to_string().as_str(),
            " ",
            self.name.as_str(),
            " ",
            &self.text,
        ] {
            bytes.extend_from_slice(part.as_bytes());
        }
    }

    fn from_bytes(bytes: &[u8]) -> Option<Said> {
        let (number, said) = std::str::from_utf8(bytes).ok()?.split_once(' ')?;
        let (name, text) = said.split_once(' ')?;
        Some(Said {
            number: number.parse().ok()?,
            name: Name::new(name)?,
            text: text.to_owned(),
        })
    }
}

impl fmt::Display for Said {
    fn fmt(&self, f: &mut fmt::Formatter<'_>) -> fmt::Result {
        write!(f, "{}: {}", self.name, self.text)
    }
}

/// One record of the directory: a full m-variable holds it.
#[derive(Clone, Debug, PartialEq, Eq)]
pub enum Record {
    /// The first object's, by which a chat server knows its journal.
    Chat,
    Room(RoomRecord),
    /// What the member hasn't received is owed to the port.
    Member {
        name: Name,
        room: Name,
        port: u64,
    },
    /// The member lost its place after the message of this number, and doesn't know yet.
    Behind {
        name: Name,
        room: Name,
        last: u64,
    },
}

/// What is said in the room goes into the mailbox `queue` first, and once it is kept, on the channel. All messages up to the
/// number `published` went on the channel before the port `witness` was made, which earlier servers didn't have.
#[derive(Clone, Debug, PartialEq, Eq)]
pub struct RoomRecord {
    pub room: Name,
    pub queue: u64,
    pub channel: u64,
    pub published: u64,
    pub witness: Option<u64>,
}

impl Message for Record {
    fn write_to(&self, bytes: &mut Vec<u8>) {
        bytes.extend_from_slice(self.to_string().as_bytes());
    }

    fn from_bytes(bytes: &[u8]) -> Option<Record> {
        let words: Vec<&str> = std::str::from_utf8(bytes).ok()?.split(' ').collect();
        match words[..] {
            ["chat", "2"] => Some(Record::Chat),
            ["room", ref words @ ..] => RoomRecord::of_words(words).map(Record::Room),
            ["member", name, "of", room, "reads", port] => Some(Record::Member {
                name: Name::new(name)?,
                room: Name::new(room)?,
                port: port.parse().ok()?,
            }),
            ["behind", name, "of", room, "at", last] => Some(Record::Behind {
                name: Name::new(name)?,
                room: Name::new(room)?,
                last: last.parse().ok()?,
            }),
            _ => None,
        }
    }
}

impl RoomRecord {
    fn of_words(words: &[&str]) -> Option<RoomRecord> {
        let (words, witness) = match words {
            [words @ .., "witness", port] => (words, Some(port.parse().ok()?)),
            words => (words, None),
        };
        let [room, "queue", queue, "channel", channel, "published", published] = words else {
            return None;
        };
        Some(RoomRecord {
            room: Name::new(room)?,
            queue: queue.parse().ok()?,
            channel: channel.parse().ok()?,
            published: published.parse().ok()?,
            witness,
        })
    }
}

impl fmt::Display for RoomRecord {
    fn fmt(&self, f: &mut fmt::Formatter<'_>) -> fmt::Result {
        let (room, queue, channel, published) = (&self.room, self.queue, self.channel, self.published);
        write!(f, "room {room} queue {queue} channel {channel} published {published}")?;
        self.witness.map_or(Ok(()), |port| write!(f, " witness {port}"))
    }
}

impl fmt::Display for Record {
    fn fmt(&self, f: &mut fmt::Formatter<'_>) -> fmt::Result {
        match self {
            Record::Chat => f.write_str("chat 2"),
            Record::Room(record) => record.fmt(f),
            Record::Member { name, room, port } => write!(f, "member {name} of {room} reads {port}"),
            Record::Behind { name, room, last } => write!(f, "behind {name} of {room} at {last}"),
        }
    }
}

#[cfg(test)]
mod tests {
    use super::*;

    fn name(word: &str) -> Name {
        Name::new(word).unwrap()
    }

    fn written(message: &impl Message) -> Vec<u8> {
        let mut bytes = Vec::new();
        message.write_to(&mut bytes);
        bytes
    }

    #[test]
    fn a_line_is_read_back() {
        for text in ["hello there", " ", "grüß dich", "a: b"] {
            let said = Said {
                number: 7,
                name: name("ann"),
                text: text.to_owned(),
            };
            assert_eq!(Said::from_bytes(&written(&said)), Some(said));
        }
        for wrong in [
            "",
            "7",
            "7 ann",
            "7  hello",
            "7 an/n hello",
            "x ann hello",
            " ann hello",
        ] {
            assert_eq!(Said::from_bytes(wrong.as_bytes()), None);
        }
        assert_eq!(Said::from_bytes(b"7 ann \xff"), None);
    }

    #[test]
    fn a_record_is_read_back() {
        let (ann, kitchen) = (name("ann"), name("kitchen"));
        let records = [
            Record::Chat,
            Record::Room(RoomRecord {
                room: kitchen.clone(),
                queue: 4,
                channel: 5,
                published: 345,
                witness: None,
            }),
            Record::Room(RoomRecord {
                room: kitchen.clone(),
                queue: 4,
                channel: 5,
                published: 0,
                witness: Some(6),
            }),
            Record::Member {
                name: ann.clone(),
                room: kitchen.clone(),
                port: 9,
            },
            Record::Behind {
                name: ann,
                room: kitchen,
                last: 345,
            },
        ];
        for record in records {
            assert_eq!(Record::from_bytes(&written(&record)), Some(record));
        }
        for wrong in [
            "",
            "room kitchen",
            "room kitchen queue 4 channel 5",
            "room kitchen queue x channel 5 published 0",
            "room kitchen queue 4 channel 5 published 0 witness",
            "room kitchen queue 4 channel 5 published 0 witness 6 7",
            "chat 1",
            "member ann of kitchen reads 9 ",
            "5",
        ] {
            assert_eq!(Record::from_bytes(wrong.as_bytes()), None);
        }
    }
}
