//! What a server does with the switchboard that an earlier one left, before it listens.

use crate::directory::{Books, Objects, Room};
use crate::history::History;
use crate::messages::{Record, RoomRecord, Said};
use crate::server::Server;
use seryugo::{Call, Channel, Error, MVar, Message, Object, Port, Seat, Switchboard};
use std::collections::{HashMap, VecDeque};
use std::fmt;
use std::sync::Arc;

/// Why the switchboard isn't one of a chat server.
#[derive(Debug)]
pub enum Foreign {
    /// The first object isn't the record of a chat server.
    NoChat,
    /// This record can't be read, or names what isn't there.
    BadRecord(u64),
    /// A message can't be read, or one before it is missing.
    BadMessage,
    Failed(Error),
}

impl fmt::Display for Foreign {
    fn fmt(&self, f: &mut fmt::Formatter<'_>) -> fmt::Result {
        match self {
            Foreign::NoChat => f.write_str("its first object isn't the record of a chat server"),
            Foreign::BadRecord(number) => write!(f, "object {number} is no record of a chat server"),
            Foreign::BadMessage => f.write_str("a message of the journal is not a line that was said"),
            Foreign::Failed(error) => error.fmt(f),
        }
    }
}

impl From<Error> for Foreign {
    fn from(error: Error) -> Foreign {
        Foreign::Failed(error)
    }
}

/// What an earlier server left.
#[derive(Default)]
pub struct Left {
    pub books: Books,
    /// The ports to close: a server was killed between two calls, and no member reads them.
    pub strays: Vec<Port<Said>>,
}

impl Left {
    /// Reads all objects of the switchboard. A room of a server that had no witnesses gets one.
    pub fn on(board: &Switchboard) -> Result<Left, Foreign> {
        let mut found = Found::on(board)?;
        // A member's record names its room. It may be in an older variable than the room's, since free ones are used again.
        found.records.sort_by_key(|(_, record)| !matches!(record, Record::Room(_)));
        let mut reader = Reader {
            board,
            seat: board.seat()?,
            messages: Messages::on(board)?,
            books: Books::default(),
        };
        for (slot, record) in found.records {
            let number = slot.number();
            reader.add(slot, record)?.ok_or(Foreign::BadRecord(number))?;
        }
        let mut books = reader.books;
        found.free.into_iter().for_each(|slot| books.add_free(slot));
        let mut strays = Vec::new();
        for port in found.ports {
            if board.is_open(port)? && !books.is_read(port) {
                strays.push(port);
            }
        }
        Ok(Left { books, strays })
    }
}

/// The objects that an earlier server left.
#[derive(Default)]
struct Found {
    records: Vec<(MVar<Record>, Record)>,
    free: Vec<MVar<Record>>,
    ports: Vec<Port<Said>>,
}

impl Found {
    /// Looks at all objects of the switchboard.
    fn on(board: &Switchboard) -> Result<Found, Foreign> {
        let mut found = Found::default();
        for number in 0.. {
            match board.mvar::<Record>(number) {
                Ok(slot) => found.add_slot(board, slot)?,
                Err(Error::NoSuch(_)) => break,
                Err(Error::WrongKind(_)) => found.ports.extend(board.port(number).ok()),
                Err(error) => return Err(error.into()),
            }
        }
        let is_chat = matches!(found.records.first(), Some((slot, Record::Chat)) if slot.number() == 0);
        if board.entries() > 0 && !is_chat {
            return Err(Foreign::NoChat);
        }
        Ok(found)
    }

    fn add_slot(&mut self, board: &Switchboard, slot: MVar<Record>) -> Result<(), Foreign> {
        match board.held(slot) {
            Ok(Some(record)) => self.records.push((slot, record)),
            Ok(None) => self.free.push(slot),
            Err(Error::Unreadable { .. }) if slot.number() == 0 => return Err(Foreign::NoChat),
            Err(Error::Unreadable { .. }) => return Err(Foreign::BadRecord(slot.number())),
            Err(error) => return Err(error.into()),
        }
        Ok(())
    }
}

/// The messages that the switchboard still has.
#[derive(Default)]
struct Messages {
    /// Those of each queue.
    queued: HashMap<u64, VecDeque<Arc<Said>>>,
    /// The number of the last one on each channel.
    published: HashMap<u64, u64>,
}

impl Messages {
    /// Finds them in a short journal: nobody can look into a mailbox, and leave all there.
    fn on(board: &Switchboard) -> Result<Messages, Foreign> {
        let mut messages = Messages::default();
        for entry in board.compact()?.iter() {
            match entry.call {
                Call::Send(queue, said) => messages.queued.entry(queue).or_default().push_back(Arc::new(read(&said)?)),
                Call::Multicast(channel, said) => drop(messages.published.insert(channel, read(&said)?.number)),
                _ => {}
            }
        }
        Ok(messages)
    }
}

fn read(said: &[u8]) -> Result<Said, Foreign> {
    Said::from_bytes(said).ok_or(Foreign::BadMessage)
}

/// Reads records into books.
struct Reader<'a> {
    board: &'a Switchboard,
    seat: Seat<'a>,
    messages: Messages,
    books: Books,
}

impl Reader<'_> {
    /// Adds a record. Returns `None` if it names an object of another kind, or a room that isn't there.
    fn add(&mut self, slot: MVar<Record>, record: Record) -> Result<Option<()>, Foreign> {
        match record {
            Record::Chat => Ok(Some(())),
            Record::Room(record) => self.add_room(slot, record),
            Record::Member { name, room, port } => match self.board.port(port) {
                Ok(port) => Ok(self.books.add_member(name, &room, port, slot)),
                Err(_) => Ok(None),
            },
            Record::Behind { name, room, last } => {
                self.books.add_behind(name, room, last, slot);
                Ok(Some(()))
            }
        }
    }

    fn add_room(&mut self, slot: MVar<Record>, record: RoomRecord) -> Result<Option<()>, Foreign> {
        let (Ok(queue), Ok(channel)) = (self.board.mailbox(record.queue), self.board.channel(record.channel)) else {
            return Ok(None);
        };
        let queued = self.messages.queued.remove(&record.queue).unwrap_or_default();
        let history = History::of(queued).ok_or(Foreign::BadMessage)?;
        let counted = self.board.sent(channel)?;
        let published = self.published(&record, counted, history.first());
        if history.first().is_some() && published > history.last() {
            return Ok(None);
        }
        let name = record.room.clone();
        let Some(witness) = self.witness(slot, RoomRecord { published, ..record }, channel)? else {
            return Ok(None);
        };
        let objects = Objects {
            queue,
            channel,
            witness,
        };
        self.books.add_room(Room::new(name, objects, history, published, counted));
        Ok(Some(()))
    }

    /// The number of the last message that was published. If the room has no witness yet, some may have been that are after it:
    /// they are published again.
    fn published(&self, record: &RoomRecord, counted: u64, first: Option<u64>) -> u64 {
        let on_channel = self.messages.published.get(&record.channel).copied().unwrap_or(0);
        // What the queue no longer has was published.
        let forgotten = first.unwrap_or(0).saturating_sub(1);
        record.published.max(counted).max(on_channel).max(forgotten)
    }

    /// The room's witness: an open port of the channel. If the record has none, makes one.
    fn witness(
        &mut self,
        slot: MVar<Record>,
        record: RoomRecord,
        channel: Channel<Said>,
    ) -> Result<Option<Port<Said>>, Error> {
        let Some(number) = record.witness else {
            let made = self.seat.port(channel)?;
            let witness = Some(made.number());
            self.seat.swap(slot, Record::Room(RoomRecord { witness, ..record }))?;
            return Ok(Some(made));
        };
        match self.board.port(number) {
            Ok(port) if self.board.channel_of(port)? == channel && self.board.is_open(port)? => Ok(Some(port)),
            _ => Ok(None),
        }
    }
}

/// Finishes what an earlier server began: closes the ports that no member reads, notes who fell behind, and publishes what is kept.
pub fn mend(server: &Server<'_>, strays: &[Port<Said>]) -> Result<(), Error> {
    let (board, directory) = (server.board, server.directory);
    let mut seat = board.seat()?;
    if board.entries() == 0 {
        seat.mvar_init(Record::Chat)?;
    }
    for port in strays {
        seat.close(*port)?;
    }
    directory.note_closed(&mut seat)?;
    for room in directory.all_rooms() {
        let unpublished = room.unpublished();
        unpublished.iter().try_for_each(|said| room.publish(board, &mut seat, said))?;
    }
    server.keeper.keep_all();
    Ok(())
}
