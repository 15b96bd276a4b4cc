//! The rooms, and who has a place in which: kept as records in m-variables of the switchboard.
//!
//! A full m-variable is a record, and an empty one is free for the next. So the journal has every change, and a later server
//! finds all records among the objects.

use crate::history::History;
use crate::messages::{Record, RoomRecord, Said};
use crate::protocol::{Name, Refusal};
use seryugo::explore::{Guard, Lock};
use seryugo::{Channel, Error, MVar, Mailbox, Object, Port, Seat, Switchboard};
use std::collections::{BTreeMap, HashMap};
use std::sync::atomic::{AtomicU64, Ordering};
use std::sync::Arc;

/// A room. What is said goes into the queue; once it is kept, on the channel. The queue's last messages stay there.
#[derive(Debug)]
pub struct Room {
    pub name: Name,
    pub queue: Mailbox<Said>,
    pub channel: Channel<Said>,
    /// A port that is always owed the last message on the channel. So a later server finds that one, and its number.
    witness: Port<Said>,
    pub history: History,
    /// How many messages were published before those that the channel counts: a short journal's counts begin at 0.
    before: u64,
    /// The number of the last message that was said.
    last: Lock<u64>,
    /// The number of the last message that was published. Only the publisher changes it.
    published: AtomicU64,
}

/// What a room has in the switchboard.
pub struct Objects {
    pub queue: Mailbox<Said>,
    pub channel: Channel<Said>,
    pub witness: Port<Said>,
}

impl Room {
    /// A room with these messages, of which those up to `published` are published. The channel counts this many, and no more.
    pub fn new(name: Name, objects: Objects, history: History, published: u64, counted: u64) -> Room {
        Room {
            name,
            queue: objects.queue,
            channel: objects.channel,
            witness: objects.witness,
            before: published - counted,
            last: Lock::new(history.last().max(published)),
            history,
            published: AtomicU64::new(published),
        }
    }

    /// The number of the last message that was said.
    pub fn last(&self) -> u64 {
        *self.numbering()
    }

    /// Who has this lock gives the next message its number.
    pub fn numbering(&self) -> Guard<'_, u64> {
        self.last.lock()
    }

    fn published(&self) -> u64 {
        self.published.load(Ordering::Relaxed)
    }

    /// The messages that are kept and not published.
    pub fn unpublished(&self) -> Vec<Arc<Said>> {
        self.history.between(self.published() + 1, u64::MAX)
    }

    /// Publishes a message. Then the witness receives those before it.
    pub fn publish(&self, board: &Switchboard, seat: &mut Seat<'_>, said: &Said) -> Result<(), Error> {
        seat.multicast(self.channel, said)?;
        self.published.store(said.number, Ordering::Relaxed);
        while board.owed(self.witness)? > 1 {
            seat.recv_poll(self.witness)?;
        }
        Ok(())
    }

    /// Drops the oldest messages, so that this many are left of those that are published.
    pub fn forget(&self, seat: &mut Seat<'_>, most: u64) -> Result<(), Error> {
        while self.history.first().is_some_and(|first| self.published() - first >= most) {
            seat.recv_poll(self.queue)?;
            self.history.forget();
        }
        Ok(())
    }
}

/// A member's place.
#[derive(Clone, Debug)]
pub struct Place {
    pub room: Arc<Room>,
    pub port: Port<Said>,
    slot: MVar<Record>,
}

impl Place {
    /// The number of the last message before the place.
    pub fn start(&self, board: &Switchboard) -> Result<u64, Error> {
        Ok(self.room.before + board.start_of(self.port)?)
    }

    /// The number of the last message that was received here.
    pub fn received(&self, board: &Switchboard) -> Result<u64, Error> {
        Ok(self.start(board)? + board.got(self.port)?)
    }
}

/// Which place a name has.
#[derive(Debug)]
pub enum Found {
    Nowhere,
    In(Place),
    /// It had one, and fell behind.
    Behind(Refusal),
}

/// Why a name has no place now.
pub enum NoPlace {
    Refused(Refusal),
    Failed(Error),
}

impl From<Error> for NoPlace {
    fn from(error: Error) -> NoPlace {
        NoPlace::Failed(error)
    }
}

/// What one thread at a time changes.
#[derive(Default)]
pub struct Books {
    rooms: HashMap<Name, Arc<Room>>,
    places: BTreeMap<Name, Place>,
    /// Who fell behind: the room, the number of the last message, and the record.
    behind: HashMap<Name, (Name, u64, MVar<Record>)>,
    free: Vec<MVar<Record>>,
}

pub struct Directory<'a> {
    board: &'a Switchboard,
    most_rooms: u64,
    most_members: u64,
    books: Lock<Books>,
}

impl<'a> Directory<'a> {
    /// The directory with these books.
    pub fn new(board: &'a Switchboard, books: Books, rooms: u64, members: u64) -> Directory<'a> {
        Directory {
            board,
            most_rooms: rooms,
            most_members: members,
            books: Lock::new(books),
        }
    }

    /// How many rooms there are.
    pub fn rooms(&self) -> usize {
        self.lock().rooms.len()
    }

    pub fn all_rooms(&self) -> Vec<Arc<Room>> {
        self.lock().rooms.values().cloned().collect()
    }

    /// The place of a name, if it has one.
    pub fn place(&self, name: &Name) -> Option<Place> {
        self.lock().places.get(name).cloned()
    }

    /// The place of a name that comes back. If it fell behind, its record ends with this call.
    pub fn find(&self, seat: &mut Seat<'_>, name: &Name) -> Result<Found, Error> {
        let mut books = self.lock();
        if let Some(place) = books.places.get(name) {
            return Ok(Found::In(place.clone()));
        }
        let Some((room, last, slot)) = books.behind.get(name).cloned() else {
            return Ok(Found::Nowhere);
        };
        seat.take_poll(slot)?;
        books.behind.remove(name);
        books.free.push(slot);
        Ok(Found::Behind(Refusal::FellBehind { room, last }))
    }

    /// Gives a name a place in a room. The first who joins makes the room.
    pub fn join(&self, seat: &mut Seat<'_>, name: &Name, room: &Name) -> Result<Place, NoPlace> {
        let mut books = self.lock();
        if books.places.len() as u64 >= self.most_members {
            return Err(NoPlace::Refused(Refusal::MemberLimit(self.most_members)));
        }
        let room = match books.rooms.get(room) {
            Some(room) => room.clone(),
            None if books.rooms.len() as u64 >= self.most_rooms => {
                return Err(NoPlace::Refused(Refusal::RoomLimit(self.most_rooms)));
            }
            None => self.make_room(&mut books, seat, room)?,
        };
        let port = seat.port(room.channel)?;
        let record = Record::Member {
            name: name.clone(),
            room: room.name.clone(),
            port: port.number(),
        };
        let slot = self.write(&mut books, seat, record)?;
        let place = Place { room, port, slot };
        books.places.insert(name.clone(), place.clone());
        Ok(place)
    }

    fn make_room(&self, books: &mut Books, seat: &mut Seat<'_>, name: &Name) -> Result<Arc<Room>, Error> {
        let (queue, channel) = (seat.mailbox::<Said>()?, seat.channel::<Said>()?);
        let witness = seat.port(channel)?;
        let record = RoomRecord {
            room: name.clone(),
            queue: queue.number(),
            channel: channel.number(),
            published: 0,
            witness: Some(witness.number()),
        };
        self.write(books, seat, Record::Room(record))?;
        let objects = Objects {
            queue,
            channel,
            witness,
        };
        Ok(books.add_room(Room::new(name.clone(), objects, History::default(), 0, 0)))
    }

    /// Ends the place of a name: its record, and then its port.
    pub fn leave(&self, seat: &mut Seat<'_>, name: &Name) -> Result<(), Error> {
        let mut books = self.lock();
        let Some(place) = books.places.remove(name) else {
            return Ok(());
        };
        seat.take_poll(place.slot)?;
        books.free.push(place.slot);
        seat.close(place.port)?;
        Ok(())
    }

    /// Ends the places of all members of a room that are owed more messages than this: who they are, and why.
    pub fn drop_behind(&self, seat: &mut Seat<'_>, room: &Room, most: u64) -> Result<Vec<(Name, Refusal)>, Error> {
        let mut books = self.lock();
        let mut late = Vec::new();
        for (name, place) in books.places.iter().filter(|(_, place)| place.room.queue == room.queue) {
            if self.board.owed(place.port)? > most {
                late.push((name.clone(), place.clone()));
            }
        }
        late.into_iter().map(|(name, place)| self.drop_one(&mut books, seat, name, place)).collect()
    }

    fn drop_one(&self, books: &mut Books, seat: &mut Seat<'_>, name: Name, place: Place) -> Result<(Name, Refusal), Error> {
        seat.close(place.port)?;
        let last = place.received(self.board)?;
        let room = place.room.name.clone();
        let record = Record::Behind {
            name: name.clone(),
            room: room.clone(),
            last,
        };
        seat.swap(place.slot, &record)?;
        books.places.remove(&name);
        books.behind.insert(name.clone(), (room.clone(), last, place.slot));
        Ok((name, Refusal::FellBehind { room, last }))
    }

    /// Ends the places whose ports are closed: a server was killed while it dropped them.
    pub fn note_closed(&self, seat: &mut Seat<'_>) -> Result<(), Error> {
        let mut books = self.lock();
        let places: Vec<(Name, Place)> = books.places.iter().map(|(name, place)| (name.clone(), place.clone())).collect();
        for (name, place) in places {
            if !self.board.is_open(place.port)? {
                self.drop_one(&mut books, seat, name, place)?;
            }
        }
        Ok(())
    }

    /// The members of a room, in the order of their names, and how many messages each is owed.
    pub fn members(&self, room: &Room) -> Result<Vec<(Name, u64)>, Error> {
        let books = self.lock();
        let members = books.places.iter().filter(|(_, place)| place.room.queue == room.queue);
        members.map(|(name, place)| Ok((name.clone(), self.board.owed(place.port)?))).collect()
    }

    /// Fills a free slot, or makes one.
    fn write(&self, books: &mut Books, seat: &mut Seat<'_>, record: Record) -> Result<MVar<Record>, Error> {
        match books.free.pop() {
            Some(slot) => {
                seat.put(slot, &record)?;
                Ok(slot)
            }
            None => Ok(seat.mvar_init(record)?),
        }
    }

    fn lock(&self) -> Guard<'_, Books> {
        self.books.lock()
    }
}

impl Books {
    pub fn add_room(&mut self, room: Room) -> Arc<Room> {
        let room = Arc::new(room);
        self.rooms.insert(room.name.clone(), room.clone());
        room
    }

    /// Adds a member whose room is there.
    pub fn add_member(&mut self, name: Name, room: &Name, port: Port<Said>, slot: MVar<Record>) -> Option<()> {
        let room = self.rooms.get(room)?.clone();
        self.places.insert(name, Place { room, port, slot });
        Some(())
    }

    pub fn add_behind(&mut self, name: Name, room: Name, last: u64, slot: MVar<Record>) {
        self.behind.insert(name, (room, last, slot));
    }

    pub fn add_free(&mut self, slot: MVar<Record>) {
        self.free.push(slot);
    }

    /// Whether a member reads this port, or it is a room's witness.
    pub fn is_read(&self, port: Port<Said>) -> bool {
        self.places.values().any(|place| place.port == port) || self.rooms.values().any(|room| room.witness == port)
    }
}
