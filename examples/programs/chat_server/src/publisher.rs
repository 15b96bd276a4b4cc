//! Publishes what is kept: multicasts it on the channels of the rooms.

use crate::directory::Room;
use crate::keeper::Messages;
use crate::queue::Queue;
use crate::server::Server;
use seryugo::{Error, Object, Seat};
use std::collections::HashMap;
use std::sync::atomic::Ordering;

/// After this many messages, as a part of the limit, the members of a room are counted that are too far behind.
const PART: u64 = 10;

/// Publishes, until the keeper has ended.
pub fn run(server: &Server<'_>, kept: &Queue) -> Result<(), Error> {
    let mut publisher = Publisher {
        server,
        seat: server.board.seat()?,
        unchecked: HashMap::new(),
    };
    while let Some(messages) = kept.next() {
        publisher.publish_all(&messages)?;
    }
    Ok(())
}

struct Publisher<'s, 'a> {
    server: &'s Server<'a>,
    seat: Seat<'a>,
    /// How many messages of each room, by its queue's number, were published since its members were looked at.
    unchecked: HashMap<u64, u64>,
}

impl Publisher<'_, '_> {
    fn publish_all(&mut self, messages: &Messages) -> Result<(), Error> {
        for (room, said) in messages {
            // The next server publishes what this one hasn't.
            if self.server.is_ending.load(Ordering::Acquire) {
                return Ok(());
            }
            room.publish(self.server.board, &mut self.seat, said)?;
            room.forget(&mut self.seat, self.server.limits.history)?;
            self.check(room)?;
        }
        Ok(())
    }

    /// Drops the members that are too far behind, once a part of the limit was published.
    fn check(&mut self, room: &Room) -> Result<(), Error> {
        let limit = self.server.limits.owed;
        let unchecked = self.unchecked.entry(room.queue.number()).or_insert(0);
        *unchecked += 1;
        if *unchecked < (limit / PART).max(1) {
            return Ok(());
        }
        *unchecked = 0;
        for (name, refusal) in self.server.directory.drop_behind(&mut self.seat, room, limit)? {
            if let Some(connection) = self.server.connections.of_name(&name) {
                connection.outbox.end(refusal);
            }
        }
        Ok(())
    }
}
