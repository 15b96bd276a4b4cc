//! What one client says, and what the server answers.

use crate::connection::Connection;
use crate::directory::{Found, NoPlace, Place};
use crate::lines::{Line, Lines};
use crate::messages::Said;
use crate::outbox::{Ended, Stream};
use crate::protocol::{parse, Name, Refusal, Request, Wanted, HELP};
use crate::seats::Lent;
use crate::server::Server;
use crate::writer::is_timeout;
use seryugo::Error;
use std::io;
use std::net::TcpStream;
use std::sync::Arc;
use std::thread;
use std::time::Duration;

/// How long, and how often, the server looks whether a client that shut its sending side has closed the connection.
const PROBE: Duration = Duration::from_millis(25);
const PROBES: u32 = 20;

/// Why a request has no answer.
enum Trouble {
    Refused(Refusal),
    Failed(Error),
    Ended,
}

impl From<Refusal> for Trouble {
    fn from(refusal: Refusal) -> Trouble {
        Trouble::Refused(refusal)
    }
}

impl From<Error> for Trouble {
    fn from(error: Error) -> Trouble {
        Trouble::Failed(error)
    }
}

impl From<Ended> for Trouble {
    fn from(Ended: Ended) -> Trouble {
        Trouble::Ended
    }
}

impl From<NoPlace> for Trouble {
    fn from(why: NoPlace) -> Trouble {
        match why {
            NoPlace::Refused(refusal) => Trouble::Refused(refusal),
            NoPlace::Failed(error) => Trouble::Failed(error),
        }
    }
}

/// Reads what a client says, until the connection ends.
pub fn run<'s, 'a>(server: &'s Server<'a>, connection: &'s Arc<Connection>, seat: Lent<'s, 'a>) {
    let mut session = Session::new(server, connection, seat);
    let mut lines = Lines::new(&connection.socket);
    while !connection.outbox.has_ended() {
        match lines.next() {
            Ok(Line::Whole(line)) => session.answer(parse(line)),
            Ok(Line::TooLong) => session.answer(Err(Refusal::TooLong)),
            Ok(Line::End) => session.listen_only(),
            Err(error) if is_timeout(&error) || error.kind() == io::ErrorKind::Interrupted => {}
            Err(_) => connection.outbox.cut(),
        }
    }
}

/// What one client has said.
pub struct Session<'s, 'a> {
    server: &'s Server<'a>,
    connection: &'s Arc<Connection>,
    seat: Lent<'s, 'a>,
    name: Option<Name>,
    place: Option<Place>,
}

impl<'s, 'a> Session<'s, 'a> {
    pub fn new(server: &'s Server<'a>, connection: &'s Arc<Connection>, seat: Lent<'s, 'a>) -> Session<'s, 'a> {
        Session {
            server,
            connection,
            seat,
            name: None,
            place: None,
        }
    }

    /// Does what a line asks for.
    pub fn answer(&mut self, request: Result<Request<'_>, Refusal>) {
        let outbox = &self.connection.outbox;
        let answered = request.map_err(Trouble::Refused).and_then(|request| self.perform(request));
        match answered {
            Ok(()) | Err(Trouble::Ended) => {}
            // If the connection has ended, the loop that reads ends too.
            Err(Trouble::Refused(refusal)) => drop(outbox.push(refusal)),
            Err(Trouble::Failed(error)) => self.server.end_failed(self.connection, error),
        }
    }

    fn perform(&mut self, request: Request<'_>) -> Result<(), Trouble> {
        match request {
            Request::Nothing => Ok(()),
            Request::Say(text) => self.say(text),
            Request::Name(name, seen) => self.take_name(name, seen),
            Request::Join(room) => self.join(&room),
            Request::Leave => self.leave(),
            Request::Who => self.tell_members(),
            Request::History(wanted) => self.tell_history(wanted),
            Request::Quit => self.quit(),
            Request::Help => self.help(),
        }
    }

    fn named(&self) -> Result<&Name, Refusal> {
        self.name.as_ref().ok_or(Refusal::NoName)
    }

    fn placed(&self) -> Result<&Place, Refusal> {
        self.named()?;
        self.place.as_ref().ok_or(Refusal::NoRoom)
    }

    /// Sends a line to the room's queue. The client gets it back once it is kept.
    fn say(&mut self, text: &str) -> Result<(), Trouble> {
        let room = self.placed()?.room.clone();
        let name = self.named()?.clone();
        self.connection.outbox.note_said()?;
        let mut last = room.numbering();
        let said = Arc::new(Said {
            number: *last + 1,
            name,
            text: text.to_owned(),
        });
        self.seat.send(room.queue, &*said).map_err(Error::from)?;
        *last = said.number;
        self.server.keeper.add(room.clone(), said);
        Ok(())
    }

    /// Gives the connection its name, and goes on where the name's last connection ended.
    fn take_name(&mut self, name: Name, seen: Option<u64>) -> Result<(), Trouble> {
        if self.name.is_some() {
            return Err(Refusal::AlreadyNamed.into());
        }
        self.check_seen(&name, seen)?;
        self.server.connections.take_name(self.connection, &name)?;
        self.name = Some(name.clone());
        match self.server.directory.find(&mut self.seat, &name)? {
            Found::Nowhere => self.connection.outbox.push(format_args!("hello {name}"))?,
            Found::Behind(refusal) => {
                self.server.keeper.keep_all();
                self.connection.outbox.push(format_args!("hello {name}\n{refusal}"))?;
            }
            Found::In(place) => self.come_back(&name, place, seen)?,
        }
        Ok(())
    }

    /// Nothing can be seen that wasn't said.
    fn check_seen(&self, name: &Name, seen: Option<u64>) -> Result<(), Trouble> {
        match (seen, self.server.directory.place(name)) {
            (Some(seen), Some(place)) if seen > place.room.last() => Err(Refusal::BadNumber.into()),
            _ => Ok(()),
        }
    }

    /// Sends what the client hasn't seen. The server can't know whether the last message that it received for this member reached
    /// the client. So it sends that one again, if the client doesn't say what it has seen. What the file lacks isn't sent. In a short
    /// file a place starts after what it had received, which may be more than the client has seen.
    fn come_back(&mut self, name: &Name, place: Place, seen: Option<u64>) -> Result<(), Trouble> {
        let board = self.server.board;
        let last = place.room.last();
        let received = place.received(board)?;
        let unsaid = received.saturating_sub(1).max(place.start(board)?);
        let seen = seen.unwrap_or(unsaid).min(last);
        self.server.keeper.keep_all();
        let past = place.room.history.between(seen + 1, received);
        let seen = past.first().map_or(seen.max(received), |first| first.number - 1);
        let outbox = &self.connection.outbox;
        outbox.push(format_args!("hello {name} room {} next {} last {last}", place.room.name, seen + 1))?;
        past.iter().try_for_each(|said| outbox.push(format_args!("{} {said}", said.number)))?;
        outbox.set_stream(Some(Stream {
            port: place.port,
            seen,
            earlier: last,
        }));
        self.place = Some(place);
        Ok(())
    }

    fn join(&mut self, room: &Name) -> Result<(), Trouble> {
        let name = self.named()?.clone();
        if let Some(place) = &self.place {
            return Err(Refusal::InRoom(place.room.name.clone()).into());
        }
        let place = self.server.directory.join(&mut self.seat, &name, room)?;
        let start = place.start(self.server.board)?;
        let earlier = place.room.last();
        self.server.keeper.keep_all();
        self.connection.outbox.push(format_args!("joined {room} next {}", start + 1))?;
        self.connection.outbox.set_stream(Some(Stream {
            port: place.port,
            seen: 0,
            earlier,
        }));
        self.place = Some(place);
        Ok(())
    }

    fn leave(&mut self) -> Result<(), Trouble> {
        let room = self.placed()?.room.clone();
        let name = self.named()?.clone();
        self.connection.outbox.await_returned()?;
        self.connection.outbox.set_stream(None);
        self.place = None;
        self.server.directory.leave(&mut self.seat, &name)?;
        self.server.keeper.keep_all();
        Ok(self.connection.outbox.push(format_args!("left {}", room.name))?)
    }

    fn tell_members(&self) -> Result<(), Trouble> {
        let room = &self.placed()?.room;
        let outbox = &self.connection.outbox;
        for (name, owed) in self.server.directory.members(room)? {
            let presence = match self.server.connections.of_name(&name) {
                Some(_) => "here",
                None => "away",
            };
            outbox.push(format_args!("member {name} {presence} unread {owed}"))?;
        }
        Ok(outbox.push(format_args!("end of members of {}", room.name))?)
    }

    fn tell_history(&self, wanted: Wanted) -> Result<(), Trouble> {
        let room = &self.placed()?.room;
        let outbox = &self.connection.outbox;
        let last = room.history.last();
        let (from, to) = match wanted {
            Wanted::Last(count) => (last.saturating_sub(count) + 1, last),
            Wanted::Between(from, to) => (from, to),
        };
        let found = room.history.between(from, to);
        found.iter().try_for_each(|said| outbox.push(format_args!("history {} {said}", said.number)))?;
        Ok(outbox.push(format_args!("end of history of {} last {last}", room.name))?)
    }

    fn quit(&self) -> Result<(), Trouble> {
        self.connection.outbox.await_returned()?;
        self.connection.outbox.end("bye");
        Ok(())
    }

    fn help(&self) -> Result<(), Trouble> {
        HELP.iter().try_for_each(|line| self.connection.outbox.push(format_args!("help {line}")))?;
        Ok(self.connection.outbox.push("end of help")?)
    }

    /// The client has shut its sending side. If it has closed the connection, a line that is written fails soon; nothing of its
    /// room is received for it meanwhile. Else it gets what its room says, until it closes the connection.
    fn listen_only(&self) {
        let outbox = &self.connection.outbox;
        if self.place.is_none() {
            outbox.end("bye");
            return;
        }
        let stream = outbox.set_stream(None);
        if outbox.push("half-closed: you said your last line, and still get what your room says").is_err() {
            return;
        }
        for _ in 0..PROBES {
            thread::sleep(PROBE);
            if outbox.has_ended() || has_failed(&self.connection.socket) {
                return outbox.cut();
            }
        }
        outbox.set_stream(stream);
        while !outbox.has_ended() {
            thread::sleep(PROBE * PROBES);
            if has_failed(&self.connection.socket) {
                outbox.cut();
            }
        }
    }
}

fn has_failed(socket: &TcpStream) -> bool {
    !matches!(socket.take_error(), Ok(None))
}
