//! Writes to one client: the lines that are due, and the messages of its room as they come.

use crate::connection::Connection;
use crate::messages::Said;
use crate::outbox::Stream;
use crate::protocol::Name;
use crate::server::Server;
use crate::wait::Waiter;
use seryugo::{Error, Seat};
use std::io::{self, ErrorKind, Write};
use std::net::Shutdown;
use std::thread;

/// Why the writer ends before its last line.
enum Trouble {
    /// The client is gone, or reads too slowly for its last line.
    Write,
    Failed(Error),
}

impl From<Error> for Trouble {
    fn from(error: Error) -> Trouble {
        Trouble::Failed(error)
    }
}

/// Writes until the connection ends, and then ends the sending side of the socket.
pub fn run(server: &Server<'_>, connection: &Connection, seat: &mut Seat<'_>) {
    write_to(&connection.socket, server, connection, seat);
    let _ = connection.socket.shutdown(Shutdown::Write);
}

/// Writes to this until the connection ends.
pub fn write_to(output: impl Write, server: &Server<'_>, connection: &Connection, seat: &mut Seat<'_>) {
    connection.outbox.set_writer(thread::current());
    let mut writer = Writer {
        connection,
        output,
        waiter: Waiter::new(),
        line: Vec::new(),
    };
    if let Err(Trouble::Failed(error)) = writer.run(seat) {
        server.end_failed(connection, error);
        // Without the last line, there is nothing left to do for this client.
        let _ = writer.write(&connection.outbox.take().text);
    }
    connection.outbox.cut();
}

struct Writer<'s, W> {
    connection: &'s Connection,
    output: W,
    waiter: Waiter,
    line: Vec<u8>,
}

impl<W: Write> Writer<'_, W> {
    fn run(&mut self, seat: &mut Seat<'_>) -> Result<(), Trouble> {
        loop {
            let due = self.connection.outbox.take();
            self.write(&due.text)?;
            if due.is_last {
                return Ok(());
            }
            match due.stream {
                Some(stream) => self.follow(seat, stream)?,
                None => self.connection.outbox.await_change(),
            }
        }
    }

    /// Writes the messages of a port, until the outbox changes.
    fn follow(&mut self, seat: &mut Seat<'_>, stream: Stream) -> Result<(), Trouble> {
        let own = self.connection.name();
        while !self.connection.outbox.is_changed() {
            match self.receive(seat, stream)? {
                Some(Some(said)) => self.hand_over(&said, stream, own.as_ref())?,
                // The port is closed, and what comes next is in the outbox.
                Some(None) => {
                    self.connection.outbox.await_change();
                    return Ok(());
                }
                None => return Ok(()),
            }
        }
        Ok(())
    }

    /// The next message of the port, `Some(None)` if it is closed, or `None` if the outbox has changed before one came.
    fn receive(&self, seat: &mut Seat<'_>, stream: Stream) -> Result<Option<Option<Said>>, Error> {
        self.waiter.wait(seat.recv_async(stream.port), || self.connection.outbox.is_changed()).transpose()
    }

    fn hand_over(&mut self, said: &Said, stream: Stream, own: Option<&Name>) -> Result<(), Trouble> {
        let number = said.number;
        if number > stream.seen {
            let mut line = std::mem::take(&mut self.line);
            line.clear();
            // A list of bytes takes all that is written.
            let _ = writeln!(line, "{number} {said}");
            let written = self.write(&line);
            self.line = line;
            written?;
        }
        if number > stream.earlier && own == Some(&said.name) {
            self.connection.outbox.note_returned();
        }
        Ok(())
    }

    /// Writes all of a text. A socket has a time limit, after which the writer looks whether the connection has ended.
    fn write(&mut self, mut text: &[u8]) -> Result<(), Trouble> {
        while !text.is_empty() {
            match self.output.write(text) {
                Ok(0) => return Err(Trouble::Write),
                Ok(count) => text = &text[count..],
                Err(error) if error.kind() == ErrorKind::Interrupted => {}
                Err(error) if is_timeout(&error) && !self.connection.outbox.is_over() => {}
                Err(_) => return Err(Trouble::Write),
            }
        }
        Ok(())
    }
}

/// Whether a read or a write has failed since its time has passed.
pub fn is_timeout(error: &io::Error) -> bool {
    matches!(error.kind(), ErrorKind::WouldBlock | ErrorKind::TimedOut)
}
