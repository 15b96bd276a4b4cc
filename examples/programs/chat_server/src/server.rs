//! The server: what all its threads share, and the threads.

use crate::arguments::Limits;
use crate::connection::{Connection, Connections};
use crate::directory::Directory;
use crate::keeper::Keeper;
use crate::protocol::Refusal;
use crate::seats::Seats;
use crate::{session, writer};
use seryugo::{Error, Switchboard};
use std::io::Write;
use std::net::{Shutdown, TcpListener, TcpStream};
use std::sync::atomic::{AtomicBool, Ordering};
use std::sync::Arc;
use std::thread::{self, Scope};
use std::time::Duration;

/// How long the server waits after it couldn't accept a connection, as when all file descriptors are used.
const PAUSE: Duration = Duration::from_millis(50);

pub struct Server<'a> {
    pub board: &'a Switchboard,
    pub keeper: &'a Keeper,
    pub directory: &'a Directory<'a>,
    pub seats: Seats<'a>,
    pub connections: Connections,
    pub limits: Limits,
    pub is_ending: AtomicBool,
}

impl Server<'_> {
    /// Accepts connections until the server ends. Each has its threads.
    pub fn accept<'scope>(&'scope self, listener: &TcpListener, scope: &'scope Scope<'scope, '_>) {
        for socket in listener.incoming() {
            if self.is_ending.load(Ordering::Acquire) {
                return;
            }
            match socket {
                Ok(socket) => self.welcome(socket, scope),
                Err(_) => thread::sleep(PAUSE),
            }
        }
    }

    fn welcome<'scope>(&'scope self, socket: TcpStream, scope: &'scope Scope<'scope, '_>) {
        let refused = socket.try_clone();
        if let Some(connection) = self.connections.add(socket, self.limits.clients) {
            let serving = connection.clone();
            if thread::Builder::new().spawn_scoped(scope, move || self.serve(&serving)).is_ok() {
                return;
            }
            self.connections.remove(&connection);
        }
        // The client that can't be served may have gone already.
        if let Ok(mut socket) = refused {
            let _ = writeln!(socket, "{}", Refusal::ServerFull(self.limits.clients));
            let _ = socket.shutdown(Shutdown::Write);
        }
    }

    /// Serves one client: this thread reads, and another one writes.
    fn serve(&self, connection: &Arc<Connection>) {
        match (self.seats.lend(), self.seats.lend()) {
            (Ok(seat), Ok(mut other)) => thread::scope(|scope| {
                let write = move || writer::run(self, connection, &mut other);
                match thread::Builder::new().spawn_scoped(scope, write) {
                    Ok(_) => session::run(self, connection, seat),
                    Err(_) => connection.outbox.cut(),
                }
            }),
            _ => connection.outbox.cut(),
        }
        self.connections.free_name(connection);
        connection.linger();
        self.connections.remove(connection);
    }

    /// Ends a connection for which a call failed. If the file takes no more, the server ends: no client hears of it before.
    pub fn end_failed(&self, connection: &Connection, error: Error) {
        if matches!(error, Error::FileFull(_) | Error::FileLost(_)) {
            connection.outbox.cut();
            self.keeper.fail(error);
        } else {
            connection.outbox.end(format_args!("error failed: {error}"));
        }
    }
}
