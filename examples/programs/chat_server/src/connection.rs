//! The connections that are open, and which names they have.

use crate::outbox::Outbox;
use crate::protocol::{Name, Refusal};
use seryugo::explore::{Condition, Guard, Lock};
use std::collections::HashMap;
use std::io::{self, ErrorKind, Read};
use std::net::{SocketAddr, TcpStream};
use std::sync::{Arc, Mutex, PoisonError};
use std::time::{Duration, Instant};

/// How often a thread that reads or writes looks whether its connection has ended.
const LOOK: Duration = Duration::from_millis(250);

/// How long a name's earlier connection may take to end: longer than its last lines may.
const PATIENCE: Duration = Duration::from_secs(15);

/// How long the server reads on after the end of a connection.
const LINGER: Duration = Duration::from_secs(2);

/// One client's connection.
pub struct Connection {
    number: u64,
    pub socket: TcpStream,
    pub outbox: Outbox,
    name: Mutex<Option<Name>>,
}

impl Connection {
    fn new(number: u64, socket: TcpStream) -> io::Result<Connection> {
        socket.set_nodelay(true)?;
        socket.set_read_timeout(Some(LOOK))?;
        socket.set_write_timeout(Some(LOOK))?;
        Ok(Connection {
            number,
            socket,
            outbox: Outbox::default(),
            name: Mutex::default(),
        })
    }

    pub fn name(&self) -> Option<Name> {
        self.name.lock().unwrap_or_else(PoisonError::into_inner).clone()
    }

    /// Reads and drops what the client still sends, for a while. If the socket were closed before, the client could lose the
    /// last lines that it was sent.
    pub fn linger(&self) {
        let until = Instant::now() + LINGER;
        let mut rest = [0; 4_096];
        while Instant::now() < until {
            match (&self.socket).read(&mut rest) {
                Ok(0) => return,
                Ok(_) => {}
                Err(error) if matches!(error.kind(), ErrorKind::WouldBlock | ErrorKind::TimedOut) => {}
                Err(_) => return,
            }
        }
    }
}

/// All connections.
#[derive(Default)]
pub struct Connections {
    list: Lock<List>,
    /// A connection has ended.
    ended: Condition,
}

#[derive(Default)]
struct List {
    count: u64,
    open: HashMap<u64, Arc<Connection>>,
    named: HashMap<Name, Arc<Connection>>,
    /// Whether no more are added.
    is_closed: bool,
}

impl Connections {
    /// Adds a connection, unless there are this many. Returns `None` if there are, or if the socket has failed.
    pub fn add(&self, socket: TcpStream, most: u64) -> Option<Arc<Connection>> {
        let mut list = self.lock();
        if list.is_closed || list.open.len() as u64 >= most {
            return None;
        }
        let number = list.count;
        let connection = Arc::new(Connection::new(number, socket).ok()?);
        list.count += 1;
        list.open.insert(number, connection.clone());
        Some(connection)
    }

    /// Gives a connection its name. If another one has the name, that one ends first.
    pub fn take_name(&self, connection: &Arc<Connection>, name: &Name) -> Result<(), Refusal> {
        let has_earlier = |list: &mut List| {
            let earlier = list.named.get(name);
            earlier.is_some_and(|earlier| {
                earlier.outbox.end("bye replaced: a later connection has your name");
                true
            })
        };
        let (mut list, is_in_use) = self.ended.wait_timeout_while(self.lock(), PATIENCE, has_earlier);
        if is_in_use {
            return Err(Refusal::NameInUse);
        }
        list.named.insert(name.clone(), connection.clone());
        *connection.name.lock().unwrap_or_else(PoisonError::into_inner) = Some(name.clone());
        Ok(())
    }

    /// The connection of a name.
    pub fn of_name(&self, name: &Name) -> Option<Arc<Connection>> {
        self.lock().named.get(name).cloned()
    }

    /// Frees the name of a connection whose threads have ended.
    pub fn free_name(&self, connection: &Connection) {
        if let Some(name) = connection.name() {
            self.lock().named.remove(&name);
        }
        self.ended.notify_all();
    }

    pub fn remove(&self, connection: &Connection) {
        self.lock().open.remove(&connection.number);
    }

    pub fn are_open(&self) -> bool {
        !self.lock().open.is_empty()
    }

    /// Ends all connections with this line. From then on none is added.
    pub fn end_all(&self, last: &str) {
        let mut list = self.lock();
        list.is_closed = true;
        list.open.values().for_each(|connection| connection.outbox.end(last));
    }

    fn lock(&self) -> Guard<'_, List> {
        self.list.lock()
    }
}

/// An address at which a socket that listens here can be reached.
pub fn reachable(address: SocketAddr) -> SocketAddr {
    let mut reachable = address;
    if address.ip().is_unspecified() {
        let ip = match address {
            SocketAddr::V4(_) => std::net::Ipv4Addr::LOCALHOST.into(),
            SocketAddr::V6(_) => std::net::Ipv6Addr::LOCALHOST.into(),
        };
        reachable.set_ip(ip);
    }
    reachable
}
