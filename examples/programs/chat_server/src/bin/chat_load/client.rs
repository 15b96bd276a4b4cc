//! A client's connection, by lines.

use crate::Wrong;
use std::io::{BufRead, BufReader, ErrorKind, Read, Write};
use std::net::{Shutdown, SocketAddr, TcpStream};
use std::thread;
use std::time::{Duration, Instant};

/// How long a client waits for a line, or for a server that listens. What takes longer hangs, also on a slow machine.
const PATIENCE: Duration = Duration::from_secs(600);

/// How long it is quiet at the least, if no line is to come.
const QUIET: Duration = Duration::from_millis(300);

/// A connection to the server.
pub struct Client {
    socket: TcpStream,
    lines: BufReader<TcpStream>,
}

impl Client {
    /// Connects. If no server listens, tries again for a while: it may be started just now.
    pub fn connect(address: SocketAddr) -> Result<Client, Wrong> {
        let until = Instant::now() + PATIENCE;
        loop {
            match TcpStream::connect(address).and_then(Client::over) {
                Ok(client) => return Ok(client),
                Err(error) if Instant::now() > until => return Err(format!("can't connect: {error}")),
                Err(_) => thread::sleep(Duration::from_millis(20)),
            }
        }
    }

    fn over(socket: TcpStream) -> std::io::Result<Client> {
        // If no server listens, the system may choose the server's port for the client, which is then connected to itself.
        if socket.local_addr()? == socket.peer_addr()? {
            return Err(ErrorKind::ConnectionRefused.into());
        }
        socket.set_nodelay(true)?;
        socket.set_read_timeout(Some(PATIENCE))?;
        let lines = BufReader::new(socket.try_clone()?);
        Ok(Client { socket, lines })
    }

    /// Connects with a name, and reads the greeting.
    pub fn named(address: SocketAddr, name: &str) -> Result<Client, Wrong> {
        let mut client = Client::connect(address)?;
        client.say(&format!("/name {name}"))?;
        client.expect(&format!("hello {name}"))?;
        Ok(client)
    }

    /// Connects with a name that has no place, and joins a room.
    pub fn joined(address: SocketAddr, name: &str, room: &str) -> Result<Client, Wrong> {
        let mut client = Client::named(address, name)?;
        client.say(&format!("/join {room}"))?;
        client.expect_start(&format!("joined {room} next "))?;
        Ok(client)
    }

    pub fn send(&mut self, bytes: &[u8]) -> Result<(), Wrong> {
        self.socket.write_all(bytes).map_err(|error| format!("can't send: {error}"))
    }

    pub fn say(&mut self, line: &str) -> Result<(), Wrong> {
        self.send(format!("{line}\n").as_bytes())
    }

    /// The next line, or `None` at the end.
    pub fn line(&mut self) -> Result<Option<String>, Wrong> {
        let mut line = String::new();
        match self.lines.read_line(&mut line) {
            Ok(0) => Ok(None),
            Ok(_) if line.ends_with('\n') => Ok(Some(line.trim_end_matches('\n').to_owned())),
            Ok(_) => Err(format!("a line without its end: {line}")),
            Err(error) => Err(format!("can't receive: {error}")),
        }
    }

    /// The next line is this one.
    pub fn expect(&mut self, wanted: &str) -> Result<(), Wrong> {
        match self.line()? {
            Some(line) if line == wanted => Ok(()),
            other => Err(format!("{other:?} in place of {wanted:?}")),
        }
    }

    /// The next line begins so: what follows that.
    pub fn expect_start(&mut self, wanted: &str) -> Result<String, Wrong> {
        match self.line()? {
            Some(line) if line.starts_with(wanted) => Ok(line[wanted.len()..].to_owned()),
            other => Err(format!("{other:?} in place of {wanted:?}..")),
        }
    }

    /// Says a line, and the next line is this one.
    pub fn ask(&mut self, line: &str, wanted: &str) -> Result<(), Wrong> {
        self.say(line)?;
        self.expect(wanted)
    }

    /// No line is to come.
    pub fn expect_end(&mut self) -> Result<(), Wrong> {
        match self.line()? {
            None => Ok(()),
            Some(line) => Err(format!("{line:?} in place of the end")),
        }
    }

    /// No line comes for a while.
    pub fn expect_quiet(&mut self) -> Result<(), Wrong> {
        let wrong = |error: std::io::Error| error.to_string();
        self.socket.set_read_timeout(Some(QUIET)).map_err(wrong)?;
        let mut line = String::new();
        let read = self.lines.read_line(&mut line);
        self.socket.set_read_timeout(Some(PATIENCE)).map_err(wrong)?;
        match read {
            Err(_) => Ok(()),
            Ok(_) => Err(format!("{line:?} in place of nothing")),
        }
    }

    /// The same connection, for a thread that sends while another one receives.
    pub fn second(&self) -> Result<Client, Wrong> {
        self.socket.try_clone().and_then(Client::over).map_err(|error| error.to_string())
    }

    /// Sends no more.
    pub fn shut(&mut self) -> Result<(), Wrong> {
        self.socket.shutdown(Shutdown::Write).map_err(|error| error.to_string())
    }

    /// Ends well.
    pub fn quit(mut self) -> Result<(), Wrong> {
        self.say("/quit")?;
        self.expect("bye")?;
        self.expect_end()
    }

    /// Reads all lines to the end.
    pub fn rest(&mut self) -> Result<Vec<String>, Wrong> {
        let mut text = String::new();
        self.lines.read_to_string(&mut text).map_err(|error| format!("can't receive: {error}"))?;
        Ok(text.lines().map(str::to_owned).collect())
    }
}
