//! Announced future participants: guests, and seats that are still to be made.

use crate::error::Error;
use crate::message::carries::MessageKind;
use crate::raw;
use crate::switchboard::state::State;

/// Who is expected. While somebody is, the library has one more free seat, the host, which makes no
/// call. The next seat takes the host's number, and the host the next one. So a seat has the number
/// that it would have without a host, unless a host has left before.
#[derive(Default)]
pub(crate) struct Expected {
    guests: u64,
    /// How many seats are still to be made.
    seats: u64,
    /// The host's number.
    host: Option<u64>,
}

impl Expected {
    /// The number of the host, if there is one.
    pub fn host(&self) -> Option<u64> {
        self.host
    }

    fn is_anybody(&self) -> bool {
        self.guests != 0 || self.seats != 0
    }
}

impl<R: MessageKind> State<R> {
    /// Registers a guest.
    pub fn hold(&mut self) -> Result<(), Error> {
        self.be_host()?;
        self.expected.guests += 1;
        Ok(())
    }

    /// Removes a guest. If it was the last one, waiting seats may become due.
    pub fn remove_guest(&mut self) {
        self.expected.guests -= 1;
        self.end_hosting();
    }

    /// Sets how many seats are still to be made.
    pub fn expect(&mut self, seats: u64) -> Result<(), Error> {
        if seats != 0 {
            self.be_host()?;
        }
        self.expected.seats = seats;
        self.end_hosting();
        Ok(())
    }

    /// Makes a seat, and returns its number.
    pub fn new_seat(&mut self) -> Result<u64, Error> {
        let Some(host) = self.expected.host.take() else {
            return self.make_seat();
        };
        // The library has the host as a free seat until the next one is made.
        let left = self.expected.seats.saturating_sub(1);
        if self.expected.guests != 0 || left != 0 {
            let next = self.make_seat();
            self.expected.host = Some(*next.as_ref().unwrap_or(&host));
            next?;
        }
        self.expected.seats = left;
        Ok(host)
    }

    fn be_host(&mut self) -> Result<(), Error> {
        if self.expected.host.is_none() {
            self.expected.host = Some(self.make_seat()?);
        }
        Ok(())
    }

    /// Lets the host leave if nobody is expected.
    fn end_hosting(&mut self) {
        if self.expected.is_anybody() {
            return;
        }
        if let Some(host) = self.expected.host.take() {
            // It is free, so that it may leave.
            raw::seryugo_leave(&mut self.handle, host);
        }
    }
}
