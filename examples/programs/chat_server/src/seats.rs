//! Seats for the threads of clients, used again when a client has ended: a switchboard frees none.

use seryugo::{Error, Seat, Switchboard};
use std::ops::{Deref, DerefMut};
use std::sync::{Mutex, PoisonError};

/// The seats that no thread has.
pub struct Seats<'a> {
    board: &'a Switchboard,
    free: Mutex<Vec<Seat<'a>>>,
}

/// A seat that goes back when it is dropped.
pub struct Lent<'s, 'a> {
    seats: &'s Seats<'a>,
    /// There is one until it is dropped.
    seat: Option<Seat<'a>>,
}

impl<'a> Seats<'a> {
    pub fn new(board: &'a Switchboard) -> Seats<'a> {
        Seats {
            board,
            free: Mutex::default(),
        }
    }

    pub fn lend(&self) -> Result<Lent<'_, 'a>, Error> {
        let free = self.free.lock().unwrap_or_else(PoisonError::into_inner).pop();
        let seat = match free {
            Some(seat) => seat,
            None => self.board.seat()?,
        };
        Ok(Lent {
            seats: self,
            seat: Some(seat),
        })
    }
}

impl<'a> Deref for Lent<'_, 'a> {
    type Target = Seat<'a>;

    fn deref(&self) -> &Seat<'a> {
        self.seat.as_ref().expect("the seat is lent")
    }
}

impl<'a> DerefMut for Lent<'_, 'a> {
    fn deref_mut(&mut self) -> &mut Seat<'a> {
        self.seat.as_mut().expect("the seat is lent")
    }
}

impl Drop for Lent<'_, '_> {
    fn drop(&mut self) {
        let mut free = self.seats.free.lock().unwrap_or_else(PoisonError::into_inner);
        free.extend(self.seat.take());
    }
}
