//! The library's door: a seat's call as data.

use crate::explore::Step;
use crate::message::received::Received;
use crate::raw::Handle;
use std::marker::PhantomData;
use std::ptr::NonNull;

/// A seat's call, as `struct seryugo_asked` of the header.
#[repr(C)]
pub struct Asked<'m> {
    kind: u32,
    is_again: bool,
    takes_numbers: bool,
    takes_bytes: bool,
    seat: u64,
    object: u64,
    number: u64,
    at: *const u8,
    length: usize,
    sent: PhantomData<&'m [u8]>,
}

impl<'m> Asked<'m> {
    /// A call without a message, which a free seat makes.
    #[inline]
    pub fn first(step: Step, seat: u64) -> Asked<'m> {
        Asked {
            kind: step.kind as u32,
            is_again: false,
            takes_numbers: true,
            takes_bytes: true,
            seat,
            object: step.object,
            number: 0,
            at: NonNull::dangling().as_ptr(),
            length: 0,
            sent: PhantomData,
        }
    }

    #[inline]
    pub fn again(self, is_again: bool) -> Self {
        Asked { is_again, ..self }
    }

    #[inline]
    pub fn with_number(self, number: u64) -> Self {
        Asked {
            number,
            takes_bytes: false,
            ..self
        }
    }

    #[inline]
    pub fn with_bytes(self, bytes: &'m [u8]) -> Self {
        Asked {
            at: bytes.as_ptr(),
            length: bytes.len(),
            takes_numbers: false,
            ..self
        }
    }

    /// Makes the call, and writes the name or the number that it gives.
    #[inline]
    pub fn give(&self, room: &mut Handle, given: &mut u64) -> u32 {
        self.make(room, given, &mut Received::nothing())
    }

    /// Makes the call, which gives a message of bytes.
    #[inline]
    pub fn hand_over(&self, room: &mut Handle, message: &mut Received) -> u32 {
        self.make(room, &mut 0, message)
    }

    #[inline]
    fn make(&self, room: &mut Handle, given: &mut u64, message: &mut Received) -> u32 {
        // SAFETY: the bytes are borrowed for as long as the call is.
        unsafe { seryugo_call_from(room, self, given, message) }
    }
}

unsafe extern "C" {
    fn seryugo_call_from(
        room: &mut Handle,
        asked: &Asked,
        given: &mut u64,
        message: &mut Received,
    ) -> u32;
}
