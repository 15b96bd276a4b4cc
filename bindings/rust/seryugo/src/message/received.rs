//! Messages of bytes that the library has handed over.

use crate::error::Error;
use crate::journal::entry::{Call, Entry, Reply, Who};
use crate::journal::sum::{RawSum, Sum};
use crate::message::carries::Bytes;
use crate::numbers::RawMaker;
use crate::raw::{done, Handle, Opening};
use std::ffi::c_void;
use std::mem::MaybeUninit;
use std::ptr;
use std::slice;

/// The most bytes of a message that lie in the struct itself.
const IN_PLACE: usize = 78;

/// A message of the library, or a journal's text. It is freed when it is dropped.
///
/// Only a call that receives writes it, once. If the message lies elsewhere, the call writes
/// `block` and `owner`. Else it writes this many bytes of `in_place`.
#[repr(C)]
pub struct Received {
    length: usize,
    block: *const u8,
    owner: MaybeUninit<Share>,
    in_place: [MaybeUninit<u8>; IN_PLACE],
}

/// What keeps a message that lies elsewhere.
#[derive(Clone, Copy)]
#[repr(C)]
struct Share {
    at: *mut c_void,
}

// SAFETY: what keeps a message is counted by an `Arc`, and nobody changes the message.
unsafe impl Send for Received {}
// SAFETY: as above.
unsafe impl Sync for Received {}

impl Received {
    /// The empty message, in whose place a call writes another one.
    #[inline]
    pub const fn nothing() -> Received {
        Received {
            length: 0,
            block: ptr::null(),
            owner: MaybeUninit::uninit(),
            in_place: [const { MaybeUninit::uninit() }; IN_PLACE],
        }
    }

    /// The text of a taken journal, whose first entry is at the position `from`.
    pub fn text_of(journal: &mut Handle, from: u64) -> Result<Received, Error> {
        let mut text = Received::nothing();
        done(seryugo_journal_text(journal, from, &mut text))?;
        Ok(text)
    }

    /// The same with sums: after the piece that has the first sum. Returns this piece's sum, too.
    pub fn sealed_text_of(
        journal: &mut Handle,
        from: u64,
        after: Option<Sum>,
    ) -> Result<(Received, Sum), Error> {
        let mut text = Received::nothing();
        let mut sum = RawSum::from(after);
        done(seryugo_sealed_text(journal, from, &mut sum, &mut text))?;
        Ok((text, sum.sum()))
    }

    #[inline]
    pub fn as_slice(&self) -> &[u8] {
        let at = if self.length > IN_PLACE {
            self.block
        } else {
            self.in_place.as_ptr().cast()
        };
        // SAFETY: the library has written this many bytes. Those elsewhere stay until they are freed.
        unsafe { slice::from_raw_parts(at, self.length) }
    }
}

impl Drop for Received {
    #[inline]
    fn drop(&mut self) {
        if self.length > IN_PLACE {
            // SAFETY: the library has written the owner too, and nothing reads the bytes from here
            // on.
            unsafe { seryugo_bytes_release(self.owner.assume_init()) }
        }
    }
}

/// Bytes that an entry has.
#[repr(C)]
struct RawPlace {
    at: *const u8,
    length: usize,
}

impl RawPlace {
    const NOTHING: RawPlace = RawPlace {
        at: ptr::null(),
        length: 0,
    };

    /// A copy of the bytes. The pointer of no bytes may be null.
    ///
    /// # Safety
    ///
    /// The entry's owner is open.
    unsafe fn copied(&self) -> Vec<u8> {
        match self.length {
            0 => Vec::new(),
            // SAFETY: the library has written a pointer to this many bytes, which the owner keeps.
            length => unsafe { slice::from_raw_parts(self.at, length) }.to_vec(),
        }
    }
}

#[repr(C)]
struct RawCall {
    kind: u32,
    object: u64,
    message: RawPlace,
}

#[repr(C)]
struct RawReply {
    kind: u32,
    name: u64,
    message: RawPlace,
}

/// An entry of the library. Only the call that hands it over writes it, once. Its owner keeps the
/// messages.
#[repr(C)]
pub struct RawEntry {
    maker: RawMaker,
    call: RawCall,
    reply: RawReply,
    owner: Opening,
}

impl RawEntry {
    fn nothing() -> RawEntry {
        RawEntry {
            maker: RawMaker::default(),
            call: RawCall {
                kind: 0,
                object: 0,
                message: RawPlace::NOTHING,
            },
            reply: RawReply {
                kind: 0,
                name: 0,
                message: RawPlace::NOTHING,
            },
            owner: Opening::new(),
        }
    }

    /// The entry that a call hands over, with copies of its messages.
    pub fn copied(call: impl FnOnce(&mut RawEntry) -> u32) -> Result<Entry<Bytes>, Error> {
        let mut raw = RawEntry::nothing();
        done(call(&mut raw))?;
        let RawEntry {
            maker,
            call,
            reply,
            owner,
        } = raw;
        let owner = owner.opened()?;
        // SAFETY: the owner is dropped after the last copy.
        let copied = |place: RawPlace| unsafe { place.copied() };
        let entry = Entry {
            who: Who::of(maker.kind, maker.number)?,
            call: Call::of(call.kind, call.object, || copied(call.message))?,
            reply: Reply::of(reply.kind, reply.name, || copied(reply.message))?,
        };
        drop(owner);
        Ok(entry)
    }
}

unsafe extern "C" {
    fn seryugo_bytes_release(owner: Share);
    safe fn seryugo_journal_text(journal: &mut Handle, from: u64, text: &mut Received) -> u32;
    safe fn seryugo_sealed_text(
        journal: &mut Handle,
        from: u64,
        sum: &mut RawSum,
        text: &mut Received,
    ) -> u32;
}
