//! The parkers of a switchboard's seats.

use crate::park::cache_padded::CachePadded;
use crate::park::parker::Parker;
use std::ops::Deref;
use std::ptr::NonNull;
use std::sync::OnceLock;

/// The first part has this many parkers, and each later part twice as many as the one before.
const FIRST: usize = 8;
/// So many that there is no memory for the last.
const PARTS: usize = 40;

/// A parker for each seat, by the seat's place among those that were made here. No parker moves, so
/// that a thread that wakes another one needs neither the lock nor a count of who uses it. A thread
/// that looks at its own slows no other one.
pub(crate) struct Parkers {
    parts: [OnceLock<Box<[CachePadded<Parker>]>>; PARTS],
}

impl Parkers {
    pub fn new() -> Parkers {
        Parkers {
            parts: [const { OnceLock::new() }; PARTS],
        }
    }

    /// The parker at this place, if there is one.
    #[inline]
    pub fn get(&self, place: u64) -> Option<&Parker> {
        let (part, at) = place_of(place)?;
        self.parts.get(part)?.get()?.get(at).map(|parker| &parker.0)
    }

    /// Returns the parker at this place. Makes it, if it isn't there.
    pub fn make(&self, place: u64) -> Option<&Parker> {
        let (part, at) = place_of(place)?;
        let first = place - at as u64;
        let new = |number| CachePadded(Parker::new(number));
        let parkers =
            self.parts.get(part)?.get_or_init(|| (first..).take(FIRST << part).map(new).collect());
        parkers.get(at).map(|parker| &parker.0)
    }
}

/// A parker that its user keeps.
pub(crate) struct ParkerAt(NonNull<Parker>);

// SAFETY: it is a reference, and a parker may be shared by threads.
unsafe impl Send for ParkerAt {}
// SAFETY: as above.
unsafe impl Sync for ParkerAt {}
const _: fn() = || {
    fn is_shared<T: Sync>() {}
    is_shared::<Parker>();
};

impl ParkerAt {
    /// # Safety
    ///
    /// While this is used the parker is there, and doesn't move.
    pub unsafe fn new(parker: &Parker) -> ParkerAt {
        ParkerAt(NonNull::from(parker))
    }
}

impl Deref for ParkerAt {
    type Target = Parker;

    #[inline]
    fn deref(&self) -> &Parker {
        // SAFETY: who made it keeps the parker there.
        unsafe { self.0.as_ref() }
    }
}

/// The part that a place is in, and the place there.
#[inline]
fn place_of(place: u64) -> Option<(usize, usize)> {
    let behind = usize::try_from(place).ok()?.checked_add(FIRST)?;
    let part = (behind / FIRST).ilog2();
    Some((part as usize, behind - (FIRST << part)))
}

#[cfg(test)]
mod tests {
    use super::*;

    #[test]
    fn each_place_has_a_parker_of_its_own() {
        let parkers = Parkers::new();
        let made: Vec<*const Parker> =
            (0..1_000).map(|place| std::ptr::from_ref(parkers.make(place).unwrap())).collect();
        for (place, &at) in made.iter().enumerate() {
            assert!(std::ptr::eq(parkers.get(place as u64).unwrap(), at));
            assert_eq!(made.iter().filter(|other| **other == at).count(), 1);
        }
        assert!(parkers.get(5_000).is_none());
        assert!(parkers.get(u64::MAX).is_none());
    }
}
