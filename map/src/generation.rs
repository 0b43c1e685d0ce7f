//! Which entries a map has forgotten, all by one step.
use std::sync::atomic::{AtomicU64, Ordering::SeqCst};

/// Counts how often all entries were invalidated. An entry keeps the number that it was put in: it is there while the map has the same one.
pub(crate) struct Generation(AtomicU64);

/// That of an object before its put has taken effect.
pub(crate) const NONE: u64 = 0;

impl Generation {
    pub fn new() -> Generation {
        Generation(AtomicU64::new(NONE + 1))
    }

    /// A call that puts what it makes of something loads this once, before it looks at that.
    #[inline]
    pub fn now(&self) -> u64 {
        self.0.load(SeqCst)
    }

    /// Entries of all generations so far are there no more, also those that are about to be put in one of them.
    pub fn end(&self) {
        self.0.fetch_add(1, SeqCst);
    }
}

/// What this number adds to the check words of a generation. It is odd, so no two generations have the same.
const STEP: u64 = 0x9e37_79b9_7f4a_7c15;

/// The check word of a key in this generation.
#[inline]
pub(crate) fn check_in(generation: u64, check: u64) -> u64 {
    check ^ generation.wrapping_mul(STEP)
}
