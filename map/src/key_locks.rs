//! Locks of keys, which are tried, and never waited for. No code of the caller runs under one.
use std::sync::atomic::{AtomicBool, Ordering::Acquire, Ordering::Release};

/// A byte each, in 64 cache lines: two threads hardly ever want the same lock, and seldom the same line.
const LOCKS: usize = 4096;

/// The locks of all keys. Each is that of some keys.
#[repr(align(64))]
pub(crate) struct KeyLocks([AtomicBool; LOCKS]);

/// A lock, until this is dropped. It is true while it is taken.
pub(crate) struct Guard<'a>(&'a AtomicBool);

impl KeyLocks {
    pub fn new() -> KeyLocks {
        KeyLocks([const { AtomicBool::new(false) }; LOCKS])
    }

    /// The lock of the key with this hash, if no other thread has it.
    #[inline]
    pub fn lock(&self, hash: u64) -> Option<Guard<'_>> {
        let lock = &self.0[hash as usize % LOCKS];
        let was_taken = lock.swap(true, Acquire);
        (!was_taken).then(|| Guard(lock))
    }
}

impl Drop for Guard<'_> {
    #[inline]
    fn drop(&mut self) {
        self.0.store(false, Release);
    }
}
