//! Locks of keys. If a thread is stopped while it has one, commands that need that lock are refused after a while.
use std::array::from_fn;
use std::sync::atomic::{AtomicU64, Ordering::Relaxed};
use std::sync::{Mutex, MutexGuard, TryLockError};
use std::thread::{sleep, yield_now};
use std::time::Duration;

/// How many locks there are for all keys.
const LOCKS: usize = 64;

/// How often a command tries to take a lock, and a lookup: over a second, and over a tenth of one.
pub const TRIES: u32 = 10_000;
pub const LOOKS: u32 = 1_000;

/// Who tries more often sleeps between the tries: the thread that has the lock may have to wait for a processor.
const YIELDS: u32 = 200;
const SLEEP: Duration = Duration::from_micros(100);

/// When nobody has given up for so many seconds, the stall is over.
const PAUSE: u64 = 10;

/// The lock of a key, which is given back when this is dropped.
pub type KeyLock<'a> = MutexGuard<'a, ()>;

/// Keys share them. A change of a deadline and a change of a value that keeps it must not come between each other's two steps.
pub struct KeyLocks {
    locks: [Mutex<()>; LOCKS],
    /// The seconds since the start in which a command first and last gave up in this stall.
    // Relaxed: for the operator alone.
    first: AtomicU64,
    last: AtomicU64,
}

impl KeyLocks {
    pub fn new() -> KeyLocks {
        KeyLocks { locks: from_fn(|_| Mutex::default()), first: AtomicU64::new(0), last: AtomicU64::new(u64::MAX) }
    }

    /// Locks the keys with this hash. `None`: another thread had the lock at each try.
    pub fn lock(&self, hash: u64, tries: u32) -> Option<KeyLock<'_>> {
        for tried in 0..tries {
            match tried {
                0 => {}
                1..YIELDS => yield_now(),
                _ => sleep(SLEEP),
            }
            match self.locks[hash as usize % LOCKS].try_lock() {
                Ok(lock) => return Some(lock),
                // A command that panicked leaves nothing half done.
                Err(TryLockError::Poisoned(lock)) => return Some(lock.into_inner()),
                Err(TryLockError::WouldBlock) => {}
            }
        }
        None
    }

    /// A command gave up in this second.
    pub fn give_up(&self, now: u64) {
        if !self.is_stalled(now) {
            self.first.store(now, Relaxed);
        }
        self.last.store(now, Relaxed);
    }

    /// For how many seconds commands have given up.
    pub fn stalled(&self, now: u64) -> u64 {
        if self.is_stalled(now) {
            now.saturating_sub(self.first.load(Relaxed))
        } else {
            0
        }
    }

    fn is_stalled(&self, now: u64) -> bool {
        now.checked_sub(self.last.load(Relaxed)).is_some_and(|gone| gone <= PAUSE)
    }
}
