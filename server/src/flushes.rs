//! What `flush_all` makes invalid.
use std::sync::atomic::{AtomicU64, Ordering::Acquire, Ordering::Relaxed, Ordering::SeqCst};
use std::sync::Mutex;

/// Which items `flush_all` has made invalid: those that are no younger than one of these times, once it has come.
#[derive(Default)]
pub struct Flushes {
    past: AtomicU64,
    next: AtomicU64,
    /// One at a time flushes.
    turn: Mutex<()>,
}

impl Flushes {
    /// Whether they have hit what was born then.
    pub fn have_hit(&self, born: u64, now: u64) -> bool {
        // If this is a new one, `past` has the old one already: they are stored in that order. So this is an acquire, and the next load
        // needs no order of its own.
        let next = self.next.load(Acquire);
        born <= self.past.load(Relaxed) || (next <= now && born <= next)
    }

    /// Flushes at a time. It replaces a flush that is still to come. `times` gives that time, and now. It is asked in turn: a flush that
    /// ended before has come by then.
    pub fn flush(&self, times: impl FnOnce() -> (u64, u64)) {
        self.flush_with(times, || {});
    }

    /// The same. Between its two stores it calls `between`, for tests.
    pub fn flush_with(&self, times: impl FnOnce() -> (u64, u64), between: impl FnOnce()) {
        let _turn = self.turn.lock();
        let (time, now) = times();
        // Only this function stores it, in turn.
        let next = self.next.load(Relaxed);
        if next <= now {
            self.past.fetch_max(next, SeqCst);
        }
        between();
        self.next.store(time, SeqCst);
    }
}
