//! Calls that gave up, since other threads kept them from each try.
use std::sync::atomic::{AtomicU64, Ordering::Acquire, Ordering::Relaxed, Ordering::Release};
use std::time::{Duration, Instant};

/// Calls wait for three seconds at most. So when none has given up for so long, the stall is over.
const PAUSE: u64 = 10_000;

/// When calls gave up. Times are milliseconds since `start`, and 0 is before them.
pub(crate) struct Stalls {
    start: Instant,
    number: AtomicU64,
    first: AtomicU64,
    last: AtomicU64,
}

impl Stalls {
    pub fn new() -> Stalls {
        Stalls { start: Instant::now(), number: AtomicU64::new(0), first: AtomicU64::new(0), last: AtomicU64::new(0) }
    }

    /// A call gave up now.
    #[cold]
    pub fn give_up(&self) {
        self.give_up_at(self.now());
    }

    fn give_up_at(&self, now: u64) {
        if !is_within(self.last.load(Relaxed), now) {
            self.first.store(now, Relaxed);
        }
        // Release: who sees this time sees the first one of its stall, too.
        self.last.store(now, Release);
        self.number.fetch_add(1, Relaxed);
    }

    pub fn number(&self) -> u64 {
        self.number.load(Relaxed)
    }

    /// For how long calls have given up.
    pub fn length(&self) -> Duration {
        self.length_at(self.now())
    }

    fn length_at(&self, now: u64) -> Duration {
        let last = self.last.load(Acquire);
        let length = if is_within(last, now) { now.saturating_sub(self.first.load(Relaxed)) } else { 0 };
        Duration::from_millis(length)
    }

    fn now(&self) -> u64 {
        self.start.elapsed().as_millis() as u64 + 1
    }
}

/// Whether the stall whose last call gave up then goes on now.
fn is_within(last: u64, now: u64) -> bool {
    last != 0 && now.saturating_sub(last) <= PAUSE
}

#[cfg(test)]
mod tests {
    use super::*;

    #[test]
    fn a_stall_lasts_until_no_call_gives_up_for_ten_seconds() {
        let stalls = Stalls::new();
        assert_eq!((stalls.number(), stalls.length_at(1)), (0, Duration::ZERO));
        stalls.give_up_at(5_000);
        assert_eq!((stalls.number(), stalls.length_at(5_000)), (1, Duration::ZERO));
        assert_eq!(stalls.length_at(15_000), Duration::from_secs(10));
        assert_eq!(stalls.length_at(15_001), Duration::ZERO);
        stalls.give_up_at(15_000);
        stalls.give_up_at(24_000);
        assert_eq!((stalls.number(), stalls.length_at(30_000)), (3, Duration::from_secs(25)));
        stalls.give_up_at(34_001);
        assert_eq!((stalls.number(), stalls.length_at(35_001)), (4, Duration::from_secs(1)));
    }
}
