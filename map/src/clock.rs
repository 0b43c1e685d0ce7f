//! The time, for deadlines.
#[cfg(test)]
use std::sync::atomic::{AtomicU64, Ordering};
use std::time::{Duration, Instant};

/// The deadline of an entry that never expires.
pub(crate) const NEVER: u64 = u64::MAX;

/// The same, of an entry whose uses are noted.
pub(crate) const FAR: u64 = NEVER - 1;

/// A use moves the deadline of an entry that is not used for long, if it moves it by more than this part of the time.
const PART_OF_IDLE: u32 = 16;

/// Counts nanoseconds since the map was opened. They suffice for 584 years.
pub(crate) struct Clock {
    start: Instant,
    // How far a test has turned the clock.
    #[cfg(test)]
    turned: AtomicU64,
}

impl Clock {
    pub fn new() -> Clock {
        Clock {
            start: Instant::now(),
            #[cfg(test)]
            turned: AtomicU64::new(0),
        }
    }

    /// The deadline of what is put now and lives so long.
    pub fn deadline(&self, life: Duration) -> u64 {
        self.now().saturating_add(u64::try_from(life.as_nanos()).unwrap_or(NEVER))
    }

    /// The next deadline of an entry that lives for so long without use, if it is used now and its deadline is to be moved.
    pub fn moved(&self, deadline: u64, idle: Duration) -> Option<u64> {
        let step = u64::try_from((idle / PART_OF_IDLE).as_nanos()).unwrap_or(NEVER);
        let next = self.deadline(idle);
        (next.saturating_sub(deadline) > step).then_some(next)
    }

    /// Whether this deadline has passed.
    #[inline]
    pub fn has_passed(&self, deadline: u64) -> bool {
        deadline < FAR && self.now() >= deadline
    }

    fn now(&self) -> u64 {
        let now = self.start.elapsed();
        #[cfg(test)]
        let now = now + Duration::from_nanos(self.turned.load(Ordering::SeqCst));
        now.as_nanos() as u64
    }

    #[cfg(test)]
    pub fn turn(&self, by: Duration) {
        self.turned.fetch_add(by.as_nanos() as u64, Ordering::SeqCst);
    }
}
