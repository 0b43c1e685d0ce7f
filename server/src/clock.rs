//! Time: nanoseconds since the server started, and the deadlines of items.
use std::time::{Duration, Instant, SystemTime, UNIX_EPOCH};

/// The deadline of what does not expire.
pub const NEVER: u64 = u64::MAX;

const SECOND: u64 = 1_000_000_000;

/// The longest time to live that is relative, in seconds: 30 days. A larger number is a time of day.
const RELATIVE: u64 = 60 * 60 * 24 * 30;

/// What clients send for -1 that have 32 bits for a time.
const MINUS_ONE: u64 = u32::MAX as u64;

/// The second since the start in which this time is.
pub fn second(time: u64) -> u32 {
    (time / SECOND) as u32
}

/// A monotonic clock. Time 0 has passed before the server started.
pub struct Clock {
    started: Instant,
}

impl Clock {
    pub fn new() -> Clock {
        Clock::since(Instant::now())
    }

    pub fn since(started: Instant) -> Clock {
        Clock { started }
    }

    /// Nanoseconds since the start, 1 at least.
    pub fn now(&self) -> u64 {
        self.started.elapsed().as_nanos() as u64 + 1
    }

    pub fn uptime(&self) -> u64 {
        self.started.elapsed().as_secs()
    }

    /// What this time is in seconds since 1970.
    pub fn unix_time_of(&self, then: u64) -> u64 {
        unix_time().saturating_sub(self.now().saturating_sub(then) / SECOND)
    }

    /// The second since the start in which this was.
    pub fn second_of(&self, then: Instant) -> u32 {
        then.saturating_duration_since(self.started).as_secs() as u32
    }

    /// When something ends that has this time to live, by the protocol: 0 is never, a negative number at once, up to 30 days counts from
    /// now, and more is seconds since 1970. 4294967295 is -1, too.
    pub fn deadline(&self, seconds: i64) -> u64 {
        match u64::try_from(seconds) {
            Ok(0) => NEVER,
            Err(_) | Ok(MINUS_ONE) => 0,
            Ok(seconds @ 1..=RELATIVE) => self.now() + seconds * SECOND,
            Ok(seconds) => seconds.checked_mul(SECOND).map_or(NEVER, |then| self.deadline_at(then)),
        }
    }

    /// When something ends that ends at this time, in nanoseconds since 1970.
    fn deadline_at(&self, then: u64) -> u64 {
        match then.saturating_sub(since_1970().as_nanos() as u64) {
            0 => 0,
            left => self.now().saturating_add(left),
        }
    }

    /// The seconds that are left until the deadline, or -1 if it never comes.
    pub fn left(&self, deadline: u64) -> i64 {
        if deadline == NEVER {
            return -1;
        }
        deadline.saturating_sub(self.now()).div_ceil(SECOND) as i64
    }

    /// The deadline in seconds since 1970, or 0 if it never comes.
    pub fn unix_end(&self, deadline: u64) -> u64 {
        if deadline == NEVER {
            return 0;
        }
        unix_time() + deadline.saturating_sub(self.now()).div_ceil(SECOND)
    }
}

pub fn unix_time() -> u64 {
    since_1970().as_secs()
}

fn since_1970() -> Duration {
    SystemTime::now().duration_since(UNIX_EPOCH).unwrap_or(Duration::ZERO)
}
