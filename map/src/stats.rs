//! What the calls of a map came to.
use std::sync::atomic::{AtomicU64, Ordering::Relaxed};
use std::time::Duration;

/// How many calls came to what, since the map was opened. The sums of all threads, each read at a moment of its own.
///
/// `hits`, `misses` and `busy` together are the lookups: one for each call of `get`, `look`, `pin`, `contains_key`, `get_or_insert_with` and
/// `try_board`, and of their other forms, and one for each key of `get_many`, `get_many_with` and `look_many`. A call of `get_or_insert_async` that waits for
/// another task may be two: a miss, and what it finds then.
#[derive(Clone, Copy, Debug, Default, PartialEq, Eq, Hash)]
#[non_exhaustive]
pub struct Stats {
    /// Lookups that found a value.
    pub hits: u64,
    /// Lookups that found no value. A call of `get_or_insert_with` is one, too, if it waits for the value that another thread makes.
    pub misses: u64,
    /// Lookups that writes disturbed at each try. They say nothing of the map.
    pub busy: u64,
    /// Misses whose value had expired, or in an `ObjectMap` one that `invalidate_all` has ended.
    pub expired: u64,
    /// Misses that found the entry of another key with the same first hash, or in a `Map` one that `invalidate_all` has ended.
    pub collided: u64,
    /// Keys that were put and are new.
    pub added: u64,
    /// Entries that were overwritten.
    pub renewed: u64,
    /// Entries that gave way to a new key, or to the bound on weights. If there are many, take a larger capacity or bound.
    pub evicted: u64,
    /// Those of them that gave way to the bound on weights.
    pub evicted_by_weight: u64,
    /// Those of them that gave way since the map had as many entries as its [`capacity`](crate::Map::capacity), and not since their shard was full.
    pub evicted_by_capacity: u64,
    /// Entries that were removed.
    pub removed: u64,
    /// Those of them that left since they had ended, with puts or by `remove_expired`: their time was over, or `invalidate_all` had ended them.
    pub ended: u64,
    /// Functions that ran to compute a value, of `get_or_insert_with` and its other forms. A load by `try_board` is not counted.
    pub loads: u64,
    /// Those of them that failed, panicked or were cancelled.
    pub load_failures: u64,
    /// How long they took together.
    pub load_time: Duration,
    /// Writes that failed.
    pub refused: u64,
    /// Calls that gave up, since other threads kept them from each try, for over a tenth of a second. The forms with `try_` don't count.
    pub given_up: u64,
    /// For how long calls have given up so, if one did in the last ten seconds. Then a thread has stopped within a write, and lookups and writes
    /// that need what it has give up until it goes on.
    pub stalled: Duration,
    /// Calls of the index by the shared handle. If there are many, open the map for more threads.
    pub shared: u64,
    /// Objects that have left an `ObjectMap` or a `BytesMap` and wait to be freed. If there are many, a closure runs for long.
    pub waiting: u64,
    /// What those weigh, by the weigher of `max_weight`; 0 without one.
    pub waiting_weight: u64,
    /// Objects that an `ObjectMap` has dropped and that pins keep. One for which there was no memory to count it is not among them.
    pub pinned: u64,
    /// What those weigh.
    pub pinned_weight: u64,
    /// As [`len`](crate::Map::len).
    pub entries: u64,
    /// As [`capacity`](crate::Map::capacity).
    pub capacity: u64,
    /// As `weight` of an `ObjectMap`.
    pub weight: u64,
    /// Hits since the sums that were noted last before a minute ago: see [`hit_rate_of_last_minute`](crate::Map::hit_rate_of_last_minute).
    pub hits_of_last_minute: u64,
    /// Misses since then.
    pub misses_of_last_minute: u64,
}

/// What is counted.
#[derive(Clone, Copy, PartialEq, Eq)]
pub(crate) enum Kind {
    Hit,
    Miss,
    Busy,
    Expired,
    Collided,
    Added,
    Renewed,
    Evicted,
    #[cfg_attr(not(feature = "objects"), allow(dead_code))]
    EvictedByWeight,
    EvictedByCapacity,
    Removed,
    Ended,
    Refused,
    Shared,
    Load,
    LoadFailure,
    LoadNanoseconds,
    /// An entry that was added and has not left by calls of the same thread. One number, so that it is right while calls run.
    Entry,
}

const NUMBERS: usize = Kind::Entry as usize + 1;

/// The counts of one thread, or of those that share a handle.
#[derive(Default)]
pub(crate) struct Counts([AtomicU64; NUMBERS]);

// Relaxed: a number says nothing of other memory.
impl Counts {
    /// Counts so many more. Only one thread at a time may call it.
    #[inline]
    pub fn add_alone(&self, kind: Kind, number: u64) {
        let count = &self.0[kind as usize];
        count.store(count.load(Relaxed).wrapping_add(number), Relaxed);
    }

    /// Counts so many more.
    pub fn add(&self, kind: Kind, number: u64) {
        self.0[kind as usize].fetch_add(number, Relaxed);
    }

    pub fn get(&self, kind: Kind) -> u64 {
        self.0[kind as usize].load(Relaxed)
    }
}

/// How many entries there are by the sum of all counts of `Kind::Entry`. That wraps below 0: a call may count a removal before the put is counted.
pub(crate) fn entries_of(sum: u64) -> u64 {
    (sum as i64).max(0) as u64
}

fn rate(hits: u64, misses: u64) -> f64 {
    let mut counts = cefrodil::Counts::default();
    (counts.hits, counts.misses) = (hits, misses);
    counts.hit_rate()
}

impl Stats {
    /// Which part of the lookups that were not busy found a value: 0 to 1. Without any, 0.
    ///
    /// ```
    /// let ages = cefrodil_map::Map::<str, u64>::new(100)?;
    /// ages.insert("ann", 41)?;
    /// assert_eq!((ages.stats().hit_rate(), ages.get("ann"), ages.get("bob")), (0.0, Some(41), None));
    /// assert_eq!(ages.stats().hit_rate(), 0.5);
    /// # Ok::<(), Box<dyn std::error::Error>>(())
    /// ```
    #[must_use]
    pub fn hit_rate(&self) -> f64 {
        rate(self.hits, self.misses)
    }

    /// As [`hit_rate_of_last_minute`](crate::Map::hit_rate_of_last_minute) of the map, when these numbers were asked for.
    #[must_use]
    pub fn hit_rate_of_last_minute(&self) -> f64 {
        rate(self.hits_of_last_minute, self.misses_of_last_minute)
    }

    pub(crate) fn sum<'a>(all: impl Iterator<Item = &'a Counts>) -> Stats {
        let mut sums = [0_u64; NUMBERS];
        for counts in all {
            sums.iter_mut().zip(&counts.0).for_each(|(sum, count)| *sum = sum.wrapping_add(count.load(Relaxed)));
        }
        let of = |kind: Kind| sums[kind as usize];
        Stats {
            hits: of(Kind::Hit),
            misses: of(Kind::Miss),
            busy: of(Kind::Busy),
            expired: of(Kind::Expired),
            collided: of(Kind::Collided),
            added: of(Kind::Added),
            renewed: of(Kind::Renewed),
            evicted: of(Kind::Evicted),
            evicted_by_weight: of(Kind::EvictedByWeight),
            evicted_by_capacity: of(Kind::EvictedByCapacity),
            removed: of(Kind::Removed),
            ended: of(Kind::Ended),
            refused: of(Kind::Refused),
            shared: of(Kind::Shared),
            loads: of(Kind::Load),
            load_failures: of(Kind::LoadFailure),
            load_time: Duration::from_nanos(of(Kind::LoadNanoseconds)),
            entries: entries_of(of(Kind::Entry)),
            ..Stats::default()
        }
    }
}
