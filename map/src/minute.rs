//! The sums of lookups as they were about a minute ago.
use crate::slots::lock;
use std::collections::VecDeque;
use std::sync::atomic::{AtomicU64, Ordering::Relaxed};
use std::sync::Mutex;
use std::time::{Duration, Instant};

const MINUTE: Duration = Duration::from_secs(60);

/// Sums are noted so far apart at least.
const STEP: Duration = Duration::from_secs(5);

/// So many are kept at most. There is room for them from the opening on, so that no later call takes memory for them.
const NOTES: usize = 14;

/// Sums that were noted since a minute ago, and the last ones before that.
pub(crate) struct Minute {
    start: Instant,
    // How far a test has turned the clock.
    #[cfg(test)]
    turned: AtomicU64,
    notes: Mutex<VecDeque<Note>>,
    // When the next one is due, in nanoseconds. Relaxed: a guess that saves the sums.
    next: AtomicU64,
}

struct Note {
    at: Duration,
    hits: u64,
    misses: u64,
}

impl Minute {
    /// Nothing was looked up before.
    pub fn new() -> Minute {
        let mut notes = VecDeque::with_capacity(NOTES);
        notes.push_back(Note { at: Duration::ZERO, hits: 0, misses: 0 });
        Minute {
            start: Instant::now(),
            #[cfg(test)]
            turned: AtomicU64::new(0),
            notes: Mutex::new(notes),
            next: AtomicU64::new(STEP.as_nanos() as u64),
        }
    }

    pub fn is_due(&self) -> bool {
        self.elapsed().as_nanos() as u64 >= self.next.load(Relaxed)
    }

    /// Notes these sums if they are due. Returns what came to them since the ones that were noted last before a minute ago.
    pub fn note(&self, hits: u64, misses: u64) -> (u64, u64) {
        self.note_at(self.elapsed(), hits, misses)
    }

    fn note_at(&self, now: Duration, hits: u64, misses: u64) -> (u64, u64) {
        let mut notes = lock(&self.notes);
        while notes.get(1).is_some_and(|second| second.at + MINUTE <= now) {
            notes.pop_front();
        }
        let since = (hits.saturating_sub(notes[0].hits), misses.saturating_sub(notes[0].misses));
        if notes.back().is_some_and(|last| last.at + STEP <= now) {
            notes.push_back(Note { at: now, hits, misses });
            self.next.store((now + STEP).as_nanos() as u64, Relaxed);
        }
        since
    }

    fn elapsed(&self) -> Duration {
        let elapsed = self.start.elapsed();
        #[cfg(test)]
        let elapsed = elapsed + Duration::from_nanos(self.turned.load(Relaxed));
        elapsed
    }

    #[cfg(test)]
    fn turn(&self, by: Duration) {
        self.turned.fetch_add(by.as_nanos() as u64, Relaxed);
    }
}

#[cfg(test)]
mod tests {
    use super::*;
    use crate::Map;
    use std::thread::sleep;

    #[test]
    fn sums_are_those_since_about_a_minute_ago() {
        let minute = Minute::new();
        let at = |seconds, hits, misses| minute.note_at(Duration::from_secs(seconds), hits, misses);
        assert_eq!((at(1, 10, 1), at(30, 100, 2), at(59, 200, 3)), ((10, 1), (100, 2), (200, 3)));
        // What was noted after 30 seconds is a minute old after 90.
        assert_eq!((at(89, 300, 4), at(90, 300, 4), at(118, 310, 5)), ((300, 4), (200, 2), (210, 3)));
        assert_eq!(at(119, 310, 5), (110, 2));
        // After a long time without a note, the last one before counts.
        assert_eq!((at(1_000, 400, 10), at(1_001, 401, 10)), ((90, 5), (91, 5)));
        assert_eq!(at(1_060, 500, 20), (100, 10));
    }

    // In the other tests it goes on by turns.
    #[test]
    fn time_goes_on() {
        const LONG: Duration = Duration::from_millis(10);
        let before = Instant::now();
        let minute = Minute::new();
        sleep(LONG);
        let elapsed = minute.elapsed();
        assert!((LONG..=before.elapsed()).contains(&elapsed), "{elapsed:?}");
    }

    // So what was found more than a minute ago does not count.
    #[test]
    fn loads_lists_and_invalidations_note_the_sums() {
        let calls: [fn(&Map<u64, u64>); 3] =
            [|map| map.invalidate_all(), |map| _ = map.get_or_insert_with(&2, || 2), |map| _ = map.remove_expired()];
        for notes in calls {
            let map = Map::<u64, u64>::new(100).unwrap();
            map.insert(&1, 1).unwrap();
            assert_eq!([1, 1, 1].map(|key| map.get(&key)), [Some(1); 3]);
            map.inner.core.minute.turn(STEP);
            notes(&map);
            map.inner.core.minute.turn(MINUTE);
            assert_eq!((map.get(&3), map.hit_rate_of_last_minute()), (None, 0.0));
        }
    }

    // Five seconds after the last sums were noted the next ones are.
    #[test]
    fn a_list_notes_the_sums_again_after_five_seconds() {
        let map = Map::<u64, u64>::new(100).unwrap();
        map.insert(&1, 1).unwrap();
        for _ in 0..3 {
            map.inner.core.minute.turn(STEP);
            assert_eq!((map.get(&1), map.remove_expired()), (Some(1), Ok(0)));
        }
        map.inner.core.minute.turn(MINUTE);
        assert_eq!((map.get(&3), map.hit_rate_of_last_minute()), (None, 0.0));
    }

    #[test]
    fn few_sums_are_kept() {
        let minute = Minute::new();
        (0..10_000).for_each(|tenth| _ = minute.note_at(Duration::from_millis(100 * tenth), tenth, 0));
        let notes = lock(&minute.notes);
        assert_eq!((notes.len(), notes.capacity()), (13, NOTES));
    }
}
