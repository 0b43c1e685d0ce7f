//! No two calls use a handle at once, whether threads own one or share it, and no count is lost.
use crate::handle::Index;
use crate::map::Inserted;
use crate::slots::Slots;
use crate::stats::Kind;
use crate::words::MOST;
use crate::Map;
use cefrodil::{Entry, EvictError, ListError, TurnError};
use std::collections::HashSet;
use std::ptr;
use std::sync::{Arc, Barrier, Mutex};
use std::thread;
use std::time::Duration;

const THREADS: usize = 6;

// A handle by which so many more can be opened.
struct Opens(usize);

impl Index for Opens {
    fn more(&mut self) -> Option<Opens> {
        self.0 = self.0.checked_sub(1)?;
        Some(Opens(0))
    }

    fn capacity(&mut self) -> usize {
        0
    }

    fn keys(&mut self) -> Result<Vec<u64>, TurnError<ListError>> {
        Err(TurnError::Held)
    }

    fn entry_at(&mut self, _: u64, _: u32) -> Option<Entry<MOST>> {
        None
    }

    fn evict(&mut self, _: u64) -> Result<Option<(u64, u64)>, TurnError<EvictError>> {
        Err(TurnError::Held)
    }
}

// How many handles are used by threads of which so many may own one.
fn handles_used(owners: usize) -> usize {
    let map: Map<u64, u64> = Map::builder(10).threads(owners).open().unwrap();
    let (in_use, seen, all_called) = (Mutex::new(HashSet::new()), Mutex::new(HashSet::new()), Barrier::new(THREADS));
    thread::scope(|threads| {
        for _ in 0..THREADS {
            threads.spawn(|| {
                // No thread ends before each has called.
                let _ = map.get(&1);
                all_called.wait();
                for _ in 0..200 {
                    map.inner.core.slots.call(|handle| {
                        let place = ptr::from_mut(handle) as usize;
                        assert!(in_use.lock().unwrap().insert(place), "two calls use a handle at once");
                        thread::yield_now();
                        assert!(in_use.lock().unwrap().remove(&place));
                        seen.lock().unwrap().insert(place);
                    });
                }
            });
        }
    });
    let seen = seen.into_inner().unwrap();
    seen.len()
}

#[test]
fn no_two_calls_use_a_pass_at_once() {
    assert_eq!((handles_used(0), handles_used(2), handles_used(THREADS)), (1, 3, THREADS));
}

#[test]
fn a_thread_whose_handle_is_not_opened_shares_one() {
    let (slots, all_called) = (Arc::new(Slots::new(vec![Opens(2)], THREADS)), Barrier::new(THREADS));
    let call = || {
        slots.call(|_| ());
        all_called.wait();
        slots.call(|_| ());
        all_called.wait();
    };
    thread::scope(|threads| (0..THREADS).for_each(|_| drop(threads.spawn(call))));
    assert_eq!(slots.stats().shared, 2 * (THREADS as u64 - 2));
}

// A thread that ends gives its handle to the next one.
#[test]
fn no_more_handles_are_opened_than_threads_call_at_once() {
    let slots = Arc::new(Slots::new(vec![Opens(1)], THREADS));
    for _ in 0..3 * THREADS {
        let slots = Arc::clone(&slots);
        thread::spawn(move || slots.call(|_| ())).join().unwrap();
    }
    assert_eq!(slots.stats().shared, 0);
}

// So many counts of each thread show one that isn't atomic also where there are few processors.
#[test]
fn no_count_is_lost() {
    const MANY: u64 = 200_000;
    for owners in [0, 1, THREADS] {
        let slots = Arc::new(Slots::new(vec![Opens(usize::MAX)], owners));
        let start = Barrier::new(THREADS);
        thread::scope(|threads| {
            for _ in 0..THREADS {
                threads.spawn(|| {
                    start.wait();
                    (0..MANY).for_each(|_| slots.count(Kind::Hit));
                });
            }
        });
        assert_eq!(slots.stats().hits, THREADS as u64 * MANY);
    }
}

// A thread may count its removal before the one that put the key counts that. There are never fewer entries than none.
#[test]
fn what_is_removed_before_it_is_counted_is_no_entry() {
    let slots = Arc::new(Slots::new(vec![Opens(1)], 1));
    let entries = || (slots.entries(), slots.stats().entries);
    slots.count_left(Kind::Removed, Kind::Ended);
    assert_eq!((entries(), slots.stats().removed, slots.stats().ended), ((0, 0), 1, 1));
    (0..3).for_each(|_| slots.count_put(Inserted::New));
    slots.count_put(Inserted::Renewed);
    slots.count_put(Inserted::Evicted);
    assert_eq!(entries(), (2, 2));
    slots.count_left(Kind::Evicted, Kind::Evicted);
    assert_eq!((entries(), slots.stats().added, slots.stats().evicted), ((1, 1), 4, 2));
}

// Each kind has a number of its own, by a handle of a thread's own and by the shared one.
#[test]
fn each_kind_is_counted_by_itself() {
    use Kind::{Added, Busy, Collided, Ended, Evicted, EvictedByCapacity, EvictedByWeight, Expired, Hit, Load, LoadFailure};
    use Kind::{LoadNanoseconds, Miss, Refused, Removed, Renewed, Shared};
    let kinds = [Hit, Miss, Busy, Expired, Collided, Added, Renewed, Evicted, EvictedByWeight, EvictedByCapacity, Removed, Ended];
    let others = [Refused, Shared, Load, LoadFailure, LoadNanoseconds];
    for owners in [0, 1] {
        let slots = Arc::new(Slots::new(vec![Opens(usize::MAX)], owners));
        (1..).zip(kinds.into_iter().chain(others)).for_each(|(times, kind)| slots.add(kind, times));
        let stats = slots.stats();
        assert_eq!([stats.hits, stats.misses, stats.busy, stats.expired, stats.collided], [1, 2, 3, 4, 5]);
        assert_eq!([stats.added, stats.renewed, stats.evicted, stats.evicted_by_weight], [6, 7, 8, 9]);
        assert_eq!([stats.evicted_by_capacity, stats.removed, stats.ended, stats.refused, stats.shared], [10, 11, 12, 13, 14]);
        assert_eq!((stats.loads, stats.load_failures, stats.load_time), (15, 16, Duration::from_nanos(17)));
    }
}
