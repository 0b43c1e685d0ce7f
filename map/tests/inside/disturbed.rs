//! Calls that other threads disturb. With one try each, many fail. What fails says so, and has changed nothing.
use super::one_shard;
use super::turns::calls;
use crate::flight::Boarding;
use crate::handle::{AnyHandle, Index, MANY};
use crate::wait::TRIES;
use crate::words::Seen;
use crate::{ClearError, GetError, InsertError, Inserted, Map, RemoveError, UpdateError};
use cefrodil::Shape;
use std::cell::Cell;
use std::sync::atomic::{AtomicBool, Ordering::SeqCst};
use std::thread;
use std::time::{Duration, Instant};

// So many calls of a kind must fail.
const FAILURES: usize = 10;

// How long they may take for it. On a machine with much else to do that may be long.
const MOST: Duration = Duration::from_secs(100);

// Ends other threads, also if an assertion fails.
struct End<'a>(&'a AtomicBool);

impl Drop for End<'_> {
    fn drop(&mut self) {
        self.0.store(true, SeqCst);
    }
}

/// Calls `round` until each of the calls has failed so often. Beside it `disturb` is called by other threads.
pub fn beside<const CALLS: usize>(disturb: impl Fn() + Sync, round: impl Fn(u64) -> [bool; CALLS]) {
    let (end, begin) = (AtomicBool::new(false), Instant::now());
    thread::scope(|threads| {
        for _ in 0..2 {
            threads.spawn(|| {
                while !end.load(SeqCst) {
                    disturb();
                }
            });
        }
        let _end = End(&end);
        let mut failures = [0; CALLS];
        for number in 1.. {
            failures.iter_mut().zip(round(number)).for_each(|(count, failed)| *count += usize::from(failed));
            if failures.iter().all(|count| *count >= FAILURES) {
                return;
            }
            assert!(begin.elapsed() < MOST, "only so many calls failed: {failures:?}");
        }
    });
}

// A map of one shard, with so many entries, whose calls try so often.
fn filled(entries: u64, tries: u32) -> Map<u64, u64> {
    let map = Map::builder(1).open_shaped(&one_shard(40_000), 1, tries).unwrap();
    for key in 0..entries {
        map.insert(&key, key).unwrap();
    }
    map
}

// A map whose calls try so often. It has the key 1, and a write of any other key disturbs its lookups.
fn restless(tries: u32) -> Map<u64, u64> {
    let shape = Shape { stripes: 1, tries: 1, ..one_shard(100) };
    let map = Map::builder(1).open_shaped(&shape, 1, tries).unwrap();
    map.insert(&1, 10).unwrap();
    map
}

#[test]
fn a_write_that_does_not_get_the_turn_says_so() {
    let map = filled(20_000, 1);
    let list = || drop(map.inner.core.slots.call(Index::keys));
    beside(list, |number| {
        let key = number % 100;
        let before = map.get(&key);
        let inserted = map.insert(&key, number);
        match inserted {
            Ok(_) => assert_eq!(map.get(&key), Some(number)),
            Err(why) => assert_eq!((why, map.get(&key)), (InsertError::Held, before)),
        }
        let before = map.get(&key);
        let updated = map.update(&key, |old| old.map_or(0, |old| old + 1));
        match updated {
            Ok(new) => assert_eq!(map.get(&key), Some(new)),
            Err(why) => assert_eq!((why, map.get(&key)), (UpdateError::Insert(InsertError::Held), before)),
        }
        let before = map.get(&key);
        let removed = map.remove(&key);
        match removed {
            Ok(old) => assert_eq!((old, map.get(&key)), (before, None)),
            Err(why) => assert_eq!((why, map.get(&key)), (RemoveError::Held, before)),
        }
        [inserted.is_err(), updated.is_err(), removed.is_err()]
    });
}

// The map's other calls would try until they get the turn.
#[test]
fn a_single_try_of_a_write_does_not_wait_for_the_turn() {
    const HELD: Result<u64, UpdateError> = Err(UpdateError::Insert(InsertError::Held));
    let map = filled(20_000, TRIES);
    let list = || drop(map.inner.core.slots.call(Index::keys));
    beside(list, |number| {
        let (key, other) = (number % 100, 100 + number % 100);
        let inserted = map.try_insert(&key, number);
        let added = map.try_update(&(number + 1_000_000), |_| number);
        let updated = map.try_update(&other, |_| number);
        let removed = map.try_remove(&key);
        assert!(matches!(inserted, Ok(_) | Err(InsertError::Held)), "{inserted:?}");
        assert!(matches!((added, updated), (Ok(_) | HELD, Ok(_) | HELD)), "{added:?}, {updated:?}");
        assert!(matches!(removed, Ok(_) | Err(RemoveError::Held)), "{removed:?}");
        [inserted.is_err(), added.is_err(), updated.is_err(), removed.is_err()]
    });
}

#[test]
fn each_refusal_is_counted() {
    let map = filled(20_000, 1);
    let list = || drop(map.inner.core.slots.call(Index::keys));
    beside(list, |number| {
        // Of a key that is there nothing is made, so each round has a new one.
        let (new, number, before) = (number + 1_000_000, number % 1_000, map.stats());
        let failed = [
            map.insert(&number, 1).is_err(),
            map.update(&number, |_| 2).is_err(),
            map.remove(&number).is_err(),
            map.get_or_insert_with(&new, || 3) == 3 && map.get(&new).is_none(),
        ];
        let refused = failed.iter().filter(|failed| **failed).count() as u64;
        assert_eq!(map.stats().refused, before.refused + refused);
        failed
    });
}

#[test]
fn a_value_made_without_waiting_is_put_by_one_try() {
    let map = filled(20_000, TRIES);
    let list = || drop(map.inner.core.slots.call(Index::keys));
    beside(list, |number| {
        let (key, before) = (number + 1_000_000, map.stats().refused);
        assert_eq!(map.try_get_or_insert_with(&key, || 3), Ok(3));
        let refused = map.get(&key).is_none();
        assert_eq!(map.stats().refused, before + u64::from(refused));
        [refused]
    });
}

#[test]
fn a_value_is_made_without_waiting_after_one_lookup() {
    let map = restless(TRIES);
    let (inner, print) = (&map.inner, map.inner.print(&1_u64));
    let write = || {
        let _ = map.insert(&2, 20);
    };
    beside(write, |_| {
        let before = map.stats().busy;
        let found = map.try_get_or_insert_with(&1, || unreachable!("it is there"));
        assert!(matches!(found, Ok(10) | Err(GetError::Busy)), "{found:?}");
        assert_eq!(map.stats().busy, before + u64::from(found.is_err()));
        let Boarding::First(leader) = inner.core.flights.board(print) else { panic!("there is no other flight") };
        let made = inner.compute(print, Some(&leader), 1, || Err("it was not found"));
        [found.is_err(), made.is_err()]
    });
}

#[test]
fn a_single_lookup_does_not_wait() {
    let map = restless(TRIES);
    let write = || {
        let _ = map.insert(&2, 20);
    };
    beside(write, |_| {
        let (calls, found) = calls(|| map.try_get(&1));
        assert_eq!(calls, 1);
        [found == Err(GetError::Busy)]
    });
}

#[test]
fn a_clear_that_does_not_get_the_turn_says_so() {
    let map = filled(20_000, TRIES);
    let list = || drop(map.inner.core.slots.call(Index::keys));
    beside(list, |_| {
        let cleared = map.try_clear();
        match cleared {
            Ok(()) => assert_eq!((map.len(), map.get(&1)), (0, None)),
            Err(why) => assert_eq!(why, ClearError::Held),
        }
        [cleared.is_err()]
    });
}

#[test]
fn a_call_that_tries_more_often_is_not_refused() {
    let map = Map::<u64, u64>::builder(20_000).shards(1).open().unwrap();
    for key in 0..10_000 {
        map.insert(&key, key).unwrap();
    }
    let list = || drop(map.inner.core.slots.call(Index::keys));
    let (end, begin) = (AtomicBool::new(false), Instant::now());
    thread::scope(|threads| {
        threads.spawn(|| {
            while !end.load(SeqCst) {
                list();
            }
        });
        let _end = End(&end);
        let mut failed = 0;
        for number in 0..300 {
            failed += u32::from(map.insert(&number, number).is_err());
            failed += u32::from(map.update(&number, |old| old.unwrap_or(0) + 1).is_err());
            failed += u32::from(map.remove(&number).is_err());
            // The put comes some time after a turn.
            map.get_or_insert_with(&(number + 1_000_000), || {
                thread::sleep(Duration::from_micros(number));
                3
            });
            failed += u32::from(map.remove(&(number + 1_000_000)) != Ok(Some(3)));
        }
        failed += u32::from(map.clear().is_err());
        assert_eq!((failed, map.stats().refused, map.len()), (0, 0, 0), "after {:?}", begin.elapsed());
    });
}

#[test]
fn a_lookup_that_stays_busy_says_so_and_is_counted() {
    let map = restless(1);
    let write = || {
        let _ = map.insert(&2, 20);
    };
    beside(write, |_| {
        let before = map.stats().busy;
        let tried = map.try_get(&1);
        assert!(matches!(tried, Ok(Some(10)) | Err(GetError::Busy)), "{tried:?}");
        assert_eq!(map.stats().busy, before + u64::from(tried.is_err()));
        let found = map.get(&1);
        assert!(matches!(found, Some(10) | None));
        let before = map.stats().busy;
        let many = map.get_many(&[1]);
        assert!(matches!(many[..], [Some(10) | None]), "{many:?}");
        assert_eq!(map.stats().busy, before + u64::from(many == [None]));
        let removed = map.remove(&1);
        match removed {
            Ok(old) => {
                assert_eq!(old, Some(10));
                while map.insert(&1, 10).is_err() {}
            }
            Err(why) => assert!(matches!(why, RemoveError::Busy | RemoveError::Held)),
        }
        [tried.is_err(), found.is_none(), many == [None], removed == Err(RemoveError::Busy)]
    });
}

#[test]
fn a_busy_key_of_many_is_looked_up_again() {
    let map = restless(TRIES);
    let key = map.inner.print(&1_u64).key;
    let write = || {
        let _ = map.insert(&2, 20);
    };
    beside(write, |_| {
        let mut is_busy = false;
        let look = |_, seen: Seen| is_busy |= matches!(seen, Seen::Busy);
        map.inner.core.slots.call(|handle| AnyHandle::get_many::<u64>(handle, &[key; MANY], map.inner.layout, look));
        assert_eq!(map.get_many(&[1; 40]), [Some(10); 40]);
        [is_busy]
    });
    assert_eq!(map.stats().busy, 0);
}

// Only another key is written meanwhile. The lookups that try once alone are busy.
#[test]
fn a_change_after_a_busy_lookup_is_made_once() {
    let (map, busy) = (restless(TRIES), Cell::new(0));
    let write = || {
        let _ = map.insert(&2, 20);
    };
    beside(write, |_| {
        let mut calls = 0;
        let change = |old: Option<u64>| {
            calls += 1;
            old.unwrap()
        };
        assert_eq!((map.update(&1, change), calls), (Ok(10), 1));
        assert!(map.contains_key(&1));
        assert_eq!(map.get_or_insert_with(&1, || unreachable!("it is there")), 10);
        let is_busy = map.try_get(&1) == Err(GetError::Busy);
        busy.set(busy.get() + u64::from(is_busy));
        [is_busy]
    });
    assert_eq!((map.stats().busy, map.stats().misses, map.stats().refused), (busy.get(), 0, 0));
}

#[test]
fn a_removal_that_tries_once_may_be_busy() {
    let map = restless(TRIES);
    let write = || {
        let _ = map.insert(&2, 20);
    };
    beside(write, |_| {
        let before = map.stats().refused;
        let removed = map.try_remove(&1);
        match removed {
            Ok(old) => assert_eq!((old, map.insert(&1, 10)), (Some(10), Ok(Inserted::New))),
            Err(why) => assert!(matches!(why, RemoveError::Busy | RemoveError::Held), "{why:?}"),
        }
        assert_eq!(map.stats().refused, before + u64::from(removed.is_err()));
        let updated = map.try_update(&1, |old| old.unwrap());
        assert!(matches!(updated, Ok(10) | Err(UpdateError::Busy | UpdateError::Insert(InsertError::Held))), "{updated:?}");
        [removed == Err(RemoveError::Busy), updated == Err(UpdateError::Busy)]
    });
}

#[test]
fn a_lookup_that_tries_more_often_finds_its_key() {
    let map = restless(TRIES);
    let end = AtomicBool::new(false);
    thread::scope(|threads| {
        threads.spawn(|| {
            while !end.load(SeqCst) {
                map.insert(&2, 20).unwrap();
            }
        });
        let _end = End(&end);
        let lost = (0..5_000).filter(|_| map.get(&1).is_none()).count();
        assert_eq!((lost, map.stats().busy), (0, 0));
    });
}
