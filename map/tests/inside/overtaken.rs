//! Calls of a map between whose calls of the index another write comes: they begin anew, so often as they may, and undo nothing.
use super::one_shard;
use super::turns::{before_calls, calls};
use crate::{Inserted, Map, RemoveError, UpdateError};
use std::cell::Cell;
use std::time::Duration;

type Numbers = Map<u64, u64>;

/// How often a call tries here.
const TRIES: u32 = 5;

const LIFE: Duration = Duration::MAX;

// A map with the key 1.
fn open() -> Numbers {
    let map = Map::builder(1).time_to_live(LIFE).open_shaped(&one_shard(100), 1, TRIES).unwrap();
    map.insert(&1, 10).unwrap();
    map
}

/// A removal makes so many calls of the index before the one that removes, and a change before its put, which first looks for what has ended.
const REMOVAL: u32 = 1;
const CHANGE: u32 = 3;

// Makes the call. After each such number of calls of the index the key 1 is put anew, so many times.
fn beside_puts<T>(map: &Numbers, after: u32, times: u32, call: impl FnOnce() -> T) -> T {
    let other = map.clone();
    before_calls(after, times, move || assert_eq!(other.insert(&1, other.get(&1).unwrap_or(20) + 1), Ok(Inserted::Renewed)));
    calls(call).1
}

// Makes the call. After its first lookup the key 1 is removed.
fn beside_a_removal<T>(map: &Numbers, call: impl FnOnce() -> T) -> T {
    let other = map.clone();
    before_calls(1, 1, move || assert_eq!(other.remove(&1), Ok(Some(10))));
    calls(call).1
}

#[test]
fn a_removal_takes_the_last_value_or_says_that_it_was_overtaken() {
    let map = open();
    assert_eq!(beside_puts(&map, REMOVAL, TRIES, || map.remove(&1)), Err(RemoveError::Contended));
    assert_eq!((map.get(&1), map.len(), map.stats().removed, map.stats().refused), (Some(15), 1, 0, 1));
    assert_eq!(beside_puts(&map, REMOVAL, 1, || map.try_remove(&1)), Err(RemoveError::Contended));
    assert_eq!((map.get(&1), map.stats().refused), (Some(16), 2));
    assert_eq!(beside_puts(&map, REMOVAL, TRIES - 1, || map.remove(&1)), Ok(Some(20)));
    assert_eq!((map.get(&1), map.len(), map.stats().removed, map.stats().refused), (None, 0, 1, 2));
}

#[test]
fn a_value_is_returned_by_one_removal_alone() {
    type Removal = fn(&Numbers) -> Result<Option<u64>, RemoveError>;
    let removals: [Removal; 2] = [|map| map.remove(&1), |map| map.try_remove(&1)];
    for remove in removals {
        let map = open();
        assert_eq!(beside_a_removal(&map, || remove(&map)), Ok(None));
        assert_eq!((map.get(&1), map.len(), map.stats().removed, map.stats().refused), (None, 0, 1, 0));
    }
}

#[test]
fn a_change_begins_anew_with_what_was_put() {
    type Change = fn(&Numbers, &dyn Fn(u64) -> u64) -> Result<Option<u64>, UpdateError>;
    let changes: [Change; 3] = [
        |map, change| map.update(&1, |old| change(old.unwrap())).map(Some),
        |map, change| map.modify(&1, change),
        |map, change| map.modify_for(&1, LIFE, change),
    ];
    for change in changes {
        let (map, called) = (open(), Cell::new(0));
        let double = |old| {
            called.set(called.get() + 1);
            2 * old
        };
        assert_eq!(beside_puts(&map, CHANGE, TRIES, || change(&map, &double)), Err(UpdateError::Contended));
        assert_eq!((called.get(), map.get(&1), map.stats().refused), (TRIES, Some(15), 1));
        assert_eq!(beside_puts(&map, CHANGE, TRIES - 1, || change(&map, &double)), Ok(Some(38)));
        assert_eq!((called.get(), map.get(&1), map.stats().refused), (2 * TRIES, Some(38), 1));
        // The puts in between, and one of the changes.
        assert_eq!((map.stats().added, map.stats().renewed), (1, u64::from(2 * TRIES - 1) + 1));
    }
}

#[test]
fn a_change_undoes_no_removal() {
    let map = open();
    assert_eq!(beside_a_removal(&map, || map.modify(&1, |_| 11)), Ok(None));
    assert_eq!((map.get(&1), map.len()), (None, 0));
    let map = open();
    assert_eq!(beside_a_removal(&map, || map.modify_for(&1, LIFE, |_| 11)), Ok(None));
    assert_eq!((map.get(&1), map.len()), (None, 0));
    let map = open();
    assert_eq!(beside_a_removal(&map, || map.update(&1, |old| old.map_or(7, |old| old + 1))), Ok(7));
    assert_eq!((map.get(&1), map.len(), map.stats().added, map.stats().removed), (Some(7), 1, 2, 1));
}

// The key is absent when it is looked up, and there when it is put.
#[test]
fn an_update_of_an_absent_key_overwrites_no_other() {
    let map = open();
    let other = map.clone();
    before_calls(1, 1, move || assert_eq!(other.insert(&2, 20), Ok(Inserted::New)));
    assert_eq!(calls(|| map.update(&2, |old| old.map_or(7, |old| old + 1))).1, Ok(21));
    let other = map.clone();
    before_calls(1, 1, move || assert_eq!(other.insert(&3, 30), Ok(Inserted::New)));
    assert_eq!(calls(|| map.try_update(&3, |_| 7)).1, Err(UpdateError::Contended));
    assert_eq!((map.get(&2), map.get(&3), map.len(), map.stats().refused), (Some(21), Some(30), 3, 1));
}

#[test]
fn a_clear_counts_what_it_removed_itself() {
    for removed in [0, 1, 4, 10] {
        let map = open();
        (2..=10).for_each(|key| assert_eq!(map.insert(&key, key), Ok(Inserted::New)));
        let other = map.clone();
        // The keys are listed by then.
        before_calls(1, 1, move || (1..=removed).for_each(|key| assert!(other.remove(&key).unwrap().is_some())));
        assert_eq!(calls(|| map.clear()).1, Ok(()));
        assert_eq!((map.len(), map.is_empty(), map.stats().removed), (0, true, 10));
    }
}

// The value has expired when the key is looked up.
#[test]
fn an_update_over_an_expired_value_begins_anew_with_what_was_put() {
    let map = open();
    map.insert_for(&1, 10, Duration::ZERO).unwrap();
    assert_eq!(beside_puts(&map, CHANGE, 1, || map.update(&1, |old| old.map_or(7, |old| old + 1))), Ok(22));
    map.insert_for(&1, 10, Duration::ZERO).unwrap();
    assert_eq!(beside_puts(&map, REMOVAL, 1, || map.remove(&1)), Ok(Some(21)));
}
