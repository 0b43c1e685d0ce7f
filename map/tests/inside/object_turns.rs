//! Calls of a map of objects while another thread has the turn, and calls between whose calls of the index another write comes.
use super::one_shard;
use super::turns::{before_calls, calls, Turn};
use crate::{AbsentError, ClearError, IfError, InsertError, Inserted, Look, ObjectMap, RemoveError, UpdateError};
use cefrodil::Handle;
use std::cell::RefCell;
use std::rc::Rc;
use std::time::Duration;

type Numbers = ObjectMap<u64, u64>;

const HELD: InsertError = InsertError::Held;
const UPDATE_HELD: UpdateError = UpdateError::Insert(HELD);

/// How often a call tries here.
const TRIES: u32 = 5;

const LIFE: Duration = Duration::MAX;

// A map of one shard with the key 1, and the moment of its put.
fn open() -> (Numbers, u64) {
    let map = ObjectMap::builder(1).open_shaped(&one_shard(100), 1, TRIES).unwrap();
    let since = map.put(1, 10, None).unwrap().at;
    (map, since)
}

fn hold(map: &Numbers) -> Turn {
    Turn::begin(&map.inner.core.slots, |handle: &mut Handle<1>| handle.try_entries())
}

#[test]
fn a_write_that_is_held_tries_so_often_and_changes_nothing() {
    let (map, since) = open();
    let turn = hold(&map);
    assert_eq!(calls(|| map.insert(1, 11).map_err(|back| back.why)), (TRIES, Err(HELD)));
    assert_eq!(calls(|| map.insert_for(1, 11, LIFE).map_err(|back| back.why)), (TRIES, Err(HELD)));
    assert_eq!(calls(|| map.put(1, 11, None).map_err(|back| back.why)), (TRIES, Err(HELD)));
    let absent = AbsentError::Insert(HELD);
    assert_eq!(calls(|| map.insert_if_absent(2, 20).map_err(|back| back.why)), (1 + TRIES, Err(absent)));
    assert_eq!(calls(|| map.replace_if(1, since, 11, None).map_err(|back| back.why)), (1 + TRIES, Err(IfError::Held)));
    assert_eq!(calls(|| map.update(1, |_| 11)), (1 + TRIES, Err(UPDATE_HELD)));
    assert_eq!(calls(|| map.update(2, |_| 20)), (1 + TRIES, Err(UPDATE_HELD)));
    assert_eq!(calls(|| map.modify(&1, |_| 11)), (1 + TRIES, Err(UPDATE_HELD)));
    assert_eq!(calls(|| map.modify_for(&1, LIFE, |_| 11)), (1 + TRIES, Err(UPDATE_HELD)));
    assert_eq!(calls(|| map.remove(&1)), (1 + TRIES, Err(RemoveError::Held)));
    assert_eq!(calls(|| map.remove_with(&1, |value| *value)), (1 + TRIES, Err(RemoveError::Held)));
    assert_eq!(calls(|| map.remove_if(&1, since)), (1 + TRIES, Err(IfError::Held)));
    assert_eq!(calls(|| map.remove_stamped(map.hash_of(&1), since)), (TRIES, Err(IfError::Held)));
    assert_eq!(calls(|| map.clear()), (TRIES, Err(ClearError::Held)));
    assert_eq!(calls(|| map.remove_expired()), (TRIES, Err(ClearError::Held)));
    assert_eq!(calls(|| map.retain(|_, _| false)), (TRIES, Err(ClearError::Held)));
    assert_eq!(calls(|| map.take(&1).map(drop)), (1 + TRIES, Err(RemoveError::Held)));
    assert_eq!((map.stats().refused, map.get(&1), map.get(&2), map.len()), (17, Some(10), None, 1));
    drop(turn);
    assert_eq!((map.insert(2, 20).is_ok(), map.remove(&1)), (true, Ok(Some(10))));
}

#[test]
fn a_single_try_is_one() {
    let (map, _) = open();
    let turn = hold(&map);
    assert_eq!(calls(|| map.try_insert(1, 11).map_err(|back| back.why)), (1, Err(HELD)));
    assert_eq!(calls(|| map.try_update(1, |_| 11)), (2, Err(UPDATE_HELD)));
    assert_eq!(calls(|| map.try_update(2, |_| 20)), (2, Err(UPDATE_HELD)));
    assert_eq!(calls(|| map.try_remove(&1)), (2, Err(RemoveError::Held)));
    assert_eq!((calls(|| map.try_get(&1)), calls(|| map.try_get(&2))), ((1, Ok(Some(10))), (1, Ok(None))));
    assert_eq!((map.stats().refused, map.len()), (4, 1));
    drop(turn);
    assert_eq!(map.try_insert(1, 11).map_err(|back| back.why), Ok(Inserted::Renewed));
    assert_eq!(map.try_update(1, |old| old.map_or(0, |old| old + 1)).map(|put| put.did), Ok(Inserted::Renewed));
    assert_eq!((map.try_remove(&1), map.try_remove(&1)), (Ok(Some(12)), Ok(None)));
}

#[test]
fn a_single_try_that_is_overtaken_says_so() {
    let (map, _) = open();
    let mut calls_of_change = 0;
    let change = |_: Option<&u64>| {
        calls_of_change += 1;
        11
    };
    assert_eq!(beside_puts(&map, None, 1, || map.try_update(1, change)), Err(UpdateError::Contended));
    assert_eq!(beside_puts(&map, None, 1, || map.try_remove(&1)), Err(RemoveError::Contended));
    assert_eq!((calls_of_change, map.get(&1)), (1, Some(20)));
}

#[test]
fn a_computed_value_is_returned_though_its_put_is_held() {
    let (map, _) = open();
    let _turn = hold(&map);
    // The call looks the key up, looks again as the leader of a flight, and once more before its put.
    assert_eq!(calls(|| map.get_or_insert_with(&2, || 20)), (3 + TRIES, 20));
    assert_eq!(calls(|| map.try_get_or_insert_with(&2, || 22)), (3 + 1, Ok(22)));
    assert_eq!((map.get(&2), map.stats().refused, map.stats().added), (None, 2, 1));
}

#[test]
fn lookups_and_renewals_in_place_need_no_turn() {
    let (map, since) = open();
    let _turn = hold(&map);
    assert_eq!((map.get(&1), map.contains_key(&2), map.touch(&1, LIFE)), (Some(10), false, true));
    assert_eq!(map.look(&1, |value| *value), Ok(Look::Found { result: 10, at: since, since }));
    let mut found = Vec::new();
    map.get_many_with(&[&2, &1], |index, value| found.push((index, *value)));
    assert_eq!((found, map.stats().refused, map.stats().busy), (vec![(1, 10)], 0, 0));
}

// The other thread has the turn once the entries are listed.
#[test]
fn a_sweep_whose_removal_is_held_says_so() {
    type Sweep = fn(&Numbers) -> Result<(), ClearError>;
    let sweeps: [(Sweep, Duration); 3] = [
        (|map| map.clear(), Duration::ZERO),
        (|map| map.remove_expired().map(drop), Duration::ZERO),
        (|map| map.retain(|_, _| false).map(drop), LIFE),
    ];
    for (sweep, life) in sweeps {
        let ((map, _), turn) = (open(), Rc::new(RefCell::new(None)));
        map.insert_for(1, 11, life).unwrap();
        let (held, taken) = (map.clone(), Rc::clone(&turn));
        before_calls(1, 1, move || drop(taken.replace(Some(hold(&held)))));
        assert_eq!(calls(|| sweep(&map)), (1 + TRIES, Err(ClearError::Held)));
        assert_eq!((map.len(), map.stats().refused, map.stats().removed), (1, 1, 0));
    }
}

// Makes the call. After each of its lookups the key 1 is put anew, so many times.
fn beside_puts<T>(map: &Numbers, life: Option<Duration>, times: u32, call: impl FnOnce() -> T) -> T {
    let other = map.clone();
    before_calls(1, times, move || assert_eq!(other.put(1, 20, life).unwrap().did, Inserted::Renewed));
    calls(call).1
}

// Makes the call. After its first lookup the key 1 is removed.
fn beside_a_removal<T>(map: &Numbers, call: impl FnOnce() -> T) -> T {
    let other = map.clone();
    before_calls(1, 1, move || assert!(other.remove(&1).is_ok_and(|value| value.is_some())));
    calls(call).1
}

#[test]
fn a_removal_that_is_overtaken_takes_the_last_value_or_says_so() {
    let (map, since) = open();
    assert_eq!(beside_puts(&map, None, TRIES, || map.remove(&1)), Err(RemoveError::Contended));
    assert_eq!((map.get(&1), map.len(), map.stats().removed, map.stats().refused), (Some(20), 1, 0, 1));
    let at = since + u64::from(TRIES);
    assert_eq!(beside_puts(&map, None, 1, || map.remove_if(&1, at)), Err(IfError::Changed { since: at + 1 }));
    assert_eq!((map.get(&1), map.stats().removed, map.stats().refused), (Some(20), 0, 1));
    let taken = beside_puts(&map, None, TRIES - 1, || map.remove_with(&1, |value| *value));
    let at = at + u64::from(TRIES);
    assert_eq!(taken, Ok(Look::Found { result: 20, at: at + 1, since: at }));
    assert_eq!((map.len(), map.stats().removed, map.stats().refused), (0, 1, 1));
}

#[test]
fn an_object_is_taken_by_one_removal_alone() {
    let (map, since) = open();
    assert_eq!(beside_a_removal(&map, || map.remove_with(&1, |_| ())), Ok(Look::Absent { at: since + 1 }));
    assert_eq!((map.len(), map.stats().removed, map.stats().refused), (0, 1, 0));
    let (map, since) = open();
    assert_eq!(beside_a_removal(&map, || map.remove_if(&1, since)), Err(IfError::NotThere { at: since + 1 }));
    assert_eq!((map.len(), map.stats().removed, map.stats().refused), (0, 1, 0));
}

#[test]
fn a_renewal_that_is_overtaken_begins_anew_or_says_so() {
    let (map, _) = open();
    assert_eq!(beside_puts(&map, None, TRIES, || map.modify_for(&1, LIFE, |old| old + 1)), Err(UpdateError::Contended));
    assert_eq!((map.get(&1), map.stats().refused), (Some(20), 1));
    assert!(beside_puts(&map, None, TRIES - 1, || map.modify_for(&1, LIFE, |old| old + 1)).unwrap().is_some());
    assert_eq!((map.get(&1), map.stats().refused), (Some(21), 1));
}

#[test]
fn a_change_undoes_no_removal() {
    let (map, _) = open();
    let modified = beside_a_removal(&map, || map.modify(&1, |old| old + 1));
    assert_eq!((modified, map.get(&1), map.len()), (Ok(None), None, 0));
    let (map, _) = open();
    let modified = beside_a_removal(&map, || map.modify_for(&1, LIFE, |old| old + 1));
    assert_eq!((modified, map.get(&1), map.len()), (Ok(None), None, 0));
    let (map, _) = open();
    beside_a_removal(&map, || map.update(1, |old| old.map_or(7, |old| old + 1))).unwrap();
    assert_eq!((map.get(&1), map.len(), map.stats().added, map.stats().removed), (Some(7), 1, 2, 1));
}

// These put over an expired value, which is put anew after each lookup, and has expired again.
#[test]
fn a_put_over_an_expired_value_that_is_overtaken_says_so() {
    let (map, _) = open();
    let expired = Some(Duration::ZERO);
    map.put(1, 11, expired).unwrap();
    let added = beside_puts(&map, expired, TRIES, || map.insert_if_absent(1, 12)).unwrap_err();
    assert_eq!((added.why, added.key, added.value), (AbsentError::Contended, 1, 12));
    assert_eq!(beside_puts(&map, expired, TRIES, || map.update(1, |_| 12)), Err(UpdateError::Contended));
    assert_eq!((map.get(&1), map.stats().refused), (None, 2));
    assert!(beside_puts(&map, expired, TRIES - 1, || map.insert_if_absent(1, 12)).is_ok());
    assert_eq!((map.get(&1), map.stats().refused), (Some(12), 2));
}

// So the time of its own that the put has is not lost.
#[test]
fn a_put_that_begins_anew_has_its_own_time() {
    let (map, _) = open();
    map.put(1, 11, Some(Duration::ZERO)).unwrap();
    let day = Some(Duration::from_secs(86_400));
    beside_puts(&map, Some(Duration::ZERO), 1, || map.put_if_absent(1, 12, day)).unwrap();
    assert_eq!(map.get(&1), Some(12));
    map.inner.core.clock.turn(Duration::from_secs(86_401));
    assert_eq!(map.get(&1), None);
}

// The object is replaced when the lock is taken that keeps deadlines still. The later one is renewed.
#[test]
fn a_touch_renews_the_object_that_is_there() {
    let (map, since) = open();
    let other = map.clone();
    before_calls(1, 1, move || assert!(other.replace_if(1, since, 20, Some(Duration::from_secs(100))).is_ok()));
    assert!(calls(|| map.touch(&1, Duration::from_secs(1_000))).1);
    map.inner.core.clock.turn(Duration::from_secs(500));
    assert_eq!(map.get(&1), Some(20));
    let touched = beside_a_removal_in_turn(&map);
    assert_eq!((touched, map.get(&1)), (false, None));
}

fn beside_a_removal_in_turn(map: &Numbers) -> bool {
    beside_a_removal(map, || map.touch(&1, LIFE))
}

#[test]
fn a_touch_that_is_overtaken_begins_anew_or_says_so() {
    let (map, _) = open();
    assert!(beside_puts(&map, None, TRIES - 1, || map.touch(&1, LIFE)));
    assert!(!beside_puts(&map, None, TRIES, || map.touch(&1, LIFE)));
}

#[test]
fn a_clear_counts_what_it_removed_itself() {
    for removed in [0, 1, 4, 10] {
        let (map, _) = open();
        (2..=10).for_each(|key| assert!(map.insert(key, key).is_ok()));
        let other = map.clone();
        before_calls(1, 1, move || (1..=removed).for_each(|key| assert!(other.remove(&key).is_ok_and(|value| value.is_some()))));
        assert_eq!(calls(|| map.clear()).1, Ok(()));
        assert_eq!((map.len(), map.is_empty(), map.stats().removed), (0, true, 10));
    }
}

// The entry is put anew once the call has listed it.
#[test]
fn what_was_put_since_is_not_removed_as_expired() {
    let (map, _) = open();
    map.put(1, 11, Some(Duration::ZERO)).unwrap();
    let other = map.clone();
    before_calls(1, 1, move || assert!(other.insert(1, 20).is_ok()));
    assert_eq!(calls(|| map.remove_expired()).1, Ok(0));
    assert_eq!((map.get(&1), map.stats().removed, map.stats().refused), (Some(20), 0, 0));
}

// What expires while a call has its key's lock is not taken out before the call has ended.
#[test]
fn what_has_expired_waits_for_the_lock_of_its_key() {
    let (map, _) = open();
    map.put(1, 11, Some(Duration::ZERO)).unwrap();
    let locked = map.inner.core.hold_lock(map.hash_of(&1));
    assert_eq!((map.remove_expired(), map.len()), (Err(ClearError::Held), 1));
    drop(locked);
    assert_eq!((map.remove_expired(), map.len()), (Ok(1), 0));
}

// So an object that has just been listed can't be freed before it is shown.
#[test]
fn a_call_for_each_object_keeps_them_before_it_lists_them() {
    let (map, _) = open();
    let other = map.clone();
    before_calls(0, 1, move || assert_eq!((other.remove(&1), other.free_unused()), (Ok(Some(10)), 1)));
    assert_eq!(calls(|| map.for_each(|_, _| ())).1, Ok(()));
    assert_eq!(map.free_unused(), 0);
}
