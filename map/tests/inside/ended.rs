//! Entries that have ended leave while calls put.
use super::turns::calls;
use crate::{Inserted, Map};
use std::time::Duration;

const HOUR: Duration = Duration::from_secs(3600);
const ENTRIES: u64 = 10;

type Numbers = Map<u64, u64>;

// It is full of entries that have ended.
fn full_of_ended() -> Numbers {
    let map = Numbers::builder(ENTRIES as usize).time_to_live(HOUR).open().unwrap();
    (0..ENTRIES).for_each(|key| assert!(map.insert(&key, 1).is_ok()));
    map.inner.core.clock.turn(HOUR);
    assert_eq!(map.len(), ENTRIES as usize);
    map
}

#[test]
fn in_a_full_shard_they_make_room() {
    let map = full_of_ended();
    (100..100 + ENTRIES).for_each(|key| assert_eq!(map.insert(&key, 2), Ok(Inserted::New)));
    assert!((100..100 + ENTRIES).all(|key| map.get(&key) == Some(2)));
    assert_eq!((map.stats().ended, map.stats().removed, map.stats().evicted), (ENTRIES, ENTRIES, 0));
    assert_eq!((map.stats().expired, map.len()), (0, ENTRIES as usize));
}

#[test]
fn computed_and_updated_values_take_them_out_too() {
    let map = full_of_ended();
    (100..105).for_each(|key| assert_eq!(map.get_or_insert_with(&key, || 2), 2));
    (105..110).for_each(|key| assert_eq!(map.update(&key, |_| 2), Ok(2)));
    assert_eq!((map.stats().ended, map.stats().evicted), (ENTRIES, 0));
}

#[test]
fn those_that_were_not_used_for_too_long_leave_too() {
    let map = Numbers::builder(ENTRIES as usize).time_to_idle(HOUR).open().unwrap();
    (0..ENTRIES).for_each(|key| assert!(map.insert(&key, 1).is_ok()));
    map.inner.core.clock.turn(HOUR);
    (100..100 + ENTRIES).for_each(|key| assert_eq!(map.insert(&key, 2), Ok(Inserted::New)));
    assert_eq!((map.stats().ended, map.stats().evicted, map.len()), (ENTRIES, 0, ENTRIES as usize));
}

// So it is overwritten in place, and an update that tries once finds nobody before it.
#[test]
fn a_put_leaves_what_its_own_key_has() {
    let map = full_of_ended();
    assert_eq!((map.insert(&0, 3), map.try_update(&1, |old| old.map_or(4, |_| 5))), (Ok(Inserted::Renewed), Ok(4)));
    assert_eq!((map.get(&0), map.get(&1)), (Some(3), Some(4)));
}

#[test]
fn those_that_have_not_ended_stay() {
    let map = Numbers::builder(ENTRIES as usize).time_to_live(HOUR).open().unwrap();
    (0..5).for_each(|key| assert!(map.insert(&key, 1).is_ok()));
    (0..100).for_each(|number| assert!(map.insert(&5, number).is_ok()));
    assert_eq!((map.len(), map.stats().ended), (6, 0));
}

#[test]
fn a_map_without_times_looks_at_none() {
    let (plain, timed) = (Numbers::new(10).unwrap(), Numbers::builder(10).time_to_idle(HOUR).open().unwrap());
    assert!(plain.insert(&1, 1).is_ok() && timed.insert(&1, 1).is_ok());
    let (of_plain, _) = calls(|| plain.insert(&1, 2));
    let (of_timed, _) = calls(|| timed.insert(&1, 2));
    assert_eq!((of_plain, of_timed), (1, 3));
}

#[cfg(feature = "objects")]
#[test]
fn a_listener_hears_that_objects_had_expired() {
    use crate::{ObjectMap, Reason};
    use std::sync::{Arc, Mutex};

    let heard = Arc::new(Mutex::new(Vec::new()));
    let hears = Arc::clone(&heard);
    let builder = ObjectMap::<u64, u64>::builder(ENTRIES as usize).time_to_live(Duration::MAX).max_weight(100, |_, _| 1);
    let map = builder.listener(move |key, _, reason| hears.lock().unwrap().push((*key, reason))).open().unwrap();
    (0..5).for_each(|key| assert!(map.insert_for(key, 1, HOUR).is_ok()));
    (5..ENTRIES).for_each(|key| assert!(map.insert(key, 1).is_ok()));
    map.inner.core.clock.turn(HOUR);
    map.invalidate_all();
    assert!((100..100 + ENTRIES).all(|key| map.insert(key, 2).is_ok_and(|did| did == Inserted::New)));
    let mut heard = heard.lock().unwrap().clone();
    heard.sort_unstable_by_key(|(key, _)| *key);
    assert_eq!(heard, (0..ENTRIES).map(|key| (key, Reason::Expired)).collect::<Vec<_>>());
    assert_eq!((map.stats().ended, map.stats().evicted, map.weight()), (ENTRIES, 0, ENTRIES));
}
