//! A bound on the sum of what the entries weigh.
use crate::ends::ends;
use crate::ledger::done;
use cefrodil_map::{AbsentError, IfError, InsertError, Inserted, ObjectMap, Reason, UpdateError};
use std::hash::{BuildHasher, RandomState};
use std::ops::Range;
use std::panic::{catch_unwind, AssertUnwindSafe};
use std::sync::atomic::{AtomicBool, AtomicU64, Ordering::SeqCst};
use std::sync::{Arc, Mutex};
use std::thread;
use std::time::Duration;

type Numbers = ObjectMap<u64, u64>;

const MOST: u64 = 100;

// A value is its weight.
fn open() -> Numbers {
    ObjectMap::builder(1_000).shards(1).max_weight(MOST, |_, value| *value).open().unwrap()
}

fn sum(map: &Numbers) -> u64 {
    let mut sum = 0;
    map.for_each(|_, value| sum += value).unwrap();
    sum
}

fn put_all(map: &Numbers, keys: impl Iterator<Item = u64>, weight: u64) {
    for key in keys {
        map.insert(key, weight).unwrap();
    }
}

fn keys(map: &Numbers) -> Vec<u64> {
    let mut keys = Vec::new();
    map.for_each(|key, _| keys.push(*key)).unwrap();
    keys.sort_unstable();
    keys
}

#[test]
fn those_give_way_that_were_not_used() {
    let map = open();
    for key in 0..10 {
        assert_eq!(map.insert(key, 10).unwrap(), Inserted::New);
    }
    assert_eq!((map.weight(), map.len(), map.stats().evicted), (100, 10, 0));
    assert!((0..8).all(|key| map.get(&key) == Some(10)) && map.peek(&8) == Ok(Some(10)));
    assert_eq!(map.insert(10, 15).unwrap(), Inserted::Evicted);
    assert_eq!((keys(&map), map.weight()), (vec![0, 1, 2, 3, 4, 5, 6, 7, 10], 95));
    assert_eq!((map.insert(11, 5).unwrap(), map.weight()), (Inserted::New, 100));
    assert!(map.contains_key(&10) && map.contains_key(&11));
    // All that others leave, even if they were used.
    map.insert(12, 100).unwrap();
    assert_eq!((keys(&map), map.weight(), map.len()), (vec![12], 100, 1));
    let stats = map.stats();
    assert_eq!((stats.added, stats.evicted, stats.removed, stats.refused), (13, 12, 0, 0));
}

/// Popular keys, and scans of others.
const POPULAR: Range<u64> = 0..50;

#[test]
fn scans_evict_no_key_that_is_used_between() {
    let map: Numbers = ObjectMap::builder(200).shards(1).max_weight(200, |_, _| 1).open().unwrap();
    put_all(&map, POPULAR, 1);
    for scan in 1..20 {
        assert!(POPULAR.clone().all(|key| map.contains_key(&key)), "before scan {scan}");
        put_all(&map, scan * 1_000..scan * 1_000 + 400, 1);
        assert_eq!(map.weight(), 200);
    }
}

#[test]
fn what_was_just_put_does_not_give_way_while_others_are_there() {
    let map = open();
    put_all(&map, [1, 2].into_iter(), 50);
    assert!(map.contains_key(&1) && map.contains_key(&2));
    map.insert(3, 15).unwrap();
    assert_eq!((map.peek(&3), map.len(), map.weight()), (Ok(Some(15)), 2, 65));
    map.insert(4, 60).unwrap();
    assert_eq!((map.peek(&3), map.peek(&4), map.weight()), (Ok(None), Ok(Some(60)), 60));
    // It is over the bound by itself for a moment, and no other has to give way.
    map.insert(5, 40).unwrap();
    map.insert(4, 55).unwrap();
    assert_eq!((map.peek(&4), map.peek(&5)), (Ok(Some(55)), Ok(Some(40))));
    map.insert(4, 65).unwrap();
    assert_eq!((map.peek(&4), map.peek(&5), map.weight()), (Ok(Some(65)), Ok(None), 65));
}

// Each shard has an object at most. The object of another one gives way.
#[test]
fn an_object_gives_way_whatever_its_shard_is() {
    for (shards, hashed) in [(1, false), (16, false), (256, false), (16, true), (256, true)] {
        let builder = ObjectMap::<u64, u64>::builder(4_000).max_weight(MOST, |_, value| *value).shards(shards);
        if hashed {
            one_heavy_after_the_other(&builder.hasher(RandomState::new()).open().unwrap());
        } else {
            one_heavy_after_the_other(&builder.open().unwrap());
        }
    }
}

fn one_heavy_after_the_other<S: BuildHasher>(map: &ObjectMap<u64, u64, S>) {
    for key in 0..300 {
        map.insert(key, 60).unwrap();
        assert_eq!((map.get(&key), map.len(), map.weight()), (Some(60), 1, 60));
        map.update(key, |old| old.unwrap() + 30).unwrap();
        assert_eq!((map.get(&key), map.len(), map.weight()), (Some(90), 1, 90));
    }
}

#[test]
fn a_bound_that_shrinks_evicts_and_one_that_grows_leaves_room() {
    let map: Numbers = ObjectMap::builder(1_000).max_weight(MOST, |_, value| *value).open().unwrap();
    put_all(&map, 0..10, 10);
    assert_eq!((map.set_most_weight(35), map.weight(), map.len(), map.stats().evicted), (Ok(()), 30, 3, 7));
    assert_eq!(map.insert(10, 36).unwrap_err().why, InsertError::TooHeavy);
    map.set_most_weight(200).unwrap();
    put_all(&map, 10..27, 10);
    assert_eq!((map.weight(), map.stats().evicted), (200, 7));
    let unbounded = Numbers::new(10).unwrap();
    unbounded.insert(1, 1).unwrap();
    assert_eq!((unbounded.set_most_weight(0), unbounded.len()), (Ok(()), 1));
}

#[test]
fn a_bound_of_zero_holds_what_weighs_nothing() {
    let map: Numbers = ObjectMap::builder(10).max_weight(0, |_, value| *value).open().unwrap();
    assert_eq!(map.insert(1, 1).unwrap_err().why, InsertError::TooHeavy);
    assert_eq!((map.insert(1, 0).unwrap(), map.get(&1), map.weight()), (Inserted::New, Some(0), 0));
}

#[test]
fn weights_of_all_sizes_stay_within_the_bound() {
    let map: Numbers = ObjectMap::builder(1_000).max_weight(200, |_, value| *value).open().unwrap();
    let mut state = 1u64;
    for _ in 0..50_000 {
        state = state.wrapping_mul(6364136223846793005).wrapping_add(1442695040888963407);
        let (key, weight) = (state >> 33 & 127, (state >> 40) % 60);
        match state >> 61 {
            0..=3 => done(map.insert(key, weight).unwrap()),
            4 => done(map.remove(&key).unwrap()),
            _ => done(map.get(&key)),
        }
        assert!(map.weight() <= 200);
    }
    assert_eq!(map.weight(), sum(&map));
}

#[test]
fn the_listener_hears_what_gives_way() {
    let heard = Arc::new(Mutex::new(Vec::new()));
    let hears = Arc::clone(&heard);
    let map = ObjectMap::builder(100)
        .max_weight(MOST, |_: &u64, value: &u64| *value)
        .listener(move |key, _, reason| hears.lock().unwrap().push((*key, reason)))
        .open()
        .unwrap();
    map.insert(1, 60).unwrap();
    for (key, weight) in [(2, 40), (2, 30), (3, 50)] {
        map.insert(key, weight).unwrap();
    }
    assert_eq!(*heard.lock().unwrap(), [(2, Reason::Replaced), (1, Reason::Evicted)]);
    assert_eq!(map.weight(), 80);
}

#[test]
fn what_leaves_or_is_not_put_weighs_nothing() {
    let map = open();
    let since = map.put(1, 30, None).unwrap().at;
    map.insert(2, 20).unwrap();
    assert_eq!(map.weight(), 50);
    assert_eq!(map.insert(1, 40).unwrap(), Inserted::Renewed);
    assert_eq!(map.weight(), 60);
    assert!(matches!(map.insert_if_absent(1, 7).unwrap_err().why, AbsentError::Present { .. }));
    assert!(matches!(map.replace_if(1, since, 7, None).unwrap_err().why, IfError::Changed { .. }));
    assert_eq!((map.weight(), sum(&map)), (60, 60));
    map.update(1, |old| old.unwrap() + 5).unwrap();
    map.modify(&2, |old| old - 5).unwrap().unwrap();
    map.modify_for(&2, Duration::MAX, |old| old + 1).unwrap().unwrap();
    assert_eq!((map.weight(), sum(&map)), (61, 61));
    assert_eq!((map.get_or_insert_with(&3, || 9), map.weight()), (9, 70));
    assert_eq!((map.remove(&1), map.weight()), (Ok(Some(45)), 25));
    map.insert_for(4, 8, Duration::ZERO).unwrap();
    assert_eq!((map.weight(), map.remove_expired(), map.weight()), (33, Ok(1), 25));
    map.clear().unwrap();
    assert_eq!((map.weight(), map.len()), (0, 0));
}

#[test]
fn what_is_heavier_than_all_is_refused_and_changes_nothing() {
    let map = open();
    let since = map.put(1, 30, None).unwrap().at;
    let refused = map.insert(1, MOST + 1).unwrap_err();
    assert_eq!((refused.why, refused.key, refused.value), (InsertError::TooHeavy, 1, MOST + 1));
    assert_eq!(refused.to_string(), "the entry weighs more than the map may hold");
    assert_eq!(map.insert_if_absent(2, u64::MAX).unwrap_err().why, AbsentError::Insert(InsertError::TooHeavy));
    assert_eq!(map.replace_if(1, since, 101, None).unwrap_err().why, IfError::TooHeavy);
    assert_eq!(map.update(1, |_| 101), Err(UpdateError::Insert(InsertError::TooHeavy)));
    assert_eq!(map.modify(&1, |_| 101), Err(UpdateError::Insert(InsertError::TooHeavy)));
    assert_eq!((map.get_or_insert_with(&2, || 101), map.get(&2)), (101, None));
    assert_eq!((map.get(&1), map.weight(), sum(&map), map.stats().refused), (Some(30), 30, 30, 6));
    assert_eq!((map.insert(1, MOST).unwrap(), map.weight()), (Inserted::Renewed, MOST));
}

#[test]
fn a_map_without_a_weigher_weighs_nothing() {
    let map = Numbers::new(10).unwrap();
    map.insert(1, 1).unwrap();
    assert_eq!(map.weight(), 0);
}

#[test]
fn a_full_shard_evicts_as_well() {
    let map = ObjectMap::builder(50).max_weight(1_000, |_: &u64, value: &u64| *value).open().unwrap();
    for key in 0..500 {
        map.insert(key, 1 + key % 7).unwrap();
    }
    assert!(map.len() <= map.capacity() && map.stats().evicted >= 400);
    assert_eq!(map.weight(), sum(&map));
}

// The listener hears of what made room before the put, or of what the put has replaced.
#[test]
fn a_put_that_woke_a_panic_leaves_the_sum_right() {
    let panics = Arc::new(AtomicBool::new(false));
    let is_to_panic = Arc::clone(&panics);
    let listener = move |_: &u64, _: &u64, _| assert!(!is_to_panic.swap(false, SeqCst), "as the test wants");
    let map = ObjectMap::builder(100).max_weight(MOST, |_: &u64, value: &u64| *value).listener(listener).open().unwrap();
    map.insert(1, 1).unwrap();
    let put = |key, weight| {
        panics.store(true, SeqCst);
        assert!(catch_unwind(AssertUnwindSafe(|| map.insert(key, weight))).is_err());
    };
    put(1, 60);
    assert_eq!((map.get(&1), map.weight()), (Some(60), 60));
    put(2, 50);
    assert_eq!((keys(&map), map.weight()), (vec![], 0));
    map.insert(2, 100).unwrap();
    assert_eq!((keys(&map), map.weight()), (vec![2], 100));
}

const THREADS: u64 = 4;
const HEAVIEST: u64 = 40;

#[test]
fn the_sum_is_right_beside_other_threads() {
    ends(put_and_remove);
}

// The sum may be above the bound by what is being put, and never is once all puts have returned.
fn put_and_remove() {
    let (entered, left) = (Arc::new(AtomicU64::new(0)), Arc::new(AtomicU64::new(0)));
    let leaves = Arc::clone(&left);
    let map = ObjectMap::builder(60)
        .max_weight(MOST, |_: &u64, value: &u64| *value)
        .listener(move |_, value, _| {
            leaves.fetch_add(*value, SeqCst);
        })
        .open()
        .unwrap();
    thread::scope(|threads| {
        for thread in 0..THREADS {
            let (map, entered) = (&map, &entered);
            threads.spawn(move || {
                let mut state = thread + 1;
                for _ in 0..5_000 {
                    state = state.wrapping_mul(6364136223846793005).wrapping_add(1442695040888963407);
                    let (key, weight) = (state >> 33 & 31, (state >> 40) % (HEAVIEST + 1));
                    change(map, entered, state >> 60, key, weight);
                    assert!(map.weight() <= MOST + THREADS * HEAVIEST, "{}", map.weight());
                }
            });
        }
    });
    assert!(map.weight() <= MOST, "it stays at {}", map.weight());
    assert_eq!((map.weight(), map.weight()), (sum(&map), entered.load(SeqCst) - left.load(SeqCst)));
}

fn change(map: &Numbers, entered: &AtomicU64, kind: u64, key: u64, weight: u64) {
    let is_put = match kind {
        0..=6 => map.insert(key, weight).is_ok(),
        7..=8 => map.insert_if_absent(key, weight).is_ok(),
        9..=10 => map.update(key, |_| weight).is_ok(),
        11..=12 => {
            map.remove(&key).unwrap();
            false
        }
        13 => map.insert(key, MOST + 1).is_ok(),
        _ => map.get(&key).is_some_and(|_| false),
    };
    if is_put {
        entered.fetch_add(weight, SeqCst);
    }
}
