//! Calls with each key and its value, of maps that can give their keys back.
use cefrodil_map::{Builder, ClearError, Map, Number};
use std::collections::hash_map::RandomState;
use std::collections::BTreeMap;
use std::fmt::Debug;
use std::hash::BuildHasher;
use std::num::{NonZeroI16, NonZeroU64};
use std::time::Duration;

fn all<K: Number + Ord + Copy, S: BuildHasher>(map: &Map<K, u64, S>) -> BTreeMap<K, u64> {
    let (mut seen, mut calls) = (BTreeMap::new(), 0);
    map.for_each(|key, value| {
        calls += 1;
        seen.insert(*key, *value);
    })
    .unwrap();
    assert_eq!(seen.len(), calls);
    seen
}

// Puts each key, with its place as its value.
fn gives_back<K: Number + Ord + Copy + Debug, S: BuildHasher>(builder: Builder<K, u64, S>, keys: &[K]) {
    let map = builder.open().unwrap();
    let put: BTreeMap<K, u64> = keys.iter().copied().zip(0..).collect();
    put.iter().for_each(|(key, place)| _ = map.insert(key, *place).unwrap());
    assert_eq!(all(&map), put);
}

fn gives_all_back<K: Number + Ord + Copy + Debug>(keys: &[K]) {
    gives_back(Map::builder(1_000), keys);
    gives_back(Map::builder(1_000).time_to_live(Duration::MAX), keys);
    gives_back(Map::builder(1_000).time_to_idle(Duration::MAX), keys);
    gives_back(Map::builder(1_000).hasher(RandomState::new()), keys);
}

#[test]
fn each_key_comes_back_whatever_kind_of_number_it_is() {
    gives_all_back(&[0, 1, u64::MAX, u64::MAX - 1, 1 << 63]);
    gives_all_back(&[0, 1, -1, i64::MIN, i64::MAX]);
    gives_all_back(&[0, -1, i32::MIN, i32::MAX]);
    gives_all_back(&[0, u32::MAX]);
    gives_all_back(&[0, -1, i16::MIN, i16::MAX]);
    gives_all_back(&[0, u16::MAX]);
    gives_all_back(&[0, -1, i8::MIN, i8::MAX]);
    gives_all_back(&(0..=u8::MAX).collect::<Vec<_>>());
    gives_all_back(&[0, -1, isize::MIN, isize::MAX]);
    gives_all_back(&[0, usize::MAX]);
    gives_all_back(&[false, true]);
    gives_all_back(&['\0', 'a', char::MAX]);
    gives_all_back(&[NonZeroU64::MIN, NonZeroU64::MAX]);
    gives_all_back(&[NonZeroI16::MIN, NonZeroI16::MAX]);
}

#[test]
fn it_sees_what_is_there_and_counts_nothing() {
    let map = Map::<u64, u64>::builder(1_000).shards(8).open().unwrap();
    assert!(all(&map).is_empty());
    (0..500).for_each(|key| _ = map.insert(&key, key).unwrap());
    (0..100).for_each(|key| assert_eq!(map.remove(&key), Ok(Some(key))));
    map.insert(&100, 7).unwrap();
    let mut expected: BTreeMap<u64, u64> = (100..500).map(|key| (key, key)).collect();
    expected.insert(100, 7);
    let before = map.stats();
    assert_eq!((all(&map), map.stats()), (expected, before));
}

#[test]
fn what_has_ended_is_not_shown_and_stays() {
    let map = Map::<u64, u64>::builder(100).time_to_live(Duration::MAX).open().unwrap();
    map.insert(&1, 10).unwrap();
    map.invalidate_all();
    map.insert(&2, 20).unwrap();
    map.insert_for(&3, 30, Duration::ZERO).unwrap();
    assert_eq!(all(&map), BTreeMap::from([(2, 20)]));
    assert_eq!((map.retain(|key, _| *key == 2), map.len()), (Ok(0), 3));
}

#[test]
fn what_is_refused_is_removed_and_nothing_else() {
    let map = Map::<i32, i32>::builder(1_000).shards(8).open().unwrap();
    (-150..150).for_each(|key| _ = map.insert(&key, -key).unwrap());
    let removed = map.retain(|key, value| {
        assert_eq!(*value, -key);
        key % 3 != 0
    });
    assert_eq!((removed, map.len(), map.stats().removed), (Ok(100), 200, 100));
    assert!((-150..150).all(|key| map.contains_key(&key) == (key % 3 != 0)));
}

// The function puts the key that it is shown.
#[test]
fn what_is_replaced_after_it_was_shown_is_shown_again() {
    for (stays, removed) in [(true, 0), (false, 1)] {
        let (map, mut shown) = (Map::<u64, u64>::new(100).unwrap(), Vec::new());
        map.insert(&1, 10).unwrap();
        let retained = map.retain(|_, value| {
            shown.push(*value);
            if *value == 10 {
                map.insert(&1, 11).unwrap();
            }
            stays && *value == 11
        });
        assert_eq!((retained, map.get(&1), map.stats().removed), (Ok(removed), stays.then_some(11), removed as u64));
        assert_eq!(shown, [10, 11]);
    }
}

#[test]
fn what_was_being_computed_is_not_put() {
    let map = Map::<u64, u64>::new(100).unwrap();
    let computed = map.get_or_insert_with(&1, || {
        assert_eq!(map.retain(|_, _| true), Ok(0));
        10
    });
    assert_eq!((computed, map.get(&1)), (10, None));
}

// Another write is first at each try.
#[test]
fn a_key_that_the_function_puts_each_time_stays() {
    let map = Map::<u64, u64>::new(100).unwrap();
    map.insert(&1, 10).unwrap();
    let retained = map.retain(|key, value| map.insert(key, value + 1).is_err());
    assert_eq!((retained, map.contains_key(&1), map.stats().refused), (Err(ClearError::Held), true, 1));
}
