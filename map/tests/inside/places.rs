//! An insert fails if no entry can give way or no changes are left. A key never has the value of another with the same first hash.
use super::one_shard;
use crate::words::Layout;
use crate::{GetError, InsertError, Inserted, Map, RemoveError, UpdateError};
use cefrodil::Shape;
use std::collections::HashMap;
use std::hash::{BuildHasher, BuildHasherDefault, Hasher};
use std::time::Duration;

#[test]
fn an_insert_without_a_place_says_so() {
    let shape = Shape { buckets: 2, items: 8, stripes: 1, depth: 2, ..one_shard(8) };
    let map: Map<u64, u64> = Map::builder(1).open_shaped(&shape, 1, 10).unwrap();
    let (mut there, mut refused) = (0, 0);
    for key in 0..50 {
        match map.insert(&key, key) {
            Ok(Inserted::New) => there += 1,
            Err(InsertError::NoPlace) => {
                refused += 1;
                assert_eq!((map.get(&key), map.stats().refused), (None, refused));
            }
            other => panic!("{other:?}"),
        }
    }
    assert_eq!((there, refused, map.len(), map.capacity()), (8, 42, 8, 8));
    assert_eq!((0..50).filter(|key| map.get(key) == Some(*key)).count(), 8);
    assert_eq!(map.update(&99, |_| 1), Err(UpdateError::Insert(InsertError::NoPlace)));
    assert_eq!((map.get_or_insert_with(&99, || 7), map.get(&99), map.stats().refused), (7, None, 44));
    // A key that is there has a place.
    assert_eq!(map.insert(&0, 1), Ok(Inserted::Renewed));
}

#[test]
fn a_map_without_changes_left_says_so() {
    // Enough for one insert and one update.
    let shape = Shape { limit: 4, depth: 0, ..one_shard(8) };
    let map: Map<u64, u64> = Map::builder(1).open_shaped(&shape, 1, 10).unwrap();
    assert_eq!((map.insert(&1, 10), map.update(&1, |_| 11)), (Ok(Inserted::New), Ok(11)));
    assert_eq!(map.insert(&1, 12), Err(InsertError::Spent));
    assert_eq!(map.update(&1, |_| 12), Err(UpdateError::Insert(InsertError::Spent)));
    assert_eq!(map.update(&2, |_| 12), Err(UpdateError::Insert(InsertError::Spent)));
    assert_eq!((map.remove(&1), map.remove(&2)), (Err(RemoveError::Spent), Ok(None)));
    assert_eq!((map.clear(), map.get(&1)), (Err(crate::ClearError::Spent), Some(11)));
    assert_eq!(map.stats().refused, 5);
}

#[test]
fn an_entry_has_as_few_words_as_it_needs() {
    assert_eq!((Layout::Plain.width::<()>(), Layout::Timed.width::<()>()), (1, 2));
    assert_eq!((Layout::Plain.width::<u8>(), Layout::Plain.width::<u64>(), Layout::Timed.width::<[u8; 9]>()), (2, 2, 4));
    assert_eq!((Layout::Plain.width::<[u64; 7]>(), Layout::Timed.width::<[u64; 6]>()), (8, 8));
}

/// Of a key's two hashes, the first is 0 or 1. The second is the key.
#[derive(Default)]
struct Poor {
    first: Option<u64>,
    key: u64,
}

impl Hasher for Poor {
    fn write(&mut self, _: &[u8]) {
        unreachable!("the keys are numbers")
    }

    fn write_u64(&mut self, number: u64) {
        match self.first {
            None => self.first = Some(number),
            Some(_) => self.key = number,
        }
    }

    fn finish(&self) -> u64 {
        if self.first == Some(0) {
            self.key & 1
        } else {
            self.key
        }
    }
}

struct BuildPoor;

impl BuildHasher for BuildPoor {
    type Hasher = Poor;

    fn build_hasher(&self) -> Poor {
        Poor::default()
    }
}

/// Spreads the upper bits of a hash alone: the lower half is the same for all keys.
#[derive(Default)]
struct Upper(u64);

impl Hasher for Upper {
    fn write(&mut self, _: &[u8]) {
        unreachable!("the keys are numbers")
    }

    fn write_u64(&mut self, number: u64) {
        self.0 = self.0 << 16 | number << 32;
    }

    fn finish(&self) -> u64 {
        self.0
    }
}

#[test]
fn keys_of_a_hasher_that_spreads_few_bits_find_a_place() {
    let map = Map::<u64, u64>::builder(4_000).hasher(BuildHasherDefault::<Upper>::default()).open().unwrap();
    assert_eq!((0..2_000).filter(|key| map.insert(key, 1).is_err()).count(), 0);
}

#[test]
fn keys_with_the_same_first_hash_are_told_apart() {
    let map: Map<u64, u64, BuildPoor> = Map::builder(100).hasher(BuildPoor).open().unwrap();
    map.insert(&2, 20).unwrap();
    map.insert(&3, 30).unwrap();
    assert_eq!((map.get(&4), map.try_get(&4), map.contains_key(&6)), (None, Ok::<_, GetError>(None), false));
    assert_eq!((map.stats().collided, map.stats().misses), (3, 3));
    // No call takes another key's entry out, but a put overwrites it.
    assert_eq!((map.remove(&4), map.modify(&4, |_| 0), map.get(&2)), (Ok(None), Ok(None), Some(20)));
    assert_eq!(map.update(&4, |old| old.unwrap_or(40)), Ok(40));
    assert_eq!((map.get(&2), map.get(&4), map.get(&3)), (None, Some(40), Some(30)));
    assert_eq!((map.get_or_insert_with(&5, || 50), map.get(&5), map.get(&3)), (50, Some(50), None));
    assert_eq!((map.insert(&6, 60), map.get(&4), map.remove(&6)), (Ok(Inserted::Renewed), None, Ok(Some(60))));
    assert_eq!((map.len(), map.get(&5)), (1, Some(50)));
}

#[test]
fn an_expired_value_is_of_its_own_key_alone() {
    let map: Map<u64, u64, BuildPoor> = Map::builder(100).hasher(BuildPoor).time_to_live(Duration::MAX).open().unwrap();
    map.insert_for(&2, 20, Duration::ZERO).unwrap();
    assert_eq!((map.get(&4), map.stats().collided, map.stats().expired), (None, 1, 0));
    assert_eq!((map.remove(&4), map.len(), map.stats().removed), (Ok(None), 1, 0));
    assert_eq!((map.get(&2), map.stats().collided, map.stats().expired), (None, 1, 1));
    assert_eq!((map.remove(&2), map.len()), (Ok(None), 0));
}

#[test]
fn keys_with_the_same_first_hash_are_computed_apart() {
    let map: Map<u64, u64, BuildPoor> = Map::builder(100).hasher(BuildPoor).open().unwrap();
    let value = map.get_or_insert_with(&2, || {
        let other = map.get_or_insert_with(&4, || 40);
        assert_eq!((other, map.get(&4)), (40, Some(40)));
        // A write of this other key doesn't touch the computation.
        map.insert(&6, 60).unwrap();
        20
    });
    assert_eq!((value, map.get(&2), map.get(&6)), (20, Some(20), None));
}

/// Gives keys one of 50 numbers in the index, and themselves as check words.
#[derive(Default)]
struct Narrow(Vec<u64>);

impl Hasher for Narrow {
    fn write(&mut self, _: &[u8]) {
        unreachable!("a key is a number")
    }

    fn write_u64(&mut self, number: u64) {
        self.0.push(number);
    }

    fn finish(&self) -> u64 {
        let [kind, key] = self.0[..] else { panic!("a key is hashed after a number") };
        if kind == 0 {
            key % 50
        } else {
            key
        }
    }
}

// Keys with the same number in the index drive each other out. None has another one's value, or an older one.
#[test]
fn keys_that_meet_in_the_index_are_told_apart() {
    let map = Map::<u64, u64>::builder(30).hasher(BuildHasherDefault::<Narrow>::default()).open().unwrap();
    let (mut last, mut seed, mut found) = (HashMap::new(), 7_u64, 0);
    for number in 0..30_000 {
        seed = seed.wrapping_mul(0x5851_f42d_4c95_7f2d).wrapping_add(1);
        let (key, kind) = ((seed >> 33) % 150, (seed >> 60) % 8);
        let value = match kind {
            0..=3 => map.get(&key),
            4 => map.remove(&key).unwrap(),
            5 => map.modify(&key, |old| old).unwrap(),
            _ => None,
        };
        assert!(value.is_none() || value == last.get(&key).copied(), "key {key}");
        found += u64::from(value.is_some());
        match kind {
            4 => _ = last.remove(&key),
            6 => _ = (map.insert(&key, number).unwrap(), last.insert(key, number)),
            7 => _ = (map.update(&key, |_| number).unwrap(), last.insert(key, number)),
            _ => {}
        }
    }
    assert!(found > 1_000 && map.stats().collided > 1_000, "{found}, {:?}", map.stats());
    let there = || (0..150).filter(|key| map.contains_key(key)).count();
    assert_eq!((there() > 0, there()), (true, map.len()));
}
