//! A map of objects that is full.
use crate::ledger::done;
use cefrodil_map::{Inserted, ObjectBuilder, ObjectMap, Reason};
use std::hash::{BuildHasherDefault, DefaultHasher};
use std::ops::Range;
use std::sync::atomic::{AtomicBool, AtomicUsize, Ordering::SeqCst};
use std::sync::Arc;
use std::thread;
use std::time::Duration;

// Which keys share a shard and a bucket depends on the hash. With one for all runs they are always the same.
type Hashes = BuildHasherDefault<DefaultHasher>;

type Numbers = ObjectMap<u64, u64, Hashes>;

const ENTRIES: usize = 1_000;

/// Popular keys, and where those of scans begin.
const POPULAR: Range<u64> = 0..250;
const SCANNED: u64 = 1_000;

fn builder(entries: usize) -> ObjectBuilder<u64, u64, Hashes> {
    ObjectMap::builder(entries).hasher(Hashes::default())
}

fn put_all(map: &Numbers, keys: Range<u64>) {
    keys.for_each(|key| done(map.insert(key, key).unwrap()));
}

// Of the popular keys those that are there after scans of ten times as many keys as there are entries. They are used between.
fn after_scans(map: &Numbers) -> usize {
    put_all(map, POPULAR);
    let mut there = 0;
    for round in 0..8 {
        there = POPULAR.filter(|key| map.contains_key(key)).count();
        let first = SCANNED + round * 2 * ENTRIES as u64;
        put_all(map, first..first + 2 * ENTRIES as u64);
    }
    there
}

#[test]
fn scans_evict_no_key_that_is_used_between() {
    for shards in [1, 8] {
        assert_eq!(after_scans(&builder(ENTRIES).shards(shards).open().unwrap()), POPULAR.count());
    }
}

#[test]
fn a_full_map_has_as_many_entries_as_were_asked_for_or_more() {
    for (entries, shards) in [(1, 1), (100, 1), (1_000, 1), (1_000, 8)] {
        let map = builder(entries).shards(shards).open().unwrap();
        assert!(map.capacity() == entries || map.capacity() > entries && shards > 1);
        put_all(&map, 0..entries as u64 / 2);
        assert_eq!((map.len(), map.stats().evicted), (entries / 2, 0));
        put_all(&map, 0..20 * entries as u64);
        assert_eq!((map.len(), map.weight()), (map.capacity(), 0));
    }
}

#[test]
fn an_insert_says_whether_another_key_was_evicted() {
    let evicted = Arc::new(AtomicUsize::new(0));
    let counts = Arc::clone(&evicted);
    let map = builder(100)
        .shards(1)
        .listener(move |_, _, reason| {
            if reason == Reason::Evicted {
                counts.fetch_add(1, SeqCst);
            }
        })
        .open()
        .unwrap();
    let mut told = 0;
    for key in 0..1_000 {
        told += usize::from(map.insert(key, key).unwrap() == Inserted::Evicted);
        assert_eq!(map.insert(key, key).unwrap(), Inserted::Renewed);
        assert_eq!((told, map.stats().evicted), (evicted.load(SeqCst), told as u64));
    }
    assert_eq!((told, map.len()), (900, 100));
}

#[test]
fn a_put_over_a_value_is_a_use() {
    let (map, full) = (builder(100).shards(1).open().unwrap(), 1_000..1_200);
    put_all(&map, full);
    put_all(&map, 0..5);
    put_all(&map, 0..4);
    (0..4).for_each(|key| done(map.update(key, |old| old.unwrap() + 1).unwrap()));
    put_all(&map, 2_000..2_100);
    let there: Vec<u64> = (0..5).filter(|key| map.contains_key(key)).collect();
    assert_eq!((there, map.len()), (vec![0, 1, 2, 3], 100));
}

#[test]
fn what_had_expired_and_is_removed_makes_room() {
    let map = builder(100).shards(1).open().unwrap();
    (0..80).for_each(|key| assert!(map.insert_for(key, 0, Duration::ZERO).is_ok()));
    assert_eq!(map.remove_expired(), Ok(80));
    (1_000..1_060).for_each(|key| assert!(map.insert(key, 1).is_ok()));
    assert!((1_000..1_060).all(|key| map.contains_key(&key)));
}

// So an eviction may find that all were used since it began to look. Then it looks again.
#[test]
fn objects_give_way_though_lookups_use_them_all_the_time() {
    let (map, is_over) = (ObjectMap::builder(2).max_weight(1, |_: &u64, _: &u64| 1).open().unwrap(), AtomicBool::new(false));
    let refused = thread::scope(|threads| {
        for _ in 0..2 {
            threads.spawn(|| {
                while !is_over.load(SeqCst) {
                    let _ = (map.contains_key(&0), map.contains_key(&1));
                }
            });
        }
        let refused = (0..20_000).filter(|number| map.insert(number % 2, *number).is_err()).count();
        is_over.store(true, SeqCst);
        refused
    });
    assert_eq!((refused, map.weight()), (0, 1));
}

#[test]
fn a_map_is_filled_from_an_iterator() {
    let mut map: ObjectMap<u64, String> = (0..200).map(|key| (key, key.to_string())).collect();
    let kept = (0..200).filter(|key| map.get(key) == Some(key.to_string())).count() as u64;
    assert_eq!((kept + map.stats().evicted, map.stats().refused, map.capacity() >= 200), (200, 0, true));
    map.extend([(3, "30".into()), (3, "31".into())]);
    assert_eq!((map.get(&3), ObjectMap::<u64, u64>::from_iter([]).len()), (Some("31".into()), 0));
}
