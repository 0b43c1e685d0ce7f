//! The capacity of a `Map`: what it is at first, and when it is changed.
use cefrodil_map::{CapacityError, Inserted, Map};
use std::sync::atomic::{AtomicBool, Ordering::Relaxed};
use std::thread;
use std::time::Duration;

type Numbers = Map<u64, u64>;

// Puts these keys, and returns how many of them evicted another one.
fn put_all(map: &Numbers, keys: std::ops::Range<u64>) -> usize {
    keys.filter(|key| map.insert(key, *key) == Ok(Inserted::Evicted)).count()
}

#[test]
fn a_map_has_room_for_a_tenth_more_at_most() {
    for (entries, shards) in [(500, None), (500, Some(8)), (500, Some(256)), (20_000, None), (1, None), (3, Some(16))] {
        let mut builder = Map::builder(entries);
        builder = if let Some(shards) = shards { builder.shards(shards) } else { builder };
        let map: Numbers = builder.open().unwrap();
        assert!((entries..=entries + entries / 9).contains(&map.capacity()), "{entries}: {}", map.capacity());
        put_all(&map, 0..5 * entries as u64);
        assert_eq!(map.len(), map.capacity(), "of {entries} entries in {shards:?} shards");
    }
}

#[test]
fn a_lower_capacity_evicts_at_once_and_from_then_on() {
    for shards in [1, 2, 16] {
        let map: Numbers = Map::builder(1_000).shards(shards).open().unwrap();
        assert_eq!(put_all(&map, 0..900), 0);
        assert_eq!((map.set_capacity(300), map.capacity(), map.len()), (Ok(()), 300, 300));
        let found = (0..900).filter(|key| map.get(key) == Some(*key)).count();
        assert_eq!((found, map.stats().evicted, map.stats().evicted_by_capacity), (300, 600, 600));
        assert_eq!((put_all(&map, 1_000..1_100), map.len()), (100, 300));
        assert_eq!((map.stats().evicted, map.stats().evicted_by_capacity), (700, 700));
        // What replaces a value evicts nothing.
        let there: Vec<u64> = (0..1_100).filter(|key| map.contains_key(key)).collect();
        there.iter().for_each(|key| assert_eq!(map.insert(key, 7), Ok(Inserted::Renewed)));
        assert_eq!((there.len(), map.stats().evicted, map.stats().capacity), (300, 700, 300));
    }
}

#[test]
fn a_higher_capacity_evicts_nothing() {
    let map: Numbers = Map::builder(1_000).shards(1).open().unwrap();
    map.set_capacity(1).unwrap();
    put_all(&map, 0..10);
    assert_eq!((map.len(), map.stats().evicted), (1, 9));
    map.set_capacity(1_000).unwrap();
    assert_eq!((put_all(&map, 10..1_009), map.len(), map.stats().evicted), (0, 1_000, 9));
    assert_eq!((put_all(&map, 2_000..2_001), map.stats().evicted_by_capacity), (1, 9));
}

#[test]
fn a_capacity_without_room_is_refused() {
    let map: Numbers = Map::builder(1_000).shards(1).open().unwrap();
    put_all(&map, 0..1_000);
    for most in [0, 1_001, usize::MAX] {
        assert_eq!((map.set_capacity(most), map.capacity(), map.len()), (Err(CapacityError::Range), 1_000, 1_000));
    }
    assert_eq!(map.stats().refused, 3);
}

// The key of a put is not what gives way to it, also where a shard has few entries.
#[test]
fn what_was_put_is_there() {
    for (capacity, shards) in [(1, 1), (2, 1), (100, 1), (1, 16), (5, 16), (100, 16), (300, 16), (500, 2)] {
        let map: Numbers = Map::builder(1_000).shards(shards).open().unwrap();
        put_all(&map, 0..1_000);
        map.set_capacity(capacity).unwrap();
        let lost = (2_000..4_000).filter(|key| put_all(&map, *key..key + 1) == 0 || map.peek(key) == Ok(None)).count();
        assert_eq!((map.len(), lost), (capacity, 0), "of {capacity} in {shards} shards");
    }
}

#[test]
fn a_map_that_was_full_has_room_again() {
    for shards in [1, 16] {
        let map: Numbers = Map::builder(1_000).shards(shards).open().unwrap();
        map.set_capacity(100).unwrap();
        assert_eq!((put_all(&map, 0..150), map.len()), (50, 100));
        (0..150).for_each(|key| _ = map.remove(&key));
        assert_eq!((put_all(&map, 0..100), put_all(&map, 100..101), map.len()), (0, 1, 100), "in {shards} shards");
        map.set_capacity(1_000).unwrap();
        assert_eq!((put_all(&map, 200..1_100), map.len()), (0, 1_000), "in {shards} shards");
    }
}

#[test]
fn computed_and_updated_values_keep_to_it_too() {
    let map = Numbers::new(100).unwrap();
    map.set_capacity(10).unwrap();
    for key in 0..50 {
        map.get_or_insert_with(&key, || key);
        map.update(&(key + 100), |_| key).unwrap();
        assert!(map.len() <= 10);
    }
    assert_eq!(map.len(), 10);
}

// Threads that put evict the same excess together, and not each all of it.
#[test]
fn a_lower_capacity_loses_no_more_than_it_must() {
    let map: Numbers = Map::builder(10_000).shards(64).open().unwrap();
    put_all(&map, 0..10_000);
    for most in [5_000, 2_000, 500] {
        let is_over = AtomicBool::new(false);
        let said = thread::scope(|threads| {
            for thread in 1..5 {
                let (map, is_over) = (&map, &is_over);
                threads.spawn(move || {
                    let first = 1_000_000 * thread + 100_000 * most as u64;
                    (first..).take_while(|_| !is_over.load(Relaxed)).for_each(|key| _ = map.insert(&key, key));
                });
            }
            let said = map.set_capacity(most);
            is_over.store(true, Relaxed);
            said
        });
        assert!(said.is_ok() && map.len().abs_diff(most) < 50, "{said:?}: {} of {most}", map.len());
    }
}

// While threads put, a map may have some more. A thread that puts alone brings it back.
#[test]
fn threads_that_put_at_once_keep_to_it() {
    let map: Numbers = Map::builder(10_000).shards(16).open().unwrap();
    let is_over = AtomicBool::new(false);
    thread::scope(|threads| {
        for thread in 0..4 {
            let (map, is_over) = (&map, &is_over);
            threads.spawn(move || {
                let first = 1_000_000 * thread;
                (first..).take_while(|_| !is_over.load(Relaxed)).for_each(|key| _ = map.insert(&key, key));
            });
        }
        for most in [5_000, 1_000, 9_000, 500, 2_000] {
            // If it gets no turn, later puts evict.
            let _ = map.set_capacity(most);
            assert_eq!(map.capacity(), most);
            (0..1_000).for_each(|key| _ = map.insert(&key, key));
        }
        is_over.store(true, Relaxed);
    });
    put_all(&map, 10_000..14_000);
    assert_eq!(map.len(), 2_000);
}

fn listed(map: &Numbers) -> usize {
    let mut number = 0;
    map.for_each(|_, _| number += 1).unwrap();
    number
}

// The counts are looked at when all threads have ended.
#[test]
fn a_full_map_has_just_as_many_entries_as_it_may() {
    for threads in [1, 8] {
        let map = Numbers::new(1_000).unwrap();
        thread::scope(|scope| {
            for thread in 0..threads {
                let map = &map;
                scope.spawn(move || put_all(map, thread * 100_000..thread * 100_000 + 16_000 / threads));
            }
        });
        let stats = map.stats();
        assert_eq!((map.capacity(), map.len(), listed(&map)), (1_100, 1_100, 1_100), "of {threads} threads");
        assert_eq!((stats.added, stats.evicted), (16_000, 14_900));
        assert_eq!((put_all(&map, 2_000_000..2_000_100), map.len()), (100, 1_100));
    }
}

// Each way out of the map makes room for one new key.
#[test]
fn what_leaves_makes_room() {
    let map: Numbers = Map::builder(1_000).time_to_live(Duration::MAX).open().unwrap();
    put_all(&map, 0..3_000);
    let there = |number| (0..3_000).filter(|key| map.contains_key(key)).take(number).collect::<Vec<_>>();
    let mut next = 10_000;
    let mut puts = |number: usize| {
        next += number as u64;
        put_all(&map, next - number as u64..next)
    };
    for number in [1, 5] {
        there(number).iter().for_each(|key| assert!(map.remove(key).unwrap().is_some()));
        assert_eq!((map.len(), puts(number), map.len()), (1_100 - number, 0, 1_100));
        new_keys(&mut puts, &map);
    }
    let some = there(3);
    assert_eq!((map.retain(|key, _| !some.contains(key)), map.len()), (Ok(3), 1_097));
    assert_eq!(puts(3), 0);
    new_keys(&mut puts, &map);
    // The second put may find that the first value has ended, and remove it.
    let ended = map.stats().ended;
    there(2).iter().for_each(|key| _ = map.insert_for(key, 1, Duration::ZERO));
    map.remove_expired().unwrap();
    assert_eq!((map.stats().ended - ended, puts(2)), (2, 0));
    new_keys(&mut puts, &map);
    map.clear().unwrap();
    assert_eq!((puts(1_100), map.len()), (0, 1_100));
    new_keys(&mut puts, &map);
}

// There is room for no new key more.
fn new_keys(puts: &mut impl FnMut(usize) -> usize, map: &Numbers) {
    assert_eq!((puts(1), map.len(), map.stats().entries), (1, 1_100, 1_100));
}

#[test]
fn what_is_put_where_nothing_was_keeps_to_it() {
    let map = Numbers::new(1_000).unwrap();
    put_all(&map, 0..2_000);
    let before = map.stats();
    for key in 5_000..6_000 {
        assert_eq!((map.get_or_insert_with(&key, || 1), map.update(&(key + 10_000), |old| old.unwrap_or(2))), (1, Ok(2)));
        assert_eq!((map.get(&key), map.get(&(key + 10_000)), map.len()), (Some(1), Some(2), 1_100));
    }
    let stats = map.stats();
    assert_eq!((stats.evicted - before.evicted, stats.evicted_by_capacity - before.evicted_by_capacity), (2_000, 2_000));
    assert_eq!((stats.added - before.added, listed(&map)), (2_000, 1_100));
}

#[test]
fn it_goes_down_and_up_again() {
    let map = Numbers::new(1_000).unwrap();
    put_all(&map, 0..2_000);
    assert_eq!((map.set_capacity(300), map.len(), put_all(&map, 5_000..5_500), map.len()), (Ok(()), 300, 500, 300));
    assert_eq!((map.set_capacity(1_000), put_all(&map, 6_000..6_700), map.len()), (Ok(()), 0, 1_000));
    assert_eq!((put_all(&map, 7_000..7_100), map.len(), listed(&map)), (100, 1_000, 1_000));
}
