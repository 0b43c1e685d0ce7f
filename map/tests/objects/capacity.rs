//! The capacity of a map of objects, when it is changed.
use crate::ledger::{Ledger, Owned};
use cefrodil_map::{CapacityError, Inserted, ObjectMap, Reason};
use std::sync::atomic::{AtomicU64, Ordering::Relaxed};
use std::sync::{Arc, Mutex};
use std::thread;

type Heard = Arc<Mutex<Vec<(u64, Reason)>>>;

fn open(entries: usize, shards: u32) -> (ObjectMap<u64, Owned>, Heard, &'static Ledger) {
    let heard = Heard::default();
    let hears = Arc::clone(&heard);
    let listener = move |key: &u64, _: &Owned, reason| hears.lock().unwrap().push((*key, reason));
    (ObjectMap::builder(entries).shards(shards).listener(listener).open().unwrap(), heard, Ledger::new(10_000))
}

#[test]
fn the_listener_hears_of_what_gives_way_and_it_is_freed() {
    for shards in [1, 16] {
        let (map, heard, ledger) = open(1_000, shards);
        let put = |key| map.insert(key, ledger.make(key)).unwrap();
        assert!((0..1_000).all(|key| put(key) == Inserted::New));
        assert_eq!((map.set_capacity(400), map.capacity(), map.len()), (Ok(()), 400, 400));
        for key in 1_000..1_100 {
            assert_eq!((put(key), map.contains_key(&key), map.len()), (Inserted::Evicted, true, 400));
        }
        let mut gone: Vec<u64> = (0..1_100).filter(|key| !map.contains_key(key)).collect();
        let mut heard = std::mem::take(&mut *heard.lock().unwrap());
        heard.sort_unstable_by_key(|(key, _)| *key);
        assert_eq!(heard, gone.drain(..).map(|key| (key, Reason::Evicted)).collect::<Vec<_>>());
        let stats = map.stats();
        assert_eq!((heard.len(), stats.evicted, stats.evicted_by_capacity, stats.evicted_by_weight), (700, 700, 700, 0));
        drop(map);
        ledger.each_once();
    }
}

// A shard is those keys whose hashes have the same four bits behind the first 48.
#[test]
fn each_shard_loses_its_part() {
    let (map, _, ledger) = open(1_000, 16);
    (0..1_000).for_each(|key| assert_eq!(map.insert(key, ledger.make(key)).unwrap(), Inserted::New));
    let shards_of = |keys: Vec<u64>| {
        let mut shards = [0_usize; 16];
        keys.iter().for_each(|key| shards[(map.hash_of(key) >> 48) as usize % 16] += 1);
        shards
    };
    let before = shards_of((0..1_000).collect());
    map.set_capacity(500).unwrap();
    let left = shards_of((0..1_000).filter(|key| map.contains_key(key)).collect());
    assert!(before.iter().zip(left).all(|(before, left)| before.abs_diff(2 * left) <= 2), "of {before:?} {left:?}");
}

#[test]
fn computed_values_and_updates_keep_to_it() {
    let (map, _, ledger) = open(100, 1);
    map.set_capacity(10).unwrap();
    for key in 0..50 {
        map.get_or_insert_with(&key, || ledger.make(key));
        map.update(key + 100, |_| ledger.make(key)).unwrap();
        map.insert_if_absent(key + 200, ledger.make(key)).unwrap();
        assert!(map.len() <= 10 && map.contains_key(&(key + 200)));
    }
}

#[test]
fn a_capacity_without_room_is_refused() {
    let (map, _, ledger) = open(100, 1);
    (0..100).for_each(|key| drop(map.insert(key, ledger.make(key))));
    for most in [0, 101] {
        assert_eq!((map.set_capacity(most), map.capacity(), map.len()), (Err(CapacityError::Range), 100, 100));
    }
}

// Both bounds hold, whichever of them is the lower one, and each counts what gave way to it.
#[test]
fn weights_bound_it_too() {
    let map = ObjectMap::<u64, u64>::builder(100).max_weight(500, |_, value| *value).open().unwrap();
    (0..100).for_each(|key| drop(map.insert(key, 10)));
    assert_eq!((map.len(), map.stats().evicted_by_weight), (50, 50));
    map.set_capacity(20).unwrap();
    (100..150).for_each(|key| drop(map.insert(key, 10)));
    assert_eq!((map.len(), map.weight(), map.stats().evicted_by_capacity), (20, 200, 80));
    (150..250).for_each(|key| drop(map.insert(key, 100)));
    let stats = map.stats();
    assert_eq!((map.weight(), stats.evicted), (500, stats.evicted_by_weight + stats.evicted_by_capacity));
}

// By eight threads, whose puts, loads and removals meet in a full map. What the listener hears of is what has left, and all of it is dropped once.
#[test]
fn threads_lose_no_object_in_a_full_map() {
    let (heard, ledger) = (Arc::new(AtomicU64::new(0)), Ledger::new(60_000));
    let hears = Arc::clone(&heard);
    let map: ObjectMap<u64, Owned> =
        ObjectMap::builder(1_000).listener(move |_, _: &Owned, _| _ = hears.fetch_add(1, Relaxed)).open().unwrap();
    thread::scope(|threads| {
        for thread in 0..8 {
            let map = &map;
            threads.spawn(move || {
                for number in 0..2_000 {
                    let key = (number * 8 + thread) * 7 % 5_000;
                    match number % 8 {
                        0 => _ = map.remove_with(&key, |_| ()),
                        1 => _ = map.insert_if_absent(key, ledger.make(key)),
                        2 => _ = map.update(key, |_| ledger.make(key)),
                        _ => _ = map.insert(key, ledger.make(key)),
                    }
                }
            });
        }
    });
    for key in 10_000..12_000 {
        map.insert(key, ledger.make(key)).unwrap();
    }
    let (mut there, stats) = (0, map.stats());
    map.for_each(|_, _| there += 1).unwrap();
    assert_eq!((there, map.len(), map.capacity()), (1_100, 1_100, 1_100));
    // A shard that is full itself has no need of the bound.
    assert!(stats.evicted >= stats.evicted_by_capacity);
    assert_eq!(stats.added, 1_100 + stats.evicted + stats.removed);
    assert_eq!(heard.load(Relaxed), stats.evicted + stats.removed + stats.renewed);
    drop(map);
    ledger.each_once();
}

#[test]
fn a_removal_makes_room_for_one_object() {
    let (map, heard, ledger) = open(1_000, 8);
    let put = |key| map.insert(key, ledger.make(key)).unwrap();
    (0..3_000).for_each(|key| _ = put(key));
    assert_eq!((map.len(), heard.lock().unwrap().len()), (1_100, 1_900));
    let there = (0..3_000).find(|key| map.contains_key(key)).unwrap();
    map.remove_with(&there, |_| ()).unwrap();
    assert_eq!((put(5_000), map.len(), map.stats().evicted), (Inserted::New, 1_100, 1_900));
    assert_eq!((put(5_001), map.len(), map.stats().evicted_by_capacity), (Inserted::Evicted, 1_100, 1_901));
    map.insert_if_absent(5_002, ledger.make(5_002)).unwrap();
    assert_eq!((map.len(), map.stats().evicted_by_capacity, heard.lock().unwrap().len()), (1_100, 1_902, 1_903));
    map.clear().unwrap();
    assert_eq!(((6_000..7_100).filter(|key| put(*key) == Inserted::New).count(), put(8_000)), (1_100, Inserted::Evicted));
}
