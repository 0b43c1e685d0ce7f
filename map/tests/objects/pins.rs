//! A pin keeps one value, and that alone, until it is dropped.
use crate::frees::{leave, open, WAYS};
use crate::ledger::{done, next, Ledger, Owned};
use cefrodil_map::{ObjectMap, Pinned, Reason};
use std::collections::VecDeque;
use std::sync::atomic::{AtomicU64, Ordering::SeqCst};
use std::sync::{Arc, Mutex};
use std::thread;
use std::time::Duration;

#[test]
fn it_keeps_what_has_left_and_nothing_else() {
    for threads in [0, 1] {
        for way in 0..WAYS {
            let (map, ledger) = (open(threads), Ledger::new(2_000));
            map.insert(1, ledger.make(1)).unwrap();
            let pin = map.pin(&1).unwrap();
            leave(&map, ledger, way);
            map.clear().unwrap();
            assert_eq!((map.free_unused(), ledger.dropped()), (0, ledger.made() - 1), "way {way}");
            assert!(!ledger.has_dropped(pin.number));
            pin.is_right(1);
            drop(pin);
            ledger.each_once();
        }
    }
}

#[test]
fn what_pins_keep_is_counted() {
    let kept = |map: &ObjectMap<u64, u64>| (map.stats().pinned, map.stats().pinned_weight, map.weight());
    let weighed = ObjectMap::builder(100).max_weight(1_000, |key: &u64, _: &u64| *key).open().unwrap();
    for (map, [one, both, sum]) in [(weighed, [5, 12, 1]), (ObjectMap::new(100).unwrap(), [0; 3])] {
        [1, 5, 7].iter().for_each(|key| done(map.insert(*key, *key).unwrap()));
        let (there, five, seven) = (map.pin(&1), map.pin(&5), map.pin(&7));
        assert_eq!(kept(&map).0, 0, "they are in the map");
        map.remove(&5).unwrap();
        let taken = map.take(&7).unwrap();
        map.free_unused();
        assert_eq!(kept(&map), (2, both, sum));
        drop((seven, five.clone()));
        assert_eq!(kept(&map), (2, both, sum));
        drop(taken);
        assert_eq!(kept(&map), (1, one, sum));
        thread::spawn(move || drop(five)).join().unwrap();
        assert_eq!(kept(&map), (0, 0, sum));
        // The counts outlive the map, too.
        drop(map);
        assert_eq!(there.as_deref(), Some(&1));
    }
}

#[test]
fn it_outlives_the_map_and_moves_to_other_threads() {
    let (map, ledger) = (open(1), Ledger::new(10));
    (1..3).for_each(|key| done(map.insert(key, ledger.make(key)).unwrap()));
    let pin = map.pin(&1).unwrap();
    drop(map);
    assert_eq!((ledger.dropped(), ledger.has_dropped(pin.number)), (1, false));
    let other = pin.clone();
    thread::spawn(move || other.is_right(1)).join().unwrap();
    pin.is_right(1);
    drop(pin);
    ledger.each_once();
}

#[test]
fn what_was_pinned_stays_in_the_map() {
    let (map, ledger) = (open(1), Ledger::new(10));
    map.insert(1, ledger.make(1)).unwrap();
    drop((map.pin(&1), map.pin(&1)));
    assert_eq!((map.free_unused(), ledger.dropped(), map.get_with(&1, |value| value.is_right(1))), (0, 0, Some(())));
}

#[test]
fn it_finds_what_a_lookup_finds() {
    let map = ObjectMap::<u64, u64>::new(100).unwrap();
    map.insert(1, 10).unwrap();
    map.insert_for(2, 20, Duration::ZERO).unwrap();
    let pins = [1, 2, 3].map(|key| map.pin(&key).map(|value| *value));
    assert_eq!((pins, map.stats().hits, map.stats().misses, map.stats().expired), ([Some(10), None, None], 1, 2, 1));
}

#[test]
fn what_is_taken_is_removed_and_not_cloned() {
    let (ledger, heard) = (Ledger::new(10), Arc::new(Mutex::new(Vec::new())));
    let hears = Arc::clone(&heard);
    let hear = move |key: &u64, _: &Owned, reason| hears.lock().unwrap().push((*key, reason));
    let map = ObjectMap::builder(100).listener(hear).open().unwrap();
    map.insert(1, ledger.make(1)).unwrap();
    let taken = map.take(&1).unwrap().unwrap();
    taken.is_right(1);
    assert_eq!((map.contains_key(&1), map.free_unused(), ledger.made(), ledger.dropped()), (false, 0, 1, 0));
    assert_eq!(
        (map.take(&1).map(|taken| taken.is_some()), heard.lock().unwrap().clone()),
        (Ok(false), vec![(1, Reason::Removed)])
    );
    drop(taken);
    ledger.each_once();
}

#[test]
fn a_program_hears_once_of_what_is_freed() {
    let frees = Arc::new(AtomicU64::new(0));
    let count = Arc::clone(&frees);
    let map = ObjectMap::<u64, u64>::builder(100).freed(move |_, _| done(count.fetch_add(1, SeqCst))).open().unwrap();
    map.insert(1, 10).unwrap();
    let pin = map.pin(&1);
    map.remove(&1).unwrap();
    assert_eq!(map.free_unused(), 0);
    drop((pin, map));
    assert_eq!(frees.load(SeqCst), 1);
}

// Each thread keeps its last pins. Others remove, replace and evict meanwhile.
#[test]
fn threads_keep_values_that_others_take_out() {
    const THREADS: u64 = 4;
    const CALLS: u64 = 20_000;
    let ledger = Ledger::new((THREADS * CALLS) as usize);
    let map = ObjectMap::builder(40).shards(2).threads(2).open().unwrap();
    thread::scope(|threads| {
        for thread in 0..THREADS {
            let map = &map;
            threads.spawn(move || {
                let (mut seed, mut pins) = (thread * 0x9e37_79b9 + 1, VecDeque::<(u64, Pinned<Owned>)>::new());
                for _ in 0..CALLS {
                    let key = next(&mut seed) % 300;
                    match next(&mut seed) % 6 {
                        0 => done(map.insert(key, ledger.make(key)).unwrap()),
                        1 => done(map.remove_with(&key, |value| value.is_right(key)).unwrap()),
                        2 => pins.extend(map.take(&key).unwrap().map(|pin| (key, pin))),
                        _ => pins.extend(map.pin(&key).map(|pin| (key, pin))),
                    }
                    pins.iter().for_each(|(key, value)| value.is_right(*key));
                    pins.drain(..pins.len().saturating_sub(8));
                }
            });
        }
    });
    assert!(map.stats().evicted > 0 && map.stats().hits > 0);
    drop(map);
    ledger.each_once();
}
