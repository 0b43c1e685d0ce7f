//! A call with each key and its value, and one that removes what its function refuses.
use crate::ledger::Ledger;
use cefrodil_map::{ClearError, ObjectMap, Reason};
use std::collections::HashMap;
use std::panic::{catch_unwind, AssertUnwindSafe};
use std::sync::{Arc, Mutex};
use std::thread;
use std::time::Duration;

fn all(map: &ObjectMap<u64, String>) -> HashMap<u64, String> {
    let (mut seen, mut calls) = (HashMap::new(), 0);
    map.for_each(|key, value| {
        calls += 1;
        seen.insert(*key, value.clone());
    })
    .unwrap();
    assert_eq!(seen.len(), calls);
    seen
}

#[test]
fn it_sees_each_entry_once() {
    for shards in [1, 8] {
        let map = ObjectMap::builder(1_000).shards(shards).open().unwrap();
        assert!(all(&map).is_empty());
        let mut put = HashMap::new();
        for key in 0..500 {
            map.insert(key, key.to_string()).unwrap();
            put.insert(key, key.to_string());
        }
        (0..100).for_each(|key| assert_eq!(map.remove(&key), Ok(put.remove(&key))));
        map.insert(100, "new".into()).unwrap();
        put.insert(100, "new".into());
        let before = map.stats();
        assert_eq!((all(&map), map.stats()), (put, before));
    }
}

#[test]
fn it_sees_nothing_that_has_expired() {
    let map = ObjectMap::new(100).unwrap();
    map.insert(1, String::from("one")).unwrap();
    map.insert_for(2, String::from("two"), Duration::ZERO).unwrap();
    assert_eq!((all(&map), map.len()), (HashMap::from([(1, "one".into())]), 2));
}

// What it lists stays, though another thread removes it meanwhile, and is freed afterwards.
#[test]
fn no_object_is_freed_before_it_ends() {
    const KEYS: u64 = 100;
    let ledger = Ledger::new(1_000);
    let map = ObjectMap::new(1_000).unwrap();
    (0..KEYS).for_each(|key| _ = map.insert(key, ledger.make(key)).unwrap());
    let mut seen = 0;
    map.for_each(|key, value| {
        if seen == 0 {
            thread::scope(|threads| threads.spawn(|| map.clear().unwrap()).join().unwrap());
            assert!(map.is_empty() && map.free_unused() == KEYS as usize);
        }
        value.is_right(*key);
        seen += 1;
    })
    .unwrap();
    assert_eq!((seen, ledger.dropped()), (KEYS, 0));
    assert_eq!((map.free_unused(), ledger.dropped()), (0, KEYS));
    ledger.each_once();
}

#[test]
fn a_panic_ends_it() {
    let ledger = Ledger::new(10);
    let map = ObjectMap::new(100).unwrap();
    map.insert(1, ledger.make(1)).unwrap();
    assert!(catch_unwind(AssertUnwindSafe(|| map.for_each(|_, _| panic!("on purpose")))).is_err());
    map.remove_with(&1, |_| ()).unwrap();
    assert_eq!((map.free_unused(), ledger.dropped()), (0, 1));
}

#[test]
fn what_is_refused_is_removed_and_freed_and_nothing_else() {
    const KEYS: u64 = 300;
    let (ledger, heard) = (Ledger::new(1_000), Arc::new(Mutex::new(Vec::new())));
    let hears = Arc::clone(&heard);
    let hear = move |key: &u64, _: &_, reason| hears.lock().unwrap().push((*key, reason));
    let map = ObjectMap::builder(1_000).shards(8).listener(hear).open().unwrap();
    (0..KEYS).for_each(|key| _ = map.insert(key, ledger.make(key)).unwrap());
    let mut shown = 0;
    let removed = map.retain(|key, value| {
        value.is_right(*key);
        shown += 1;
        key % 3 > 0
    });
    assert_eq!((removed, shown, map.len(), ledger.dropped()), (Ok(100), KEYS, 200, 100));
    assert!((0..KEYS).all(|key| map.contains_key(&key) == (key % 3 > 0)));
    let mut heard = heard.lock().unwrap().clone();
    heard.sort_by_key(|(key, _)| *key);
    assert_eq!(heard, (0..100).map(|n| (3 * n, Reason::Removed)).collect::<Vec<_>>());
}

#[test]
fn what_has_ended_is_not_shown_and_stays() {
    let map = ObjectMap::new(100).unwrap();
    map.insert(1, 10).unwrap();
    map.invalidate_all();
    map.insert_for(2, 20, Duration::ZERO).unwrap();
    assert_eq!((map.retain(|_, _| panic!("there is none")), map.len()), (Ok(0), 2));
}

// The function puts the key that it is shown.
#[test]
fn what_is_replaced_after_it_was_shown_is_shown_again() {
    for (stays, removed) in [(true, 0), (false, 1)] {
        let (map, mut shown) = (ObjectMap::new(100).unwrap(), Vec::new());
        map.insert(1, 10).unwrap();
        let retained = map.retain(|_, value| {
            shown.push(*value);
            if *value == 10 {
                map.insert(1, 11).unwrap();
            }
            stays && *value == 11
        });
        assert_eq!((retained, map.get(&1), shown), (Ok(removed), stays.then_some(11), vec![10, 11]));
    }
}

#[test]
fn what_was_being_computed_is_not_put() {
    let map = ObjectMap::<u64, u64>::new(100).unwrap();
    let computed = map.get_or_insert_with(&1, || {
        assert_eq!(map.retain(|_, _| true), Ok(0));
        10
    });
    assert_eq!((computed, map.get(&1)), (10, None));
}

// Another write is first at each try.
#[test]
fn a_key_that_the_function_puts_each_time_stays() {
    let map = ObjectMap::<u64, u64>::new(100).unwrap();
    map.insert(1, 10).unwrap();
    let retained = map.retain(|key, value| map.insert(*key, value + 1).is_err());
    assert_eq!((retained, map.contains_key(&1), map.stats().refused), (Err(ClearError::Held), true, 1));
}
