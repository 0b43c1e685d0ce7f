//! `get_or_insert_with`: one thread computes and the others wait. What `inside/flights.rs` leaves open.
mod ends;

use cefrodil_map::Map;
use ends::ends;
use std::sync::atomic::{AtomicU64, Ordering::SeqCst};
use std::sync::Barrier;
use std::thread;

type Numbers = Map<u64, u64>;

const KEY: u64 = 7;

#[test]
fn one_thread_computes_for_all() {
    ends(compute_for_all);
}

fn compute_for_all() {
    const THREADS: usize = 4;
    let map = Map::<String, u64>::new(1_000).unwrap();
    let (made, start) = (AtomicU64::new(0), Barrier::new(THREADS));
    thread::scope(|threads| {
        for _ in 0..THREADS {
            threads.spawn(|| {
                for key in 0..50 {
                    start.wait();
                    let value = map.get_or_insert_with(format!("key {key}").as_str(), || {
                        thread::yield_now();
                        made.fetch_add(1, SeqCst);
                        key
                    });
                    assert_eq!(value, key);
                }
            });
        }
    });
    let stats = map.stats();
    assert_eq!((made.load(SeqCst), map.len(), map.get("key 7")), (50, 50, Some(7)));
    assert_eq!((stats.hits + stats.misses, stats.added, stats.renewed), (200, 50, 0));
}

#[test]
fn an_error_puts_nothing() {
    let map = Numbers::new(100).unwrap();
    assert_eq!(map.get_or_try_insert_with(&KEY, || Err("no")), Err("no"));
    assert_eq!((map.get(&KEY), map.len()), (None, 0));
    assert_eq!(map.get_or_try_insert_with(&KEY, || Ok::<u64, ()>(1)), Ok(1));
    assert_eq!(map.get_or_try_insert_with(&KEY, || Err("no")), Ok(1));
}

#[test]
fn a_computation_may_call_the_map() {
    ends(compute_within_a_computation);
}

fn compute_within_a_computation() {
    let map = Numbers::new(100).unwrap();
    let value = map.get_or_insert_with(&KEY, || {
        let inner = map.get_or_insert_with(&KEY, || 1);
        let tried = map.try_get_or_insert_with(&KEY, || 10).unwrap();
        let other = map.get_or_insert_with(&8, || 100);
        inner + tried + other
    });
    assert_eq!((value, map.get(&KEY), map.get(&8)), (111, Some(111), Some(100)));
}

// A store, and a map before it. Threads change the store and then remove the key. What is found is never older than a change that was
// complete before the lookup.
#[test]
fn a_map_before_a_store_does_not_fall_behind() {
    ends(change_a_store);
}

fn change_a_store() {
    const KEYS: usize = 4;
    const ROUNDS: usize = 3_000;
    let store: [AtomicU64; KEYS] = Default::default();
    let complete: [AtomicU64; KEYS] = Default::default();
    let map = Map::<usize, u64>::new(100).unwrap();
    thread::scope(|threads| {
        for thread in 0..KEYS {
            let (store, complete, map) = (&store, &complete, &map);
            threads.spawn(move || {
                for round in 0..ROUNDS {
                    let key = (round * 7 + thread) % KEYS;
                    if round % 5 == 0 {
                        // Each thread changes one key, so its number of complete changes is known.
                        let number = store[thread].fetch_add(1, SeqCst) + 1;
                        map.remove(&thread).unwrap();
                        complete[thread].store(number, SeqCst);
                    }
                    let least = complete[key].load(SeqCst);
                    let value = map.get_or_insert_with(&key, || {
                        let read = store[key].load(SeqCst);
                        if round % 3 == 0 {
                            thread::yield_now();
                        }
                        read
                    });
                    assert!(value >= least, "key {key}: {value}, and {least} was complete");
                }
            });
        }
    });
}
