//! A thread has a handle from its first call to its end. Threads and maps end in any order.
use cefrodil_map::Map;
use std::cell::RefCell;
use std::sync::mpsc::channel;
use std::sync::Barrier;
use std::thread;

#[test]
fn a_thread_gives_its_pass_back() {
    let map = Map::<u64, u64>::builder(100).threads(2).open().unwrap();
    for round in 0..40 {
        let threads: Vec<_> = (0..2)
            .map(|n| {
                let map = map.clone();
                thread::spawn(move || {
                    map.insert(&n, round).unwrap();
                    assert_eq!(map.get(&n), Some(round));
                })
            })
            .collect();
        threads.into_iter().for_each(|thread| thread.join().unwrap());
    }
    assert_eq!((map.stats().shared, map.stats().hits), (0, 80));
}

#[test]
fn a_thread_without_a_pass_takes_one_when_it_is_free() {
    let map = Map::<u64, u64>::builder(100).threads(1).open().unwrap();
    let (used, go) = (channel(), channel());
    let other = {
        let map = map.clone();
        thread::spawn(move || {
            map.insert(&1, 1).unwrap();
            used.0.send(()).unwrap();
            go.1.recv().unwrap();
        })
    };
    used.1.recv().unwrap();
    assert_eq!(map.get(&1), Some(1));
    let shared = map.stats().shared;
    assert!(shared > 0);
    go.0.send(()).unwrap();
    other.join().unwrap();
    assert_eq!((map.get(&1), map.stats().shared), (Some(1), shared));
}

// More than can be opened when threads come.
#[test]
fn each_of_many_threads_has_a_pass() {
    const THREADS: u64 = 70;
    let map = Map::<u64, u64>::builder(100).threads(THREADS as usize).open().unwrap();
    let all_have_one = Barrier::new(THREADS as usize);
    thread::scope(|threads| {
        for _ in 0..THREADS {
            threads.spawn(|| {
                assert_eq!(map.get(&1), None);
                all_have_one.wait();
            });
        }
    });
    assert_eq!((map.stats().misses, map.stats().shared), (THREADS, 0));
}

// There are more maps than a thread has places for those that it used lately.
#[test]
fn a_thread_has_a_pass_of_each_of_many_maps() {
    let maps: Vec<_> = (0..600).map(|_| Map::<u64, u64>::builder(10).threads(2).open().unwrap()).collect();
    let use_each = |key: u64| {
        for (map, value) in maps.iter().cycle().zip(0..3 * maps.len() as u64) {
            map.insert(&key, value).unwrap();
            assert_eq!(map.get(&key), Some(value));
        }
    };
    thread::scope(|threads| {
        // A join waits for what a thread does at its end, and the end of a scope doesn't.
        for thread in [threads.spawn(|| use_each(1)), threads.spawn(|| use_each(2))] {
            thread.join().unwrap();
        }
    });
    assert!(maps.iter().all(|map| (map.stats().shared, map.stats().hits, map.len()) == (0, 6, 2)));
    // The threads have given their handles back.
    use_each(3);
    assert!(maps.iter().all(|map| map.stats().shared == 0));
}

#[test]
fn a_map_may_have_the_shared_pass_alone() {
    const ROUNDS: u64 = 5_000;
    let map = Map::<u64, u64>::builder(100).threads(0).open().unwrap();
    let start = Barrier::new(4);
    thread::scope(|threads| {
        for n in 0..4 {
            let (map, start) = (&map, &start);
            threads.spawn(move || {
                start.wait();
                for number in 0..ROUNDS {
                    map.insert(&n, number).unwrap();
                    assert_eq!(map.get(&n), Some(number));
                }
            });
        }
    });
    let stats = map.stats();
    assert!(stats.shared >= 8 * ROUNDS, "{stats:?}");
    assert_eq!((stats.hits, stats.added + stats.renewed), (4 * ROUNDS, 4 * ROUNDS));
}

#[test]
fn a_thread_has_a_pass_of_each_map() {
    let maps: Vec<Map<u64, u64>> = (0..20).map(|_| Map::builder(10).threads(1).open().unwrap()).collect();
    for round in 0..3 {
        for (number, map) in maps.iter().enumerate() {
            map.insert(&1, round * 100 + number as u64).unwrap();
        }
        for (number, map) in maps.iter().enumerate() {
            assert_eq!((map.get(&1), map.stats().shared), (Some(round * 100 + number as u64), 0));
        }
    }
}

#[test]
fn a_thread_gives_its_passes_of_all_maps_back() {
    let maps: Vec<Map<u64, u64>> = (0..20).map(|_| Map::builder(10).threads(1).open().unwrap()).collect();
    for _ in 0..2 {
        let maps = maps.clone();
        let thread = thread::spawn(move || maps.iter().for_each(|map| assert_eq!(map.get(&1), None)));
        thread.join().unwrap();
    }
    assert!(maps.iter().all(|map| map.stats().shared == 0 && map.stats().misses == 2));
}

#[test]
fn a_thread_does_not_use_the_pass_of_another() {
    let maps: Vec<Map<u64, u64>> = (0..2).map(|_| Map::builder(10).threads(1).open().unwrap()).collect();
    maps[1].insert(&1, 10).unwrap();
    thread::scope(|threads| {
        threads.spawn(|| {
            maps[0].insert(&1, 1).unwrap();
            // This thread has a handle of the first map, and none of the second.
            assert_eq!((maps[1].get(&1), maps[0].get(&1)), (Some(10), Some(1)));
        });
    });
    assert_eq!((maps[0].stats().shared, maps[1].stats().shared), (0, 1));
}

#[test]
fn threads_and_maps_come_and_go() {
    let keep = Map::<u64, u64>::builder(500).threads(2).open().unwrap();
    for round in 0..60 {
        let brief = Map::<u64, u64>::builder(50).threads(2).open().unwrap();
        let threads: Vec<_> = (0..4)
            .map(|_| {
                let (keep, brief) = (keep.clone(), brief.clone());
                thread::spawn(move || {
                    for key in 0..30 {
                        keep.insert(&(key + round), key + round).unwrap();
                        brief.insert(&key, key).unwrap();
                        assert_eq!(keep.get(&(key + round)), Some(key + round));
                    }
                    drop(keep);
                    assert_eq!(brief.get(&1), Some(1));
                })
            })
            .collect();
        assert!(matches!(brief.get(&1), None | Some(1)));
        drop(brief);
        threads.into_iter().for_each(|thread| thread.join().unwrap());
    }
    assert_eq!(keep.len(), 89);
}

#[test]
fn a_thread_may_outlive_the_maps_that_it_used() {
    let (send, receive) = channel::<Map<u64, u64>>();
    let worker = thread::spawn(move || {
        for (round, map) in receive.into_iter().enumerate() {
            map.insert(&1, round as u64).unwrap();
            assert_eq!(map.get(&1), Some(round as u64));
        }
    });
    for _ in 0..50 {
        send.send(Map::builder(20).threads(1).open().unwrap()).unwrap();
    }
    drop(send);
    worker.join().unwrap();
}

/// Calls the map when its thread ends.
struct AtEnd(Map<u64, u64>);

impl Drop for AtEnd {
    fn drop(&mut self) {
        for key in 0..20 {
            self.0.insert(&key, key + 100).unwrap();
            assert_eq!(self.0.get(&key), Some(key + 100));
        }
    }
}

thread_local!(static END: RefCell<Option<AtEnd>> = const { RefCell::new(None) });

#[test]
fn what_a_thread_keeps_may_call_the_map_at_its_end() {
    let mut shared = 0;
    for first in [false, true] {
        let map = Map::<u64, u64>::builder(50).threads(1).open().unwrap();
        let other = map.clone();
        let thread = thread::spawn(move || {
            if first {
                other.insert(&1, 1).unwrap();
            }
            END.with(|end| *end.borrow_mut() = Some(AtEnd(other.clone())));
            other.insert(&1, 1).unwrap();
        });
        thread.join().unwrap();
        assert_eq!((map.len(), map.stats().hits), (20, 20));
        shared += map.stats().shared;
        let before = map.stats().shared;
        assert_eq!((map.get(&19), map.stats().shared), (Some(119), before), "the handle was not given back");
    }
    // One of the two threads has given its handle back before, and must not use it again.
    assert_eq!(shared, 40);
}
