//! Threads at once: no value is another key's or used after its end, each is dropped once, and no write is undone.
use crate::ledger::{done, next, Ledger, Owned};
use cefrodil_map::{Inserted, Look, ObjectMap, Reason};
use std::cell::Cell;
use std::hint::spin_loop;
use std::sync::atomic::{AtomicBool, AtomicU64, Ordering::SeqCst};
use std::sync::{Arc, Barrier};
use std::thread;
use std::time::{Duration, Instant};

const THREADS: u64 = 4;

// How long a test waits for other threads to do enough.
const LONG: Duration = Duration::from_secs(60);

fn in_threads(count: u64, work: impl Fn(u64) + Sync) {
    let start = Barrier::new(count as usize);
    thread::scope(|threads| {
        for thread in 0..count {
            let (work, start) = (&work, &start);
            threads.spawn(move || {
                start.wait();
                work(thread);
            });
        }
    });
}

fn call(map: &ObjectMap<u64, Owned>, ledger: &'static Ledger, key: u64, kind: u64) {
    let right = |value: &Owned| value.is_right(key);
    match kind {
        0..=7 => done(map.get_with(&key, right)),
        8 => {
            let keys: Vec<u64> = (key..key + 40).collect();
            let keys: Vec<&u64> = keys.iter().collect();
            map.get_many_with(&keys, |index, value| value.is_right(*keys[index]));
        }
        9..=11 => done(map.insert(key, ledger.make(key)).unwrap()),
        12 => done(map.insert_if_absent(key, ledger.make(key)).map_err(|refused| refused.value.is_right(key))),
        13 => {
            let change = |old: Option<&Owned>| {
                old.map(right);
                ledger.make(key)
            };
            map.update(key, change).unwrap();
        }
        14 => done(map.remove_with(&key, right).unwrap()),
        15 => done(map.get_or_insert_with(&key, || ledger.make(key))),
        16 => {
            if let Ok(Look::Found { since, .. }) = map.look(&key, right) {
                let _ = map.remove_stamped(map.hash_of(&key), since);
            }
        }
        // A lookup in a lookup, and a put in one.
        _ => done(map.get_with(&key, |value| {
            map.get_with(&(key + 1), |value| value.is_right(key + 1));
            map.insert(key, ledger.make(key)).unwrap();
            value.is_right(key);
        })),
    }
}

fn no_value_is_wrong(capacity: usize, keys: u64, owners: usize, calls: u64) {
    let ledger = Ledger::new(3 * (THREADS * calls) as usize);
    let map = ObjectMap::builder(capacity).shards(2).threads(owners).open().unwrap();
    in_threads(THREADS, |thread| {
        let mut seed = thread * 0x9e37_79b9 + 1;
        for _ in 0..calls {
            call(&map, ledger, next(&mut seed) % keys, next(&mut seed) % 18);
        }
    });
    let stats = map.stats();
    assert_eq!((stats.collided, stats.evicted > 0), (0, keys > capacity as u64));
    assert_eq!(map.len(), (0..keys + 1).filter(|key| map.contains_key(key)).count());
    drop(map);
    ledger.each_once();
}

#[test]
fn no_value_is_wrong_or_dropped_twice() {
    no_value_is_wrong(1_000, 5, 3, 15_000);
}

#[test]
fn nor_beside_evictions() {
    no_value_is_wrong(100, 600, 8, 15_000);
}

#[test]
fn nor_if_threads_share_a_handle() {
    no_value_is_wrong(100, 300, 0, 5_000);
}

// More threads than processors replace two values as fast as they can. So threads are stopped at any point of a lookup, while what they
// look at leaves the map.
#[test]
fn no_value_is_dropped_under_a_thread_that_was_stopped() {
    const MANY: u64 = 12;
    let (ledger, end) = (Ledger::new(8_000_000), Instant::now() + Duration::from_millis(1_500));
    let map = ObjectMap::builder(100).threads(MANY as usize).open().unwrap();
    in_threads(MANY, |thread| {
        for number in 0.. {
            let key = number % 2;
            if thread < 2 {
                map.insert(key, ledger.make(key)).unwrap();
            } else {
                map.get_with(&key, |value: &Owned| value.is_right(key));
                map.get_many_with(&[&0, &1], |index, value| value.is_right(index as u64));
            }
            if number % 64 == 0 && Instant::now() > end || ledger.made() > 7_000_000 {
                break;
            }
        }
    });
    assert_eq!(map.stats().collided, 0);
    drop(map);
    ledger.each_once();
}

#[test]
fn no_lookup_is_older_than_a_write_that_has_returned() {
    const KEYS: u64 = 8;
    let map = ObjectMap::<(u64, u64), Box<u64>>::new(1_000).unwrap();
    in_threads(THREADS, |thread| {
        let (mut seed, mut seen) = (thread + 1, [[0; KEYS as usize]; THREADS as usize]);
        for number in 1..4_000 {
            let key = next(&mut seed) % KEYS;
            map.insert((thread, key), Box::new(number)).unwrap();
            assert_eq!(map.get(&(thread, key)).as_deref(), Some(&number));
            let (other, key) = (next(&mut seed) % THREADS, next(&mut seed) % KEYS);
            let found = map.get(&(other, key)).map_or(0, |found| *found);
            let last = &mut seen[other as usize][key as usize];
            assert!(found >= *last, "{found} after {last}");
            *last = found;
        }
    });
}

thread_local!(static ADDS: Cell<bool> = const { Cell::new(false) });

// Threads add, put and remove the same keys. No value gives way to one that is added.
#[test]
fn what_is_added_replaces_nothing() {
    let wrong = Arc::new(AtomicU64::new(0));
    let count = Arc::clone(&wrong);
    let hear = move |_: &u64, _: &u64, reason| {
        if ADDS.get() && reason == Reason::Replaced {
            count.fetch_add(1, SeqCst);
        }
    };
    let map = ObjectMap::<u64, u64>::builder(1_000).listener(hear).open().unwrap();
    let (added, begin) = (AtomicU64::new(0), Instant::now());
    // Enough must be added, too, for which each thread needs a processor.
    let is_over = || begin.elapsed() > Duration::from_millis(700) && added.load(SeqCst) >= 100 || begin.elapsed() > LONG;
    in_threads(2 * THREADS, |thread| {
        for number in 0.. {
            if thread % 2 == 0 {
                map.insert(1, number).unwrap();
                map.remove(&1).unwrap();
            } else {
                ADDS.set(true);
                let put = map.insert_if_absent(1, number).map_err(|refused| refused.why);
                ADDS.set(false);
                assert!(put != Ok(Inserted::Renewed));
                if put.is_ok() {
                    added.fetch_add(1, SeqCst);
                    map.remove(&1).unwrap();
                }
            }
            if number % 64 == 0 && is_over() {
                break;
            }
        }
    });
    assert_eq!(wrong.load(SeqCst), 0);
    assert!(added.load(SeqCst) >= 100, "only {added:?} were added");
}

// Threads renew an entry as fast as they can, and this one removes it.
#[test]
fn a_removal_is_not_undone() {
    let map = ObjectMap::<u64, u64>::new(1_000).unwrap();
    let (end, renewed) = (AtomicBool::new(false), AtomicU64::new(0));
    let undone = thread::scope(|threads| {
        for way in 0..2 {
            let (map, end, renewed) = (&map, &end, &renewed);
            threads.spawn(move || {
                while !end.load(SeqCst) {
                    let done = match way {
                        0 => map.modify(&1, |value| value + 1).unwrap().is_some(),
                        _ => match map.look(&1, |value| *value) {
                            Ok(Look::Found { result, since, .. }) => map.replace_if(1, since, result + 1, None).is_ok(),
                            _ => map.touch(&1, Duration::MAX),
                        },
                    };
                    renewed.fetch_add(u64::from(done), SeqCst);
                }
            });
        }
        let begin = Instant::now();
        // There must be enough renewals, too, for which the other threads need a processor.
        let rounds = (0..).take_while(|round| (*round < 5_000 || renewed.load(SeqCst) < 100) && begin.elapsed() < LONG);
        let undone = rounds.filter(|round| {
            map.insert(1, *round).unwrap();
            (0..round % 64).for_each(|_| spin_loop());
            map.remove(&1).unwrap();
            (0..3).any(|_| map.contains_key(&1))
        });
        let undone = undone.count();
        end.store(true, SeqCst);
        undone
    });
    assert_eq!((undone, map.get(&1), map.len()), (0, None, 0));
    assert!(renewed.load(SeqCst) >= 100, "only {renewed:?} renewals");
}

// What a thread removes by a token is the value that it looked at.
#[test]
fn a_removal_by_a_token_takes_no_later_value() {
    let removed = Arc::new(AtomicU64::new(0));
    let last = Arc::clone(&removed);
    let hear = move |_: &u64, value: &u64, reason| {
        if reason == Reason::Removed {
            last.store(*value, SeqCst);
        }
    };
    let map = ObjectMap::<u64, u64>::builder(100).listener(hear).open().unwrap();
    let end = AtomicBool::new(false);
    thread::scope(|threads| {
        threads.spawn(|| {
            for number in 0.. {
                if end.load(SeqCst) {
                    return;
                }
                map.insert(1, number).unwrap();
                if number % 8 == 0 {
                    thread::yield_now();
                }
            }
        });
        let (mut taken, mut wrong, begin) = (0, 0, Instant::now());
        while taken < 1_000 && begin.elapsed() < LONG {
            if let Ok(Look::Found { result, since, .. }) = map.look(&1, |value| *value) {
                if map.remove_if(&1, since).is_ok() {
                    taken += 1;
                    wrong += u64::from(removed.load(SeqCst) != result);
                }
            }
            if let Ok(Look::Found { result, .. }) = map.remove_with(&1, |value| *value) {
                taken += 1;
                wrong += u64::from(removed.load(SeqCst) != result);
            }
            thread::yield_now();
        }
        end.store(true, SeqCst);
        assert_eq!((taken >= 1_000, wrong), (true, 0), "{taken} were taken");
    });
}
