//! Threads at once: no value is torn, none is another key's, none is older than a write that has returned, and no update is lost.
use cefrodil_map::{GetError, InsertError, Map, RemoveError, UpdateError};
use std::hint::spin_loop;
use std::panic::UnwindSafe;
use std::sync::atomic::{AtomicBool, AtomicU64, Ordering::SeqCst};
use std::sync::{Barrier, Mutex};
use std::thread;
use std::time::{Duration, Instant};

const THREADS: u64 = 4;

// How long a test waits for other threads to do enough.
const LONG: Duration = Duration::from_secs(60);

fn next(seed: &mut u64) -> u64 {
    *seed ^= *seed << 13;
    *seed ^= *seed >> 7;
    *seed ^= *seed << 17;
    *seed
}

fn in_threads(work: impl Fn(u64) + Sync) {
    let start = Barrier::new(THREADS as usize);
    thread::scope(|threads| {
        for thread in 0..THREADS {
            let (work, start) = (&work, &start);
            threads.spawn(move || {
                start.wait();
                work(thread);
            });
        }
    });
}

type Values = Map<u64, [u64; 7]>;

// Calls of all kinds with keys that all threads use. A value is seven times the same number, which says its key.
struct Caller<'a> {
    map: &'a Values,
    keys: u64,
}

impl Caller<'_> {
    fn made(&self, key: u64, number: u64) -> [u64; 7] {
        [number * self.keys + key; 7]
    }

    fn is_right(&self, key: u64, value: Option<[u64; 7]>) {
        if let Some(value) = value {
            assert!(value == [value[0]; 7] && value[0] % self.keys == key, "{value:?} of key {key}");
        }
    }

    fn call(&self, kind: u64, key: u64, number: u64) {
        let (map, made) = (self.map, self.made(key, number));
        match kind {
            0..=6 => self.is_right(key, map.get(&key)),
            7 => match map.try_get(&key) {
                Ok(found) => self.is_right(key, found),
                Err(why) => assert_eq!(why, GetError::Busy),
            },
            8..=10 => assert!(map.insert(&key, made).is_ok()),
            11 => assert!(matches!(map.try_insert(&key, made), Ok(_) | Err(InsertError::Held))),
            12 => {
                let change = |old| {
                    self.is_right(key, old);
                    made
                };
                assert_eq!(map.update(&key, change), Ok(made));
            }
            13 => self.is_right(key, Some(map.get_or_insert_with(&key, || made))),
            14 => self.is_right(key, map.remove(&key).unwrap()),
            _ => match map.try_remove(&key) {
                Ok(removed) => self.is_right(key, removed),
                Err(why) => assert!(matches!(why, RemoveError::Held | RemoveError::Busy | RemoveError::Contended)),
            },
        }
    }
}

fn no_value_is_wrong(map: &Values, keys: u64, calls: u64, mut seed: u64) {
    let caller = Caller { map, keys };
    for number in 0..calls {
        let key = next(&mut seed) % keys;
        caller.call(next(&mut seed) % 16, key, number);
    }
}

#[test]
fn a_map_may_go_anywhere() {
    fn anywhere<T: Clone + Send + Sync + UnwindSafe + 'static>() {}
    anywhere::<Map<std::rc::Rc<str>, u64>>();
    anywhere::<Map<[u8], &'static str>>();
}

#[test]
fn no_value_is_torn_or_of_another_key() {
    let map = Map::new(1_000).unwrap();
    in_threads(|thread| no_value_is_wrong(&map, 5, 15_000, thread + 1));
    assert_eq!(map.stats().collided, 0);
}

#[test]
fn nor_beside_evictions() {
    let map = Map::builder(100).shards(2).threads(THREADS as usize).open().unwrap();
    in_threads(|thread| no_value_is_wrong(&map, 1_000, 15_000, thread + 1));
    let stats = map.stats();
    assert!(stats.evicted > 0 && stats.shared == 0, "{stats:?}");
    assert!(map.len() <= map.capacity());
    let there = (0..1_000).filter(|key| map.contains_key(key)).count();
    assert_eq!(map.len(), there);
}

#[test]
fn forty_threads_share_four_handles() {
    const MANY: usize = 40;
    let map = Map::builder(1_000).threads(3).open().unwrap();
    let start = Barrier::new(MANY);
    thread::scope(|threads| {
        for thread in 0..MANY {
            let (map, start) = (&map, &start);
            threads.spawn(move || {
                // Three of these calls take a handle, and no thread ends before all have called.
                assert_eq!(map.get(&50), None);
                start.wait();
                no_value_is_wrong(map, 50, 400, thread as u64 + 1);
                // Keys of this thread alone.
                let mine = 1_000 + thread as u64;
                for number in 0..100 {
                    map.insert(&mine, [number; 7]).unwrap();
                    assert_eq!(map.get(&mine), Some([number; 7]));
                }
            });
        }
    });
    let stats = map.stats();
    assert!(stats.shared >= 37, "{stats:?}");
    assert_eq!(stats.collided, 0);
}

// Each thread writes keys of its own, and looks up those of the others.
#[test]
fn no_lookup_is_older_than_a_write_that_has_returned() {
    const KEYS: u64 = 8;
    let map = Map::<(u64, u64), u64>::new(1_000).unwrap();
    in_threads(|thread| {
        let (mut seed, mut seen) = (thread + 1, [[0; KEYS as usize]; THREADS as usize]);
        for number in 1..4_000 {
            let key = next(&mut seed) % KEYS;
            map.insert(&(thread, key), number).unwrap();
            assert_eq!(map.get(&(thread, key)), Some(number));
            let (other, key) = (next(&mut seed) % THREADS, next(&mut seed) % KEYS);
            let found = map.get(&(other, key)).unwrap_or(0);
            let last = &mut seen[other as usize][key as usize];
            assert!(found >= *last, "{found} after {last}");
            *last = found;
        }
    });
    assert_eq!(map.stats().evicted, 0);
}

// Each thread writes keys of its own, removes them, and looks up those of others. Other keys keep the map full.
#[test]
fn nor_in_a_full_map() {
    const KEYS: u64 = 4;
    const ROUNDS: u64 = 3_000;
    let map = Map::<(u64, u64), u64>::builder(60).open().unwrap();
    // Numbers of writes that have returned: an even one put its number, and an odd one removed what was there.
    let written: [[AtomicU64; KEYS as usize]; THREADS as usize] = Default::default();
    let found: Vec<AtomicU64> = (0..THREADS).map(|_| AtomicU64::new(0)).collect();
    in_threads(|thread| {
        let mut seed = thread + 1;
        for number in 1..ROUNDS {
            let key = next(&mut seed) % KEYS;
            match number % 2 {
                0 => _ = map.insert(&(thread, key), number).unwrap(),
                _ => _ = map.remove(&(thread, key)).unwrap(),
            }
            written[thread as usize][key as usize].store(number, SeqCst);
            let (other, key) = (next(&mut seed) % THREADS, next(&mut seed) % KEYS);
            let last = written[other as usize][key as usize].load(SeqCst);
            if let Some(value) = map.get(&(other, key)) {
                assert!(value >= last, "{value} after {last}");
                found[thread as usize].fetch_add(1, SeqCst);
            }
            map.insert(&(thread, KEYS + number), 0).unwrap();
        }
    });
    assert!(found.iter().all(|found| found.load(SeqCst) > 100), "{found:?}");
}

#[test]
fn no_update_is_lost() {
    const KEYS: u64 = 3;
    const UPDATES: u64 = 4_000;
    let map = Map::<u64, u64>::new(1_000).unwrap();
    in_threads(|_| {
        let mut last = [0; KEYS as usize];
        for number in 0..UPDATES {
            let key = number % KEYS;
            let count = map.update(&key, |count| count.unwrap_or(0) + 1).unwrap();
            let before = std::mem::replace(&mut last[key as usize], count);
            assert!(count > before, "{count} after {before}");
        }
    });
    let sum: u64 = (0..KEYS).filter_map(|key| map.get(&key)).sum();
    assert_eq!((sum, map.stats().evicted), (THREADS * UPDATES, 0));
}

// A counter that was evicted begins anew, with a number of its own. No two updates make the same of it.
#[test]
fn no_update_is_lost_beside_evictions() {
    const KEYS: u64 = 6;
    const UPDATES: u64 = 6_000;
    let map = Map::<u64, (u64, u64)>::builder(40).open().unwrap();
    let (beginnings, all) = (AtomicU64::new(0), Mutex::new(Vec::new()));
    in_threads(|thread| {
        let (mut seed, mut made) = (thread + 1, Vec::new());
        for number in 0..UPDATES {
            let key = next(&mut seed) % KEYS;
            let count = map.update(&key, |old| match old {
                Some((beginning, count)) => (beginning, count + 1),
                None => (beginnings.fetch_add(1, SeqCst), 0),
            });
            made.push((key, count.unwrap()));
            map.insert(&(1_000 * (thread + 1) + number % 500), (0, 0)).unwrap();
            let _ = map.get(&(next(&mut seed) % KEYS));
        }
        all.lock().unwrap().extend(made);
    });
    let mut all = all.into_inner().unwrap();
    all.sort_unstable();
    assert!(all.windows(2).all(|pair| pair[0] != pair[1]));
    let longest = all.iter().map(|(_, (_, count))| *count).max();
    assert!(longest > Some(10), "{longest:?}");
}

// Ends other threads, also if an assertion fails.
struct End<'a>(&'a AtomicBool);

impl Drop for End<'_> {
    fn drop(&mut self) {
        self.0.store(true, SeqCst);
    }
}

// Threads renew an entry as fast as they can, and this one removes it.
#[test]
fn a_removal_beside_renewals_is_not_undone() {
    const LIFE: Duration = Duration::from_secs(1_000);
    let map = Map::<u64, u64>::builder(1_000).time_to_live(LIFE).open().unwrap();
    let (end, renewed) = (AtomicBool::new(false), AtomicU64::new(0));
    let undone = thread::scope(|threads| {
        for _ in 0..2 {
            threads.spawn(|| {
                while !end.load(SeqCst) {
                    if map.modify_for(&1, LIFE, |value| value).is_ok_and(|value| value.is_some()) {
                        renewed.fetch_add(1, SeqCst);
                    }
                }
            });
        }
        let (_end, begin) = (End(&end), Instant::now());
        // There must be enough renewals, too, for which the other threads need a processor.
        let rounds = (0..).take_while(|round| (*round < 10_000 || renewed.load(SeqCst) < 100) && begin.elapsed() < LONG);
        let undone = rounds.filter(|number| {
            map.insert(&1, *number).unwrap();
            (0..number % 64).for_each(|_| spin_loop());
            map.remove(&1).unwrap();
            (0..3).any(|_| map.contains_key(&1))
        });
        undone.count()
    });
    assert_eq!((undone, map.get(&1), map.len()), (0, None, 0));
    assert!(renewed.load(SeqCst) >= 100, "only {renewed:?} renewals");
}

#[test]
fn no_modification_or_single_try_is_lost() {
    let map = Map::<u64, u64>::new(1_000).unwrap();
    map.insert(&1, 0).unwrap();
    let lost: Vec<u64> = thread::scope(|threads| {
        let each = || {
            let mut refused = 0;
            for number in 0..4_000 {
                if number % 2 == 0 {
                    map.modify(&1, |count| count + 1).unwrap().unwrap();
                    continue;
                }
                match map.try_update(&1, |count| count.unwrap() + 1) {
                    Ok(_) => {}
                    Err(UpdateError::Busy | UpdateError::Contended | UpdateError::Insert(InsertError::Held)) => refused += 1,
                    Err(why) => panic!("{why}"),
                }
            }
            refused
        };
        let all: Vec<_> = (0..THREADS).map(|_| threads.spawn(each)).collect();
        all.into_iter().map(|thread| thread.join().unwrap()).collect()
    });
    let refused: u64 = lost.iter().sum();
    assert_eq!((map.get(&1), map.stats().refused), (Some(THREADS * 4_000 - refused), refused));
}
