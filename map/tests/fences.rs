//! A map before a store that threads change by a plain release, as most programs do. On x86-64 such a change may wait in the processor while the
//! thread goes on with the removal of the key. A computation that begins meanwhile reads the old value, and the map must not keep it.
use cefrodil_map::Map;
#[cfg(feature = "objects")]
use cefrodil_map::ObjectMap;
use std::hint::spin_loop;
use std::sync::atomic::{AtomicU64, Ordering::Acquire, Ordering::Relaxed, Ordering::Release};
use std::sync::Mutex;
use std::thread;

const KEY: u64 = 7;

// Without a fence, a hundred to ten thousand of so many rounds go wrong.
const ROUNDS: u64 = 100_000;

// A round begins with pauses of so many spins at most.
const SPINS: u64 = 60;

/// A number in cache lines of its own.
#[derive(Default)]
#[repr(align(128))]
struct Line(AtomicU64);

/// A record, and a number that says how often it was changed. Other threads use the record's lines, so a change of them takes long, and the
/// number's change waits behind it.
struct Store {
    record: Vec<Line>,
    number: Line,
}

impl Store {
    fn new() -> Store {
        Store { record: (0..50).map(|_| Line::default()).collect(), number: Line::default() }
    }

    fn change(&self, number: u64) {
        self.change_record(number);
        self.number.0.store(number, Release);
    }

    fn change_record(&self, number: u64) {
        self.record.iter().for_each(|line| line.0.store(number, Relaxed));
    }

    fn read(&self) -> u64 {
        self.number.0.load(Acquire)
    }
}

/// The last step of a thread, also if it panics: then no other thread waits for it.
struct Last<'a>(&'a Line);

impl Drop for Last<'_> {
    fn drop(&mut self) {
        self.0 .0.store(u64::MAX, Release);
    }
}

// Waits until a thread has come so far.
fn wait(step: &Line, number: u64) {
    for spun in 0_u64.. {
        if step.0.load(Acquire) >= number {
            return;
        }
        spin_loop();
        // The other thread may need this processor.
        if spun % 1_000 == 999 {
            thread::yield_now();
        }
    }
}

// A pause of another length in each round, drawn by a linear congruence.
fn pause(seed: &mut u64) {
    *seed = seed.wrapping_mul(6_364_136_223_846_793_005).wrapping_add(1);
    (0..(*seed >> 33) % SPINS).for_each(|_| spin_loop());
}

// In no round does the map keep a value that is older than the removal. `compute` is `get_or_insert_with` of the key.
fn check(compute: impl Fn(&Store) -> u64 + Sync, remove: impl Fn(), get: impl Fn() -> Option<u64>) {
    // One test at a time: with more threads than processors, what the tests look for comes less often.
    static ALONE: Mutex<()> = Mutex::new(());
    let _alone = ALONE.lock();
    let store = Store::new();
    let (begun, ended) = (Line::default(), Line::default());
    let late = thread::scope(|threads| {
        threads.spawn(|| {
            while ended.0.load(Acquire) < ROUNDS {
                store.change_record(0);
            }
        });
        threads.spawn(|| {
            let _last = Last(&ended);
            let mut seed = 1;
            for round in 1..=ROUNDS {
                wait(&begun, round);
                pause(&mut seed);
                compute(&store);
                ended.0.store(round, Release);
            }
        });
        let _last = Last(&begun);
        let mut seed = 2;
        let is_late = |round: &u64| {
            begun.0.store(*round, Release);
            pause(&mut seed);
            store.change(*round);
            remove();
            wait(&ended, *round);
            let late = get().is_some_and(|number| number < *round);
            remove();
            late
        };
        (1..=ROUNDS).filter(is_late).count()
    });
    assert_eq!(late, 0, "so often the map kept an older value");
}

// Without optimization the way from the look for computations to the next read of the store is too long.
#[test]
#[cfg_attr(debug_assertions, ignore = "it would see nothing")]
fn a_removal_comes_after_what_its_thread_did_before() {
    let map = Map::<u64, u64>::new(100).unwrap();
    check(|store| map.get_or_insert_with(&KEY, || store.read()), || assert!(map.remove(&KEY).is_ok()), || map.get(&KEY));
}

#[test]
#[cfg(feature = "objects")]
#[cfg_attr(debug_assertions, ignore = "it would see nothing")]
fn so_does_a_removal_of_an_object() {
    let map = ObjectMap::<u64, u64>::new(100).unwrap();
    check(|store| map.get_or_insert_with(&KEY, || store.read()), || assert!(map.remove(&KEY).is_ok()), || map.get(&KEY));
}

// A list that a clear needs may be held at each try, if the system has stopped the other thread.
fn clear(map: &Map<u64, u64>) {
    assert!((0..1_000).any(|_| map.clear().is_ok()));
}

// The value that is computed comes to the map once the map is clear: before, it would be removed.
#[test]
#[cfg_attr(debug_assertions, ignore = "it would see nothing")]
fn so_does_a_clear() {
    const SPINS: u64 = 200;
    let map = Map::<u64, u64>::new(10).unwrap();
    let make = |store: &Store| {
        let number = store.read();
        (0..SPINS).for_each(|_| spin_loop());
        number
    };
    check(|store| map.get_or_insert_with(&KEY, || make(store)), || clear(&map), || map.get(&KEY));
}
