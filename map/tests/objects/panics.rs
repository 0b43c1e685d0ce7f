//! A panic in the caller's code leaves the map usable in each thread. It keeps no object from being freed, nor is any dropped twice.
use crate::ledger::{done, Ledger, Owned};
use cefrodil_map::{ObjectMap, Reason};
use std::hash::{Hash, Hasher};
use std::panic::{catch_unwind, AssertUnwindSafe};
use std::sync::atomic::{AtomicU64, AtomicU8, Ordering::SeqCst};
use std::sync::Arc;
use std::thread;
use std::time::Duration;

fn panics<T>(call: impl FnOnce() -> T) {
    assert!(catch_unwind(AssertUnwindSafe(call)).is_err());
}

/// A key that panics on demand.
struct Fragile(u64, Arc<AtomicU8>);

const HASH: u8 = 1;
const EQ: u8 = 2;

impl Hash for Fragile {
    fn hash<H: Hasher>(&self, state: &mut H) {
        assert!(self.1.load(SeqCst) != HASH, "as the test wants");
        state.write_u64(self.0);
    }
}

impl PartialEq for Fragile {
    fn eq(&self, other: &Fragile) -> bool {
        assert!(self.1.load(SeqCst) != EQ, "as the test wants");
        self.0 == other.0
    }
}

impl Eq for Fragile {}

impl Clone for Fragile {
    fn clone(&self) -> Fragile {
        Fragile(self.0, Arc::clone(&self.1))
    }
}

#[test]
fn a_panic_in_hash_or_eq_changes_nothing() {
    let (ledger, when) = (Ledger::new(10_000), Arc::new(AtomicU8::new(0)));
    let map = ObjectMap::<Fragile, Owned>::builder(100).threads(1).open().unwrap();
    let key = |number| Fragile(number, Arc::clone(&when));
    map.insert(key(1), ledger.make(1)).unwrap();
    for time in [HASH, EQ] {
        for _ in 0..50 {
            when.store(time, SeqCst);
            panics(|| map.get(&key(1)));
            panics(|| map.get_many_with(&[&key(2), &key(1)], |_, _| ()));
            panics(|| map.insert_if_absent(key(1), ledger.make(1)));
            panics(|| map.update(key(1), |_| ledger.make(1)));
            panics(|| map.modify(&key(1), |_| ledger.make(1)));
            panics(|| map.remove(&key(1)));
            panics(|| map.remove_if(&key(1), 1));
            panics(|| map.get_or_insert_with(&key(1), || ledger.make(1)));
            if time == HASH {
                panics(|| map.insert(key(1), ledger.make(1)));
                panics(|| map.replace_if(key(1), 1, ledger.make(1), None));
            }
            when.store(0, SeqCst);
        }
    }
    assert_eq!((map.get_with(&key(1), |value| value.number), map.len(), map.stats().shared), (Some(0), 1, 0));
    map.insert(key(1), ledger.make(1)).unwrap();
    assert_eq!((map.free_unused(), ledger.has_dropped(0)), (0, true));
    drop(map);
    ledger.each_once();
}

#[test]
fn a_panic_in_a_closure_changes_nothing() {
    for threads in [0, 1] {
        let ledger = Ledger::new(10_000);
        let map = ObjectMap::<u64, Owned>::builder(100).threads(threads).open().unwrap();
        map.insert(1, ledger.make(1)).unwrap();
        for _ in 0..50 {
            panics(|| map.get_with(&1, |_| panic!("as the test wants")));
            panics(|| map.look(&1, |_| panic!("as the test wants")));
            panics(|| map.get_many_with(&[&1, &2], |_, _| panic!("as the test wants")));
            panics(|| map.update(1, |_| panic!("as the test wants")));
            panics(|| map.modify(&1, |_| panic!("as the test wants")));
            panics(|| map.get_or_insert_with(&2, || panic!("as the test wants")));
            panics(|| map.get_with(&1, |_| map.update(1, |_| panic!("as the test wants")).unwrap()));
        }
        assert_eq!((map.get_with(&1, |value| value.number), map.len()), (Some(0), 1));
        assert_eq!(map.get_or_insert_with(&2, || ledger.make(2)).key, 2);
        // A removal has taken place when its closure runs.
        panics(|| map.remove_with(&1, |_| panic!("as the test wants")));
        assert_eq!((map.contains_key(&1), map.free_unused(), ledger.has_dropped(0)), (false, 0, true));
        drop(map);
        ledger.each_once();
    }
}

static COUNT: AtomicU64 = AtomicU64::new(0);

/// A value whose clone panics, and whose drop panics if its number is odd.
struct Hostile(u64);

impl Clone for Hostile {
    fn clone(&self) -> Hostile {
        panic!("as the test wants")
    }
}

impl Drop for Hostile {
    fn drop(&mut self) {
        COUNT.fetch_add(1, SeqCst);
        assert!(self.0 % 2 == 0 || thread::panicking(), "as the test wants");
    }
}

#[test]
fn a_panic_in_clone_or_drop_ends_there() {
    const VALUES: u64 = 300;
    let map = ObjectMap::<u64, Hostile>::builder(100).threads(1).open().unwrap();
    for number in 0..VALUES {
        map.insert(1, Hostile(number)).unwrap();
        panics(|| map.get(&1));
    }
    panics(|| map.get_or_insert_with(&2, || Hostile(0)));
    assert!(!map.contains_key(&2));
    assert_eq!(map.free_unused(), 0);
    // All but the last, and the one that was made for key 2.
    assert_eq!(COUNT.load(SeqCst), VALUES - 1 + 1);
    (10..200).for_each(|key| done(map.insert(key, Hostile(key)).unwrap()));
    drop(map);
    assert_eq!(COUNT.load(SeqCst), VALUES + 1 + 190);
}

/// What a destructor panics with. Its own destructor panics, too.
struct Payload;

impl Drop for Payload {
    fn drop(&mut self) {
        panic!("as the test wants");
    }
}

/// A value whose destructor panics with such a payload.
struct Relentless;

impl Drop for Relentless {
    fn drop(&mut self) {
        if !thread::panicking() {
            std::panic::panic_any(Payload);
        }
    }
}

#[test]
fn so_does_a_panic_in_what_a_drop_panicked_with() {
    let map = ObjectMap::<u64, Relentless>::builder(100).threads(1).open().unwrap();
    for key in 0..100 {
        map.insert(key % 10, Relentless).unwrap();
    }
    assert!(map.remove_with(&1, |_| ()).unwrap().found().is_some());
    map.clear().unwrap();
    assert_eq!((map.free_unused(), map.len()), (0, 0));
    map.insert(1, Relentless).unwrap();
    drop(map);
}

// The removal has been made when the listener panics, so it is counted.
#[test]
fn a_removal_whose_listener_panics_is_counted() {
    type Remove = fn(&ObjectMap<u64, u64>, u64);
    let removals: [Remove; 6] = [
        |map, _| done(map.remove(&1)),
        |map, _| done(map.remove_with(&1, |_| ())),
        |map, since| done(map.remove_if(&1, since)),
        |map, since| done(map.remove_stamped(map.hash_of(&1), since)),
        |map, _| done(map.remove_expired()),
        |map, _| done(map.clear()),
    ];
    for remove in removals {
        let hear = |_: &u64, _: &u64, reason: Reason| panic!("as the test wants: {reason:?}");
        let map = ObjectMap::builder(100).listener(hear).open().unwrap();
        let since = map.put(1, 10, Some(Duration::ZERO)).unwrap().at;
        panics(|| remove(&map, since));
        assert_eq!((map.len(), map.stats().removed), (0, 1));
    }
}

// A put within fifteen calls of listeners is refused. Those that panicked have ended.
#[test]
fn after_many_panics_in_the_listener_puts_go_on() {
    let hear = |_: &u64, _: &u64, reason: Reason| panic!("as the test wants: {reason:?}");
    let map = ObjectMap::<u64, u64>::builder(100).listener(hear).open().unwrap();
    map.insert(1, 0).unwrap();
    (1..40).for_each(|number| panics(|| map.insert(1, number)));
    assert_eq!((map.insert(2, 2).is_ok(), map.get(&1), map.stats().refused), (true, Some(39), 0));
}

#[test]
fn a_panic_in_the_listener_comes_after_the_change() {
    let ledger = Ledger::new(1_000);
    let hear = |_: &u64, _: &Owned, reason: Reason| panic!("as the test wants: {reason:?}");
    let map = ObjectMap::<u64, Owned>::builder(100).threads(1).listener(hear).open().unwrap();
    map.insert(1, ledger.make(1)).unwrap();
    panics(|| map.insert(1, ledger.make(1)));
    panics(|| map.update(1, |_| ledger.make(1)));
    panics(|| map.replace_if(1, 3, ledger.make(1), None));
    assert_eq!(map.get_with(&1, |value| value.number), Some(3));
    panics(|| map.remove(&1));
    assert!(!map.contains_key(&1));
    (2..102).for_each(|key| done(map.insert(key, ledger.make(key)).unwrap()));
    panics(|| map.insert(200, ledger.make(200)));
    assert_eq!((map.contains_key(&200), map.len()), (true, 100));
    panics(|| map.clear());
    assert_eq!((map.free_unused(), ledger.dropped()), (0, 6));
    drop(map);
    ledger.each_once();
}

#[test]
fn a_thread_that_panics_keeps_nothing() {
    let ledger = Ledger::new(1_000);
    let map = ObjectMap::<u64, Owned>::builder(100).threads(1).open().unwrap();
    for _ in 0..5 {
        map.insert(1, ledger.make(1)).unwrap();
        let other = map.clone();
        assert!(thread::spawn(move || other.get_with(&1, |_| panic!("as the test wants"))).join().is_err());
    }
    assert_eq!((map.free_unused(), ledger.dropped()), (0, 4));
}
