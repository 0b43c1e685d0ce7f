//! A panic in the caller's code leaves the map as it was, and usable in each thread.
use cefrodil_map::{Inserted, Map, UpdateError};
use std::hash::Hasher;
use std::panic::{catch_unwind, UnwindSafe};
use std::thread;

/// A key whose hash panics if it is odd. It has no `Eq`: the map compares no keys.
struct Odd(u64);

impl cefrodil_map::Key for Odd {
    fn write<H: Hasher>(&self, state: &mut H) {
        assert!(self.0 % 2 == 0, "as the test wants");
        state.write_u64(self.0);
    }
}

fn panics<T>(call: impl FnOnce() -> T + UnwindSafe) {
    assert!(catch_unwind(call).is_err());
}

#[test]
fn a_panic_in_hash_changes_nothing() {
    let map = Map::<Odd, u64>::builder(100).threads(1).open().unwrap();
    map.insert(&Odd(2), 20).unwrap();
    for _ in 0..20 {
        panics(|| map.get(&Odd(1)));
        panics(|| map.insert(&Odd(1), 1));
        panics(|| map.remove(&Odd(1)));
        panics(|| map.update(&Odd(1), |_| 1));
        panics(|| map.get_or_insert_with(&Odd(1), || 1));
    }
    assert_eq!((map.get(&Odd(2)), map.len(), map.stats().shared), (Some(20), 1, 0));
    thread::scope(|threads| {
        threads.spawn(|| assert_eq!(map.get(&Odd(2)), Some(20)));
    });
}

#[test]
fn a_panic_in_a_closure_changes_nothing() {
    let map = Map::<u64, u64>::builder(100).threads(1).open().unwrap();
    map.insert(&1, 10).unwrap();
    for _ in 0..20 {
        panics(|| map.update(&1, |_| panic!("as the test wants")));
        panics(|| map.modify(&1, |_| panic!("as the test wants")));
        panics(|| map.get_or_insert_with(&2, || panic!("as the test wants")));
        panics(|| map.get_or_insert_with(&2, || map.update(&1, |_| panic!("as the test wants")).unwrap()));
    }
    assert_eq!((map.get(&1), map.get(&2), map.len(), map.stats().shared), (Some(10), None, 1, 0));
    assert_eq!((map.update(&1, |old| old.unwrap() + 1), map.get_or_insert_with(&2, || 20)), (Ok(11), 20));
}

#[test]
fn a_closure_may_call_the_map() {
    let map = Map::<u64, u64>::builder(100).threads(1).open().unwrap();
    let changed = map.update(&1, |old| {
        if old.is_none() {
            map.insert(&1, 10).unwrap(); // so the closure is called again
        }
        map.insert(&2, 20).unwrap();
        old.unwrap_or(0) + map.get(&2).unwrap()
    });
    assert_eq!((changed, map.get(&1), map.stats().shared), (Ok(30), Some(30), 0));
    // It is not called again if the key has gone.
    let modified = map.modify(&1, |old| {
        assert_eq!((old, map.remove(&1)), (30, Ok(Some(30))));
        31
    });
    assert_eq!((modified, map.get(&1)), (Ok(None), None));
}

#[test]
fn a_closure_that_writes_its_own_key_each_time_is_refused() {
    let map = Map::<u64, u64>::new(100).unwrap();
    let changed = map.update(&1, |old| {
        map.insert(&1, 10).unwrap();
        old.unwrap_or(0) + 1
    });
    assert_eq!((changed, map.get(&1)), (Err(UpdateError::Contended), Some(10)));
}

#[test]
fn a_single_try_is_refused_if_another_write_comes_between() {
    let map = Map::<u64, u64>::new(100).unwrap();
    let changed = map.try_update(&1, |old| {
        assert_eq!((old, map.insert(&1, 10)), (None, Ok(Inserted::New)));
        11
    });
    assert_eq!((changed, map.get(&1)), (Err(UpdateError::Contended), Some(10)));
    let changed = map.try_update(&1, |old| {
        assert_eq!((old, map.insert(&1, 12)), (Some(10), Ok(Inserted::Renewed)));
        13
    });
    assert_eq!((changed, map.get(&1), map.stats().refused), (Err(UpdateError::Contended), Some(12), 2));
    assert_eq!(map.try_update(&1, |old| old.unwrap() + 1), Ok(13));
}

#[test]
fn a_thread_that_panics_gives_its_pass_back() {
    let map = Map::<u64, u64>::builder(100).threads(1).open().unwrap();
    for _ in 0..5 {
        let map = map.clone();
        let thread = thread::spawn(move || map.update(&1, |_| panic!("as the test wants")));
        assert!(thread.join().is_err());
    }
    map.insert(&1, 1).unwrap();
    assert_eq!((map.get(&1), map.stats().shared), (Some(1), 0));
}
