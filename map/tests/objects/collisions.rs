//! Two keys with the same hash: the map holds one of them, and never takes it for the other.
use crate::ends::ends;
use crate::ledger::{done, Ledger, Owned};
use cefrodil_map::{AbsentError, IfError, Inserted, Look, ObjectMap, Reason};
use std::cell::Cell;
use std::hash::{BuildHasher, Hash, Hasher};
use std::sync::{Arc, Mutex};
use std::time::Duration;

/// A key's hash is 0 or 1.
#[derive(Default)]
struct Poor(u64);

struct BuildPoor;

impl Hasher for Poor {
    fn write(&mut self, _: &[u8]) {
        unreachable!("the keys are numbers")
    }

    fn write_u64(&mut self, number: u64) {
        self.0 = number & 1;
    }

    fn finish(&self) -> u64 {
        self.0
    }
}

impl BuildHasher for BuildPoor {
    type Hasher = Poor;

    fn build_hasher(&self) -> Poor {
        Poor::default()
    }
}

fn open() -> ObjectMap<u64, Owned, BuildPoor> {
    ObjectMap::builder(100).hasher(BuildPoor).open().unwrap()
}

#[test]
fn the_later_key_replaces_the_earlier() {
    let (map, ledger) = (open(), Ledger::new(100));
    map.insert(2, ledger.make(2)).unwrap();
    map.insert(3, ledger.make(3)).unwrap();
    assert_eq!(map.insert(4, ledger.make(4)).unwrap(), Inserted::Renewed);
    assert!(map.get(&2).is_none() && !map.contains_key(&2));
    assert!(matches!(map.look(&2, |_| ()), Ok(Look::Absent { .. })));
    assert_eq!((map.get_with(&4, |value| value.key), map.get_with(&3, |value| value.key)), (Some(4), Some(3)));
    let mut found = Vec::new();
    map.get_many_with(&[&2, &3, &4, &5, &6], |index, value| found.push((index, value.key)));
    assert_eq!(found, [(1, 3), (2, 4)]);
    assert_eq!((map.stats().collided, map.len()), (6, 2));
    drop(map);
    ledger.each_once();
}

#[test]
fn a_removal_takes_its_own_key_alone() {
    let (map, ledger) = (open(), Ledger::new(100));
    let since = map.put(2, ledger.make(2), None).unwrap().at;
    assert!(map.remove_with(&4, |_| ()).unwrap().found().is_none());
    assert!(matches!(map.remove_with(&4, |_| ()), Ok(Look::Absent { .. })));
    // The shard has changed since. The error has the moment of the answer.
    let at = map.put(3, ledger.make(3), None).unwrap().at;
    assert_eq!(map.remove_if(&4, since), Err(IfError::NotThere { at }));
    assert_eq!(map.remove_with(&4, |_| ()), Ok(Look::Absent { at }));
    assert!(!map.touch(&4, Duration::ZERO));
    assert!(map.modify(&4, |_| unreachable!("it is not there")).unwrap().is_none());
    assert_eq!((map.get_with(&2, |value| value.number), map.len()), (Some(0), 2));
    assert!(map.remove_with(&2, |_| ()).unwrap().found().is_some());
    assert_eq!((map.free_unused(), ledger.dropped(), map.len()), (0, 1, 1));
}

#[test]
fn an_expired_value_is_of_its_own_key_alone() {
    let (map, ledger) = (open(), Ledger::new(100));
    let since = map.put(2, ledger.make(2), Some(Duration::ZERO)).unwrap().at;
    let at = map.put(3, ledger.make(3), None).unwrap().at;
    assert_eq!(map.look(&2, |_| ()), Ok(Look::Expired { at, since }));
    assert_eq!(map.look(&4, |_| ()), Ok(Look::Absent { at }));
    assert_eq!((map.stats().expired, map.stats().collided), (1, 1));
    assert_eq!(map.remove_if(&4, since), Err(IfError::NotThere { at }));
    assert_eq!(map.remove_with(&4, |_| ()), Ok(Look::Absent { at }));
    assert_eq!((map.len(), map.remove_with(&2, |_| ())), (2, Ok(Look::Expired { at: at + 1, since })));
}

#[test]
fn a_put_on_a_condition_sees_its_own_key_alone() {
    let heard = Arc::new(Mutex::new(Vec::new()));
    let hears = Arc::clone(&heard);
    let hear = move |key: &u64, value: &Owned, reason| hears.lock().unwrap().push((*key, value.key, reason));
    let ledger = Ledger::new(100);
    let map = ObjectMap::<u64, Owned>::builder(100).hasher(BuildPoor).listener(hear).open().unwrap();
    map.insert(2, ledger.make(2)).unwrap();
    assert_eq!(map.insert_if_absent(4, ledger.make(4)).unwrap(), Inserted::Renewed);
    let refused = map.insert_if_absent(4, ledger.make(4)).unwrap_err();
    assert!(matches!(refused.why, AbsentError::Present { .. }));
    let made = |old: Option<&Owned>| {
        assert!(old.is_none());
        ledger.make(6)
    };
    map.update(6, made).unwrap();
    assert_eq!(map.get_or_insert_with(&8, || ledger.make(8)).key, 8);
    assert_eq!(map.get_with(&8, |value| value.key), Some(8));
    assert_eq!((map.contains_key(&2), map.contains_key(&4), map.contains_key(&6), map.len()), (false, false, false, 1));
    let expected = [2, 4, 6].map(|key| (key, key, Reason::Replaced));
    assert_eq!(*heard.lock().unwrap(), expected);
    drop((map, refused));
    ledger.each_once();
}

/// All keys have one hash. A comparison first does what the test wants then.
#[derive(Clone)]
struct Same(u64);

thread_local! {
    static BEFORE_EQ: Cell<Option<Box<dyn FnOnce()>>> = const { Cell::new(None) };
}

impl Hash for Same {
    fn hash<H: Hasher>(&self, to: &mut H) {
        to.write_u64(0);
    }
}

impl PartialEq for Same {
    fn eq(&self, other: &Same) -> bool {
        if let Some(act) = BEFORE_EQ.take() {
            act();
        }
        self.0 == other.0
    }
}

impl Eq for Same {}

#[test]
fn a_computing_call_returns_what_was_written_meanwhile() {
    let map = ObjectMap::<Same, u64>::new(100).unwrap();
    map.insert(Same(2), 20).unwrap();
    let other = map.clone();
    // The write comes after the look that precedes the put.
    let make = || {
        BEFORE_EQ.set(Some(Box::new(move || done(other.insert(Same(1), 11).unwrap()))));
        10
    };
    assert_eq!(map.get_or_insert_with(&Same(1), make), 11);
    assert_eq!(map.get(&Same(1)), Some(11));
}

#[test]
fn keys_with_the_same_hash_are_computed_apart() {
    ends(compute_apart);
}

fn compute_apart() {
    let (map, ledger) = (open(), Ledger::new(10_000));
    let value = map.get_or_insert_with(&2, || {
        assert_eq!(map.get_or_insert_with(&4, || ledger.make(4)).key, 4);
        ledger.make(2)
    });
    assert_eq!((value.key, map.get_with(&2, |value| value.key)), (2, Some(2)));
    // Threads that wait for another key's value don't get it.
    std::thread::scope(|threads| {
        for thread in 0..4_u64 {
            let map = &map;
            threads.spawn(move || {
                for round in 0..200 {
                    let key = 10 + 2 * ((round + thread) % 4);
                    assert_eq!(map.get_or_insert_with(&key, || ledger.make(key)).key, key);
                }
            });
        }
    });
}

#[test]
fn threads_do_not_mix_them_up() {
    const THREADS: u64 = 4;
    let (map, ledger) = (open(), Ledger::new(200_000));
    std::thread::scope(|threads| {
        for thread in 0..THREADS {
            let map = &map;
            threads.spawn(move || {
                for number in 0..5_000 {
                    let key = (number * 7 + thread) % 6;
                    match number % 5 {
                        0 | 1 => done(map.insert(key, ledger.make(key)).unwrap()),
                        2 => done(map.remove_with(&key, |value| value.is_right(key)).unwrap()),
                        _ => done(map.get_with(&key, |value| value.is_right(key))),
                    }
                }
            });
        }
    });
    assert!(map.stats().collided > 0);
    drop(map);
    ledger.each_once();
}
