//! The listener hears of each object that leaves, once, and of no other.
use crate::ledger::{done, next, Ledger, Owned};
use cefrodil_map::{AbsentError, IfError, InsertError, Look, ObjectMap, Reason, UpdateError};
use std::cell::Cell;
use std::collections::hash_map::RandomState;
use std::sync::atomic::{AtomicU32, AtomicU64, Ordering::SeqCst};
use std::sync::{Arc, OnceLock};
use std::thread;

#[test]
fn it_hears_of_each_object_once_beside_other_threads() {
    const CALLS: u64 = 20_000;
    let ledger = Ledger::new(8 * CALLS as usize);
    let heard: Arc<Vec<AtomicU32>> = Arc::new((0..8 * CALLS).map(|_| AtomicU32::new(0)).collect());
    let (hears, refused) = (Arc::clone(&heard), AtomicU64::new(0));
    let hear = move |key: &u64, value: &Owned, _| {
        value.is_right(*key);
        hears[value.number as usize].fetch_add(1, SeqCst);
    };
    let map = ObjectMap::<u64, Owned>::builder(300).shards(4).threads(3).listener(hear).open().unwrap();
    thread::scope(|threads| {
        for thread in 1..=4_u64 {
            let (map, refused) = (&map, &refused);
            threads.spawn(move || {
                let mut seed = thread * 0x9e37_79b9;
                for _ in 0..CALLS {
                    let key = next(&mut seed) % 600;
                    match next(&mut seed) % 8 {
                        0..=3 => done(map.insert(key, ledger.make(key)).unwrap()),
                        4 => {
                            let put = map.insert_if_absent(key, ledger.make(key));
                            refused.fetch_add(u64::from(put.is_err()), SeqCst);
                        }
                        5 => done(map.remove_with(&key, |_| ()).unwrap()),
                        _ => done(map.get_with(&key, |value| value.is_right(key))),
                    }
                }
            });
        }
    });
    let left = heard.iter().map(|heard| u64::from(heard.load(SeqCst))).sum::<u64>();
    assert!(heard.iter().all(|heard| heard.load(SeqCst) <= 1));
    assert_eq!(left + map.len() as u64 + refused.load(SeqCst), ledger.made());
    (0..600).for_each(|key| done(map.get_with(&key, |value| assert_eq!(heard[value.number as usize].load(SeqCst), 0))));
    drop(map);
    ledger.each_once();
    assert_eq!(heard.iter().map(|heard| u64::from(heard.load(SeqCst))).sum::<u64>(), left, "it heard of the drop of the map");
}

#[test]
fn it_hears_also_if_the_hasher_is_chosen_after_it() {
    let heard = Arc::new(AtomicU64::new(0));
    let hears = Arc::clone(&heard);
    let hear = move |_: &u64, value: &u64, _| done(hears.fetch_add(*value, SeqCst));
    let map = ObjectMap::<u64, u64>::builder(100).listener(hear).hasher(RandomState::new()).open().unwrap();
    map.insert(1, 10).unwrap();
    assert_eq!((map.remove(&1), heard.load(SeqCst)), (Ok(Some(10)), 10));
}

// The listener puts what was evicted into another map, and looks it up in the first.
#[test]
fn it_may_call_the_map() {
    static MAP: OnceLock<ObjectMap<u64, u64>> = OnceLock::new();
    let second = ObjectMap::<u64, u64>::new(2_000).unwrap();
    let behind = second.clone();
    let hear = move |key: &u64, value: &u64, reason| {
        let map = MAP.get().unwrap();
        assert_eq!(map.contains_key(key), reason == Reason::Replaced);
        behind.insert(*key, *value).unwrap();
        if *key == 7 {
            assert!(map.remove(&7).unwrap().is_none() || reason == Reason::Replaced);
            map.insert(1_007, *value).unwrap();
        }
    };
    let map = MAP.get_or_init(|| ObjectMap::builder(200).shards(1).listener(hear).open().unwrap());
    (0..1_000).for_each(|key| done(map.insert(key, 10 * key).unwrap()));
    assert_eq!(map.len(), 200);
    for key in 0..1_000 {
        let (here, there) = (map.get(&key), second.get(&key));
        assert_eq!(here.or(there), Some(10 * key));
        assert!(here.is_none() || there.is_none());
    }
}

fn each_put_is_too_deep(map: &ObjectMap<u64, u64>, absent: u64) {
    const DEEP: InsertError = InsertError::TooDeep;
    assert_eq!(map.insert(absent, 0).unwrap_err().why, DEEP);
    assert_eq!(map.insert_if_absent(absent, 0).unwrap_err().why, AbsentError::Insert(DEEP));
    assert_eq!(map.update(absent, |_| 0), Err(UpdateError::Insert(DEEP)));
    let put_at = |key| match map.look(&key, |_| ()) {
        Ok(Look::Found { since, .. }) => Some((key, since)),
        _ => None,
    };
    let (key, since) = (0..1_000).find_map(put_at).expect("the map is full");
    assert_eq!(map.replace_if(key, since, 0, None).unwrap_err().why, IfError::TooDeep);
    assert_eq!(map.modify(&key, |_| 0), Err(UpdateError::Insert(DEEP)));
}

// Without an end to this the thread has no stack left at some depth.
#[test]
fn a_put_within_many_calls_of_listeners_is_refused() {
    static MAP: OnceLock<ObjectMap<u64, u64>> = OnceLock::new();
    static DEEPEST: AtomicU64 = AtomicU64::new(0);
    thread_local!(static DEPTH: Cell<u64> = const { Cell::new(0) });
    let put_back = |key: &u64, value: &u64, _| {
        DEPTH.set(DEPTH.get() + 1);
        DEEPEST.fetch_max(DEPTH.get(), SeqCst);
        let map = MAP.get().unwrap();
        if DEPTH.get() == 16 {
            each_put_is_too_deep(map, *key);
        } else {
            map.insert(*key, *value).unwrap();
        }
        DEPTH.set(DEPTH.get() - 1);
    };
    let map = MAP.get_or_init(|| ObjectMap::builder(100).shards(1).listener(put_back).open().unwrap());
    (0..1_000).for_each(|key| done(map.insert(key, key).unwrap()));
    assert_eq!((DEEPEST.load(SeqCst), map.len()), (16, 100));
    assert!(map.stats().refused >= 900);
}

// What has left and is still there is what the one has heard of and the other has not.
#[test]
fn another_one_hears_of_each_object_when_it_is_freed() {
    let (ledger, left, freed) = (Ledger::new(1_000), Arc::new(AtomicU64::new(0)), Arc::new(AtomicU64::new(0)));
    let (hears, counts) = (Arc::clone(&left), Arc::clone(&freed));
    let map = ObjectMap::<u64, Owned>::builder(100)
        .threads(1)
        .listener(move |_, _, _| done(hears.fetch_add(1, SeqCst)))
        .freed(move |key, value| {
            value.is_right(*key);
            counts.fetch_add(1, SeqCst);
            assert!(*key != 3, "as the test wants");
        })
        .hasher(RandomState::new())
        .open()
        .unwrap();
    (0..10).for_each(|key| done(map.insert(key, ledger.make(key)).unwrap()));
    map.get_with(&0, |_| {
        (0..5).for_each(|key| assert!(map.remove_with(&key, |_| ()).unwrap().found().is_some()));
        assert_eq!((left.load(SeqCst), map.free_unused(), freed.load(SeqCst)), (5, 5, 0), "they wait for this closure");
    });
    assert_eq!((map.free_unused(), freed.load(SeqCst), ledger.dropped()), (0, 5, 5));
    drop(map);
    assert_eq!((left.load(SeqCst), freed.load(SeqCst)), (5, 10));
    ledger.each_once();
}
