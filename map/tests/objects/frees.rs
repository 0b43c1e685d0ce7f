//! An object that left the map is freed when no call can use it any more: not before, and not much later.
use crate::ledger::{done, Ledger, Owned};
use cefrodil_map::ObjectMap;
use std::cell::Cell;
use std::sync::mpsc::{channel, Receiver, Sender};
use std::sync::Arc;
use std::thread::{self, JoinHandle};
use std::time::Duration;

type Values = ObjectMap<u64, Owned>;

// How long a thread may take to do what it must do at once.
const LONG: Duration = Duration::from_secs(60);

// Fewer objects than this wait that no call uses.
const WAIT: u64 = 32;

pub fn open(threads: usize) -> Values {
    ObjectMap::builder(100).shards(1).threads(threads).open().unwrap()
}

/// A thread that looks at a value until it is asked to end.
struct Holder {
    thread: JoinHandle<u64>,
    end: Sender<()>,
}

impl Holder {
    fn begin(map: &Values, key: u64) -> Holder {
        let (begun, wait): (Sender<()>, Receiver<()>) = channel();
        let (end, ended) = channel();
        let map = map.clone();
        let look = move |value: &Owned| {
            begun.send(()).unwrap();
            ended.recv().unwrap();
            value.is_right(key);
            value.number
        };
        let thread = thread::spawn(move || map.get_with(&key, look).expect("the key is there"));
        wait.recv_timeout(LONG).expect("the lookup has not begun");
        Holder { thread, end }
    }

    // The number of the value that it looked at.
    fn end(self) -> u64 {
        self.end.send(()).unwrap();
        self.thread.join().unwrap()
    }
}

/// Each way in which the object of key 1 leaves a map of 100 entries.
pub fn leave(map: &Values, ledger: &'static Ledger, way: usize) {
    let since = || match map.look(&1, |_| ()) {
        Ok(cefrodil_map::Look::Found { since, .. }) => since,
        other => panic!("{other:?}"),
    };
    match way {
        0 => done(map.insert(1, ledger.make(1)).unwrap()),
        1 => assert!(map.remove_with(&1, |_| ()).unwrap().found().is_some()),
        2 => done(map.remove_if(&1, since()).unwrap()),
        3 => done(map.remove_stamped(map.hash_of(&1), since()).unwrap()),
        4 => done(map.replace_if(1, since(), ledger.make(1), None).unwrap()),
        5 => done(map.update(1, |_| ledger.make(1)).unwrap()),
        6 => done(map.modify(&1, |_| ledger.make(1)).unwrap().unwrap()),
        7 => map.clear().unwrap(),
        // Others are used and key 1 isn't, so it is evicted.
        _ => (2..600).for_each(|key| {
            map.insert(key, ledger.make(key)).unwrap();
            assert!(map.contains_key(&key));
        }),
    }
}

/// How many ways there are.
pub const WAYS: usize = 9;

#[test]
fn an_object_stays_while_the_same_thread_uses_it() {
    for threads in [0, 1] {
        for way in 0..WAYS {
            let (map, ledger) = (open(threads), Ledger::new(2_000));
            map.insert(1, ledger.make(1)).unwrap();
            map.get_with(&1, |value| {
                leave(&map, ledger, way);
                // A lookup within this one doesn't end it.
                map.get_with(&2, |_| ());
                (100..200).for_each(|key| done(map.insert(key, ledger.make(key)).unwrap()));
                assert!(map.free_unused() > 0);
                value.is_right(1);
            });
            assert_eq!((map.free_unused(), ledger.has_dropped(0)), (0, true), "way {way}");
            drop(map);
            ledger.each_once();
        }
    }
}

#[test]
fn an_object_stays_while_another_thread_uses_it() {
    for threads in [0, 1, 2] {
        for way in 0..WAYS {
            let (map, ledger) = (open(threads), Ledger::new(2_000));
            map.insert(1, ledger.make(1)).unwrap();
            let holder = Holder::begin(&map, 1);
            leave(&map, ledger, way);
            (100..200).for_each(|key| done(map.insert(key, ledger.make(key)).unwrap()));
            assert!(map.free_unused() > 0);
            assert!(!ledger.has_dropped(0), "way {way}");
            assert_eq!(holder.end(), 0);
            assert_eq!((map.free_unused(), ledger.has_dropped(0)), (0, true), "way {way}");
            drop(map);
            ledger.each_once();
        }
    }
}

// Each look for what may be freed begins an epoch.
#[test]
fn an_object_that_left_in_an_epoch_before_a_lookup_does_not_wait_for_it() {
    for threads in [0, 1, 3] {
        let (map, ledger) = (open(threads), Ledger::new(10));
        map.insert(1, ledger.make(1)).unwrap();
        let first = Holder::begin(&map, 1);
        map.insert(1, ledger.make(1)).unwrap();
        assert_eq!(map.free_unused(), 1);
        let second = Holder::begin(&map, 1);
        map.insert(1, ledger.make(1)).unwrap();
        assert_eq!((map.free_unused(), ledger.dropped()), (2, 0));
        assert_eq!(first.end(), 0);
        assert_eq!((map.free_unused(), ledger.has_dropped(0), ledger.has_dropped(1)), (1, true, false));
        assert_eq!(second.end(), 1);
        assert_eq!((map.free_unused(), ledger.has_dropped(1), ledger.has_dropped(2)), (0, true, false));
    }
}

#[test]
fn the_older_of_two_lookups_keeps_its_object() {
    for threads in [0, 1, 3] {
        let (map, ledger) = (open(threads), Ledger::new(10));
        map.insert(1, ledger.make(1)).unwrap();
        let first = Holder::begin(&map, 1);
        map.insert(1, ledger.make(1)).unwrap();
        let second = Holder::begin(&map, 1);
        map.insert(1, ledger.make(1)).unwrap();
        assert_eq!(second.end(), 1);
        map.free_unused();
        assert!(!ledger.has_dropped(0));
        assert_eq!(first.end(), 0);
        assert_eq!((map.free_unused(), ledger.dropped()), (0, 2));
    }
}

#[test]
fn few_objects_wait_that_no_call_uses() {
    let (map, ledger) = (open(1), Ledger::new(2_000));
    for _ in 0..1_000 {
        map.insert(1, ledger.make(1)).unwrap();
        // One is in the map.
        assert!(ledger.made() - ledger.dropped() < 1 + WAIT);
    }
    assert_eq!((map.free_unused(), ledger.dropped()), (0, 999));
}

#[test]
fn no_lookup_runs_a_destructor() {
    let (map, ledger) = (open(1), Ledger::new(100));
    (0..20).for_each(|_| done(map.insert(1, ledger.make(1)).unwrap()));
    let before = ledger.dropped();
    for _ in 0..1_000 {
        map.get_with(&1, |value| value.is_right(1)).unwrap();
        map.get_many_with(&[&1, &2], |_, value| value.is_right(1));
        assert!(map.contains_key(&1) && map.touch(&1, Duration::MAX));
    }
    assert_eq!(ledger.dropped(), before);
    assert_eq!((map.free_unused(), ledger.dropped()), (0, 19));
}

#[test]
fn the_last_clone_frees_all_objects_though_their_threads_go_on() {
    let (map, ledger) = (open(2), Ledger::new(1_000));
    let (end, ended) = channel::<()>();
    let (used, wait) = channel();
    let worker = {
        let map = map.clone();
        thread::spawn(move || {
            (0..150).for_each(|key| done(map.insert(key, ledger.make(key)).unwrap()));
            drop(map);
            used.send(()).unwrap();
            ended.recv().unwrap();
        })
    };
    wait.recv_timeout(LONG).unwrap();
    (100..250).for_each(|key| done(map.insert(key, ledger.make(key)).unwrap()));
    assert!(ledger.dropped() < ledger.made());
    drop(map);
    ledger.each_once();
    end.send(()).unwrap();
    worker.join().unwrap();
}

#[test]
fn keys_are_freed_with_their_values() {
    let map = ObjectMap::<String, Vec<String>>::new(50).unwrap();
    for round in 0..500 {
        let key = format!("a key that is on the heap {}", round % 120);
        map.insert(key.clone(), vec![key.clone(); 3]).unwrap();
        assert_eq!(map.get(&key), Some(vec![key.clone(); 3]));
        assert_eq!(map.get_with(key.as_str(), |value| value[2].clone()), Some(key));
    }
}

// A value whose destructor puts another one over the next of its chain, whose destructor does the same.
struct Link(Option<(ObjectMap<u64, Link>, u64)>);

thread_local! {
    // How many such destructors run within each other, and how many did at most.
    static DEPTH: Cell<(u32, u32)> = const { Cell::new((0, 0)) };
    static DROPPED: Cell<u64> = const { Cell::new(0) };
}

impl Drop for Link {
    fn drop(&mut self) {
        DROPPED.set(DROPPED.get() + 1);
        let Some((map, next)) = self.0.take() else { return };
        let (depth, most) = DEPTH.get();
        DEPTH.set((depth + 1, most.max(depth + 1)));
        let _ = map.insert(next, Link(None));
        DEPTH.set((depth, DEPTH.get().1));
    }
}

#[test]
fn a_chain_of_destructors_takes_the_stack_of_one() {
    let (chains, length) = (64, 1_000);
    let map = ObjectMap::<u64, Link>::builder(100_000).shards(1).open().unwrap();
    for (chain, place) in (0..chains).flat_map(|chain| (0..length).map(move |place| (chain, place))) {
        let key = chain * length + place;
        assert!(map.insert(key, Link((place + 1 < length).then(|| (map.clone(), key + 1)))).is_ok());
    }
    (0..chains).for_each(|chain| assert!(map.insert(chain * length, Link(None)).is_ok()));
    (0..length).for_each(|_| _ = map.free_unused());
    // Each key was put twice.
    assert_eq!((DEPTH.get().1, map.stats().waiting, map.len() as u64, DROPPED.get()), (1, 0, chains * length, chains * length));
}

// A value of one of two maps, whose destructor removes a key of the other one and frees what that had.
struct Step(Option<(ObjectMap<u64, Step>, u64)>);

thread_local! {
    // How many such destructors run within each other, how many did at most, and how many ran.
    static STEPS: Cell<[u64; 3]> = const { Cell::new([0; 3]) };
}

impl Drop for Step {
    fn drop(&mut self) {
        let [depth, most, dropped] = STEPS.get();
        STEPS.set([depth + 1, most.max(depth + 1), dropped + 1]);
        if let Some((other, next)) = self.0.take() {
            let _ = other.remove_with(&next, |_| ());
            other.free_unused();
        }
        let [_, most, dropped] = STEPS.get();
        STEPS.set([depth, most, dropped]);
    }
}

#[test]
fn a_chain_of_destructors_of_two_maps_takes_the_stack_of_two() {
    const LENGTH: u64 = 100;
    let [first, second] = [(); 2].map(|()| ObjectMap::<u64, Step>::new(1_000).unwrap());
    for key in 0..LENGTH {
        assert!(first.insert(key, Step(Some((second.clone(), key)))).is_ok());
        assert!(second.insert(key, Step(Some((first.clone(), key + 1)))).is_ok());
    }
    assert!(first.remove_with(&0, |_| ()).is_ok());
    first.free_unused();
    assert_eq!((STEPS.get(), first.len(), second.len()), ([0, 2, 2 * LENGTH], 0, 0));
}

// A value whose destructor removes a key of another map, and frees what that had.
struct Remover(ObjectMap<u64, Arc<()>>, u64);

impl Drop for Remover {
    fn drop(&mut self) {
        let _ = self.0.remove_with(&self.1, |_| ());
        self.0.free_unused();
    }
}

#[test]
fn a_destructor_frees_the_objects_of_another_map() {
    let (held, others) = (Arc::new(()), ObjectMap::new(200).unwrap());
    let map = ObjectMap::<u64, Remover>::new(200).unwrap();
    for key in 0..100 {
        others.insert(key, Arc::clone(&held)).unwrap();
        assert!(map.insert(key, Remover(others.clone(), key)).is_ok());
    }
    map.clear().unwrap();
    map.free_unused();
    assert_eq!((others.len(), others.stats().waiting, Arc::strong_count(&held)), (0, 0, 1));
}

#[test]
fn what_waits_to_be_freed_is_counted() {
    let waits = |map: &Values| (map.stats().waiting, map.stats().waiting_weight, map.weight());
    let ledger = Ledger::new(100);
    let weighed = ObjectMap::builder(100).max_weight(30, |key: &u64, _: &Owned| *key).open().unwrap();
    for (map, weight, sum) in [(weighed, 7, 3), (open(2), 0, 0)] {
        (1..=4).for_each(|key| done(map.insert(key, ledger.make(key)).unwrap()));
        let look = |_: &Owned| {
            assert!(map.remove_with(&3, |_| ()).is_ok() && map.remove_with(&4, |_| ()).is_ok());
            assert_eq!(waits(&map), (2, weight, sum));
        };
        assert!(map.get_with(&1, look).is_some());
        assert_eq!((map.free_unused(), waits(&map)), (0, (0, 0, sum)));
    }
}

// A thread retires an object and ends. Other threads free it while they write, also if it had no handle of its own.
#[test]
fn what_a_thread_left_that_has_ended_is_freed_by_others() {
    for threads in [1, 2] {
        let ledger = Ledger::new(2_000);
        let map = open(threads);
        map.insert(1, ledger.make(1)).unwrap();
        thread::scope(|threads| {
            let retire = || {
                map.insert(2, ledger.make(2)).unwrap();
                assert!(map.remove_with(&2, |_| ()).is_ok());
            };
            threads.spawn(retire).join().unwrap();
        });
        (0..1_000).for_each(|_| done(map.insert(3, ledger.make(3)).unwrap()));
        assert!(ledger.has_dropped(1), "it is the second that was made");
    }
}
