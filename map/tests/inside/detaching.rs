//! When writes of a map detach the flight of their key: before they call the index, and after the caller's closure has run.
use super::done;
use super::waiting::{while_it_waits, LONG};
use crate::flight::{Boarding, Leader};
use crate::Map;
use std::sync::OnceLock;
use std::thread;
use std::time::{Duration, Instant};

type Numbers = Map<u64, u64>;

const KEY: u64 = 7;
const LATE: &str = "the flight is not detached yet";

// A map with the key, in which no thread has a handle of its own.
fn open() -> Numbers {
    let map = Numbers::builder(1_000).threads(0).time_to_live(Duration::MAX).open().unwrap();
    map.insert(&KEY, 1).unwrap();
    map
}

// The leader of a flight of this key, as if its thread had missed the key.
fn board(map: &Numbers, key: u64) -> Leader<'_, u64> {
    let Boarding::First(leader) = map.inner.core.flights.board(map.inner.print(&key)) else { panic!("there is another flight") };
    leader
}

fn is_detached(leader: &Leader<u64>) -> bool {
    leader.put(|| ()).is_none()
}

#[test]
fn a_write_detaches_before_it_calls_the_index() {
    let writes: [fn(&Numbers); 7] = [
        |map| done(map.insert(&KEY, 2)),
        |map| done(map.try_insert(&KEY, 2)),
        |map| done(map.insert_for(&KEY, 2, Duration::MAX)),
        |map| done(map.remove(&KEY)),
        |map| done(map.try_remove(&KEY)),
        |map| done(map.clear()),
        |map| done(map.try_clear()),
    ];
    for write in writes {
        let map = open();
        let leader = board(&map, KEY);
        let call = |hold: &dyn Fn()| {
            hold();
            write(&map);
        };
        while_it_waits(&map.inner.core.slots, call, || assert!(is_detached(&leader), "{LATE}"));
    }
}

#[test]
fn a_change_detaches_after_its_closure_and_before_it_puts() {
    type Change = fn(&Numbers, &mut dyn FnMut() -> u64);
    let changes: [Change; 4] = [
        |map, new| done(map.update(&KEY, |_| new())),
        |map, new| done(map.try_update(&KEY, |_| new())),
        |map, new| done(map.modify(&KEY, |_| new())),
        |map, new| done(map.modify_for(&KEY, Duration::MAX, |_| new())),
    ];
    for change in changes {
        let map = open();
        let leader = OnceLock::new();
        let call = |hold: &dyn Fn()| {
            change(&map, &mut || {
                assert!(leader.set(board(&map, KEY)).is_ok(), "the closure is called once");
                hold();
                2
            });
        };
        while_it_waits(&map.inner.core.slots, call, || assert!(is_detached(leader.get().unwrap()), "{LATE}"));
        assert_eq!(map.get(&KEY), Some(2));
    }
}

#[test]
fn a_change_of_an_absent_key_detaches_nothing() {
    let map = open();
    map.remove(&KEY).unwrap();
    let leader = board(&map, KEY);
    assert_eq!(map.modify(&KEY, |_| unreachable!("it is not there")), Ok(None));
    assert_eq!(map.modify_for(&KEY, Duration::MAX, |_| unreachable!("it is not there")), Ok(None));
    assert!(!is_detached(&leader));
}

#[test]
fn a_clear_detaches_the_flights_of_all_keys() {
    let map = open();
    let leaders: Vec<_> = (1_000..2_000).map(|key| board(&map, key)).collect();
    map.clear().unwrap();
    assert_eq!(leaders.iter().filter(|leader| is_detached(leader)).count(), 1_000);
}

// Else a removal could end in between, and the older value would be put after it.
#[test]
fn nothing_detaches_a_flight_while_its_value_is_put() {
    let map = open();
    map.remove(&KEY).unwrap();
    let (inner, print) = (&map.inner, map.inner.print(&KEY));
    let compute = |hold: &dyn Fn()| {
        let leader = board(&map, KEY);
        let made = inner.compute(print, Some(&leader), 1, || {
            hold();
            Ok::<u64, ()>(2)
        });
        assert_eq!(made, Ok(2));
    };
    while_it_waits(&inner.core.slots, compute, || assert!(inner.core.flights.is_locked(print), "a write can detach the flight"));
    assert_eq!((map.get(&KEY), inner.core.flights.is_locked(print)), (Some(2), false));
}

// So a flight that begins once the call has returned is of the next generation, and none that is older is left to wait for.
#[test]
fn an_invalidation_ends_the_generation_before_it_detaches() {
    let (map, begin) = (open(), Instant::now());
    let (leader, other, generation) = (board(&map, KEY), map.clone(), &map.inner.core.generation);
    let before = generation.now();
    let beside_a_lock = || {
        let invalidation = thread::spawn(move || other.invalidate_all());
        while generation.now() == before {
            assert!(begin.elapsed() < LONG, "it detaches flights first");
            thread::yield_now();
        }
        invalidation
    };
    leader.put(beside_a_lock).unwrap().join().unwrap();
    assert!(is_detached(&leader));
}
