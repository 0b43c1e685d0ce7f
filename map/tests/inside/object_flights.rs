//! When writes of a map of objects detach the flights of their key, and what its computations look at.
use super::waiting::{while_it_waits, LONG};
use super::{done, hold};
use crate::flight::{Boarding, Leader};
use crate::objects::Held;
use crate::print::Print;
use crate::wait::IN_PAUSE;
use crate::ObjectMap;
use std::cell::OnceCell;
use std::sync::mpsc::channel;
use std::thread;
use std::time::{Duration, Instant};

type Numbers = ObjectMap<u64, u64>;

const KEY: u64 = 7;
const LATE: &str = "the flight is not detached yet";

fn print(map: &Numbers) -> Print {
    Print::of_hash(map.hash_of(&KEY))
}

// The leader of a flight of the key, as if its thread had missed the key.
fn board(map: &Numbers) -> Leader<'_, ()> {
    let Boarding::First(leader) = map.inner.core.flights.board(print(map)) else { panic!("there is another flight") };
    leader
}

fn is_detached(leader: &Leader<()>) -> bool {
    leader.put(|| ()).is_none()
}

#[test]
fn a_write_detaches_before_it_calls_the_index() {
    let writes: [fn(&Numbers, u64); 7] = [
        |map, _| done(map.insert(KEY, 2)),
        |map, _| done(map.insert_for(KEY, 2, Duration::MAX)),
        |map, _| done(map.put(KEY, 2, None)),
        |map, _| done(map.remove(&KEY)),
        |map, _| done(map.remove_with(&KEY, |_| ())),
        |map, since| done(map.remove_stamped(map.hash_of(&KEY), since)),
        |map, _| done(map.clear()),
    ];
    for write in writes {
        let map = Numbers::builder(100).threads(0).open().unwrap();
        let since = map.put(KEY, 1, None).unwrap().at;
        let leader = board(&map);
        let call = |hold: &dyn Fn()| {
            hold();
            write(&map, since);
        };
        while_it_waits(&map.inner.core.slots, call, || assert!(is_detached(&leader), "{LATE}"));
    }
}

// It compares the key before: another write may come in between, and then nothing is changed.
#[test]
fn a_write_on_a_condition_detaches() {
    let writes: [fn(&Numbers, u64); 2] =
        [|map, since| done(map.remove_if(&KEY, since)), |map, since| done(map.replace_if(KEY, since, 2, None))];
    for write in writes {
        let map = Numbers::new(100).unwrap();
        let since = map.put(KEY, 1, None).unwrap().at;
        let leader = board(&map);
        write(&map, since);
        assert!(is_detached(&leader));
    }
}

// Makes a call in this thread while another one seems to have the turn of the key's shard. `meanwhile` is called once the call waits.
// The map lives on, since what a thread does in a pause may borrow nothing.
fn beside_a_put<T>(map: &'static Numbers, call: impl FnOnce() -> T, meanwhile: impl FnOnce() + 'static) -> T {
    let others = hold(&map.inner.core.slots);
    IN_PAUSE.set(Some(Box::new(move || {
        meanwhile();
        drop(others);
    })));
    let told = call();
    assert!(IN_PAUSE.take().is_none(), "the call did not wait");
    told
}

fn open_for_ever() -> &'static Numbers {
    Box::leak(Box::new(Numbers::new(100).unwrap()))
}

#[test]
fn a_change_detaches_after_its_closure_and_before_it_puts() {
    type Change = fn(&Numbers, &mut dyn FnMut() -> u64);
    let changes: [Change; 2] = [|map, new| done(map.update(KEY, |_| new())), |map, new| done(map.modify(&KEY, |_| new()))];
    for change in changes {
        let map = open_for_ever();
        map.insert(KEY, 1).unwrap();
        let leader: &OnceCell<Leader<()>> = Box::leak(Box::default());
        let new = &mut || {
            assert!(leader.set(board(map)).is_ok(), "the closure is called once");
            2
        };
        beside_a_put(map, || change(map, new), || assert!(is_detached(leader.get().unwrap()), "{LATE}"));
        assert_eq!(map.get(&KEY), Some(2));
    }
}

// This one puts without that lock.
#[test]
fn so_does_a_renewal_detach_after_its_closure() {
    let map = Numbers::new(100).unwrap();
    map.insert(KEY, 1).unwrap();
    let mut leader = None;
    let renew = |_: &u64| {
        leader = Some(board(&map));
        2
    };
    map.modify_for(&KEY, Duration::MAX, renew).unwrap().unwrap();
    assert!(is_detached(&leader.unwrap()));
}

#[test]
fn an_insert_of_an_absent_key_detaches_before_it_puts() {
    let inserts: [fn(&Numbers); 2] = [|map| done(map.insert_if_absent(KEY, 2)), |map| done(map.update(KEY, |_| 2))];
    for insert in inserts {
        let map = open_for_ever();
        let leader: &Leader<()> = Box::leak(Box::new(board(map)));
        beside_a_put(map, || insert(map), || assert!(is_detached(leader), "{LATE}"));
        assert_eq!(map.get(&KEY), Some(2));
    }
}

// Else a removal could end in between, and the older value would be put after it.
#[test]
fn nothing_detaches_a_flight_while_its_value_is_put() {
    let map = open_for_ever();
    let is_locked = || map.inner.core.flights.is_locked(print(map));
    let made = beside_a_put(map, || map.get_or_insert_with(&KEY, || 2), move || assert!(is_locked(), "a write can detach it"));
    assert_eq!((made, map.get(&KEY), is_locked()), (2, Some(2), false));
}

#[test]
fn a_value_that_came_before_the_flight_is_not_computed_again() {
    let map = Numbers::new(100).unwrap();
    map.insert(KEY, 10).unwrap();
    let value = map.inner.compute(map.hash_of(&KEY), &KEY, Some(&board(&map)), 1, || Err("it is computed again"));
    assert_eq!(value, Ok(10));
}

// It is put while the call waits. A thread that had missed the key before that begins to compute it anew.
#[test]
fn a_call_that_waited_gets_what_was_put_and_waits_for_no_later_flight() {
    let map = Numbers::new(100).unwrap();
    let (earlier, calls, begin) = (board(&map), map.clone(), Instant::now());
    let (send, receive) = channel();
    thread::spawn(move || send.send(calls.get_or_insert_with(&KEY, || 2)));
    while map.inner.core.flights.passengers(print(&map)) == 0 {
        assert!(begin.elapsed() < LONG, "the call does not wait");
        thread::yield_now();
    }
    map.insert(KEY, 10).unwrap();
    let _later = board(&map);
    drop(earlier);
    assert_eq!(receive.recv_timeout(LONG), Ok(10));
}

// A renewal comes once the update has begun to wait for its turn.
#[test]
fn a_change_keeps_a_deadline_that_is_moved_while_it_waits() {
    type Change = fn(&Numbers);
    let changes: [Change; 2] = [|map| done(map.update(KEY, |_| 2).unwrap()), |map| done(map.modify(&KEY, |_| 2).unwrap())];
    for change in changes {
        let map = open_for_ever();
        map.insert_for(KEY, 1, Duration::from_secs(100)).unwrap();
        let renew = || {
            let seen = map.inner.pin();
            let Some(crate::objects::State::Live(seen)) = seen.look(map.hash_of(&KEY), &KEY, 1) else { panic!("it is there") };
            seen.object.set_deadline(crate::clock::NEVER);
        };
        beside_a_put(map, || change(map), renew);
        map.inner.core.clock.turn(Duration::from_secs(200));
        assert_eq!(map.get(&KEY), Some(2));
    }
}
