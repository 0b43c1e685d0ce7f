//! A computed value beside a write that begins or ends in the middle of the computation, and what those get that wait for it.
use super::waiting::LONG;
use crate::clock::NEVER;
use crate::flight::{Boarding, Leader};
use crate::Map;
use crate::Published;
use std::sync::mpsc::{channel, Receiver};
use std::thread;
use std::time::{Duration, Instant};

type Numbers = Map<u64, u64>;

const KEY: u64 = 1;

// The leader of a flight of the key, as if its thread had missed the key.
fn board(map: &Numbers) -> Leader<'_, u64> {
    let Boarding::First(leader) = map.inner.core.flights.board(map.inner.print(&KEY)) else { panic!("there is another flight") };
    leader
}

// Puts the key, as a write does that has detached the flight of the key before this one.
fn put(map: &Numbers, value: u64) {
    let print = map.inner.print_now(&KEY);
    let words = map.inner.words(print, value, NEVER);
    map.inner.core.slots.call(|handle| handle.put(print.key, &words)).unwrap();
}

// Removes the key, as a removal does that has detached the flight of the key before this one.
fn remove(map: &Numbers) {
    let key = map.inner.print(&KEY).key;
    map.inner.core.slots.call(|handle| handle.remove(key)).unwrap();
    assert_eq!(map.get(&KEY), None);
}

// A call in another thread.
struct Call(Receiver<u64>);

impl Call {
    // What it returns.
    fn end(self) -> u64 {
        self.0.recv_timeout(LONG).expect("the call does not end")
    }
}

// A call that begins now, once it has joined the key's flight or has ended. It makes 2.
fn call(map: &Numbers) -> Call {
    let (calls, print, begin) = (map.clone(), map.inner.print(&KEY), Instant::now());
    let before = map.inner.core.flights.passengers(print);
    let (send, receive) = channel();
    let thread = thread::spawn(move || send.send(calls.get_or_insert_with(&KEY, || 2)));
    while map.inner.core.flights.passengers(print) == before && !thread.is_finished() {
        assert!(begin.elapsed() < LONG, "the call neither waits nor ends");
        thread::yield_now();
    }
    Call(receive)
}

#[test]
fn a_value_that_came_meanwhile_stays_and_all_get_it() {
    let map = Numbers::new(100).unwrap();
    let (leader, waiting) = (board(&map), call(&map));
    let made = map.inner.compute(map.inner.print(&KEY), Some(&leader), 1, || {
        put(&map, 10);
        Ok::<u64, ()>(11)
    });
    drop(leader);
    assert_eq!((made, waiting.end(), map.get(&KEY)), (Ok(10), 10, Some(10)));
}

#[test]
fn a_value_begun_before_an_update_puts_is_not_put() {
    let map = Numbers::new(100).unwrap();
    let mut leader = None;
    let updated = map.update(&KEY, |_| {
        leader = Some(board(&map));
        5
    });
    let value = leader.unwrap().end(4, || unreachable!("a value that is too old is put"));
    assert_eq!((updated, value, map.get(&KEY)), (Ok(5), Published::Outdated(4), Some(5)));
}

#[test]
fn a_value_that_came_before_the_flight_is_not_computed_again() {
    let map = Numbers::new(100).unwrap();
    map.insert(&KEY, 10).unwrap();
    let value = map.inner.compute(map.inner.print(&KEY), Some(&board(&map)), 1, || Err("it is computed again"));
    assert_eq!((value, map.get(&KEY), map.len()), (Ok(10), Some(10), 1));
}

#[test]
fn nobody_gets_the_value_before_it_is_put() {
    let map = Numbers::new(100).unwrap();
    let (leader, print) = (board(&map), map.inner.print(&KEY));
    let flight = thread::scope(|threads| {
        let joined = threads.spawn(|| match map.inner.core.flights.board(print) {
            Boarding::Other(flight) => flight,
            _ => panic!("there is a flight"),
        });
        joined.join().unwrap()
    });
    leader.end(1, || {
        assert!(!flight.has_outcome());
        Published::Put(1)
    });
    assert!(flight.has_outcome());
    assert_eq!(flight.wait(Duration::MAX).unwrap().value(), Some(1));
}

// In this test and the next two a removal has detached the flight of the key before this flight began. It takes out a value that the leader of
// this flight has found or put, and returns. A call that begins then must not get that value.
#[test]
fn a_value_that_was_found_and_removed_is_not_for_those_that_wait() {
    let map = Numbers::new(100).unwrap();
    let (leader, earlier) = (board(&map), call(&map));
    put(&map, 1);
    assert_eq!(map.inner.compute(map.inner.print(&KEY), Some(&leader), 1, || Err("it is there")), Ok(1));
    remove(&map);
    let later = call(&map);
    drop(leader);
    assert_eq!((earlier.end(), later.end(), map.get(&KEY)), (2, 2, Some(2)));
}

#[test]
fn nor_is_one_that_came_meanwhile_and_was_removed() {
    let map = Numbers::new(100).unwrap();
    let (leader, earlier) = (board(&map), call(&map));
    let made = map.inner.compute(map.inner.print(&KEY), Some(&leader), 1, || {
        put(&map, 1);
        Ok::<u64, ()>(3)
    });
    remove(&map);
    let later = call(&map);
    drop(leader);
    let told = (earlier.end(), later.end());
    assert_eq!((made, told, map.get(&KEY)), (Ok(1), (2, 2), Some(2)));
}

#[test]
fn one_that_was_computed_and_removed_is_not_for_later_calls() {
    let map = Numbers::new(100).unwrap();
    let (leader, earlier) = (board(&map), call(&map));
    assert_eq!(map.inner.compute(map.inner.print(&KEY), Some(&leader), 1, || Ok::<u64, ()>(1)), Ok(1));
    remove(&map);
    let later = call(&map);
    drop(leader);
    assert_eq!((earlier.end(), later.end(), map.get(&KEY)), (1, 2, Some(2)));
}

// A thread that is woken before it can see that the flight has ended waits on, and nobody wakes it again.
#[test]
fn each_failure_wakes_the_thread_that_waits() {
    let map = Numbers::new(100).unwrap();
    let (calls, print) = (map.clone(), map.inner.print(&KEY));
    let (begin, begun) = channel();
    let (send, receive) = channel();
    thread::spawn(move || {
        for round in begun {
            send.send(calls.get_or_insert_with(&KEY, || round)).unwrap();
        }
    });
    for round in 0..3_000 {
        let (leader, since) = (board(&map), Instant::now());
        begin.send(round).unwrap();
        while map.inner.core.flights.passengers(print) == 0 {
            assert!(since.elapsed() < LONG, "no thread waits for the computation");
            thread::yield_now();
        }
        drop(leader);
        assert_eq!(receive.recv_timeout(LONG), Ok(round), "a thread waits for a computation that has failed");
        map.remove(&KEY).unwrap();
    }
}

#[test]
fn a_failure_lets_those_that_wait_find_what_was_put_since() {
    let map = Numbers::new(100).unwrap();
    let (leader, waiting) = (board(&map), call(&map));
    put(&map, 10);
    drop(leader);
    assert_eq!((waiting.end(), map.get(&KEY)), (10, Some(10)));
    // A call is one lookup, also if it waited.
    assert_eq!((map.stats().hits, map.stats().misses), (1, 1));
}
