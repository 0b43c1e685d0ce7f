//! One thread computes a value, and others wait for it. A value that was computed before a write of its key is not put after it.
use super::waiting::LONG;
use crate::{Board, GetError, Inserted, Lead, Map};
use std::panic::catch_unwind;
use std::sync::mpsc::{channel, Receiver, Sender};
use std::thread;
use std::time::Instant;

type Numbers = Map<u64, u64>;

const KEY: u64 = 7;

/// A thread that has begun to compute a value, and waits before it goes on.
struct Computation {
    value: Receiver<u64>,
    go: Sender<()>,
}

impl Computation {
    fn begin(map: &Numbers, value: u64) -> Computation {
        let (begun, wait): (Sender<()>, Receiver<()>) = channel();
        let (go, gone) = channel();
        let (send, value_of_call) = channel();
        let map = map.clone();
        let make = move || {
            begun.send(()).unwrap();
            gone.recv().unwrap();
            value
        };
        thread::spawn(move || send.send(map.get_or_insert_with(&KEY, make)));
        wait.recv_timeout(LONG).expect("the computation has not begun");
        Computation { value: value_of_call, go }
    }

    /// What the call returns.
    fn end(self) -> u64 {
        self.go.send(()).unwrap();
        self.value.recv_timeout(LONG).expect("the computation does not end")
    }
}

/// A thread that waits for a computation.
struct Waiting(Receiver<u64>);

impl Waiting {
    // Returns when the thread has joined the flight.
    fn begin(map: &Numbers, made: u64) -> Waiting {
        let (send, receive) = channel();
        let (inner, calls, begin) = (&map.inner, map.clone(), Instant::now());
        thread::spawn(move || send.send(calls.get_or_insert_with(&KEY, || made)));
        while inner.core.flights.passengers(inner.print(&KEY)) == 0 {
            assert!(begin.elapsed() < LONG, "no thread waits for the computation");
            thread::yield_now();
        }
        Waiting(receive)
    }

    /// What the call returns.
    fn end(self) -> u64 {
        self.0.recv_timeout(LONG).expect("a thread waits for a computation that has ended")
    }
}

#[test]
fn those_that_wait_get_the_value_and_those_that_try_do_not_wait() {
    let map = Numbers::new(100).unwrap();
    let first = Computation::begin(&map, 1);
    assert_eq!(map.try_get_or_insert_with(&KEY, || 2), Err(GetError::Computing));
    assert_eq!(map.try_get_or_insert_with(&8, || 80), Ok(80));
    assert_eq!((map.get(&KEY), map.get(&8)), (None, Some(80)));
    let second = Waiting::begin(&map, 3);
    assert_eq!((first.end(), second.end(), map.get(&KEY)), (1, 1, Some(1)));
    assert_eq!(map.try_get_or_insert_with(&KEY, || 4), Ok(1));
}

#[test]
fn a_panic_lets_another_thread_compute() {
    let map = Numbers::new(100).unwrap();
    for _ in 0..3 {
        let panicked = catch_unwind(|| map.get_or_insert_with(&KEY, || panic!("as the test wants")));
        assert!(panicked.is_err() && map.get(&KEY).is_none());
    }
    let (begun, wait) = channel();
    let (go, gone) = channel::<()>();
    let first = {
        let map = map.clone();
        thread::spawn(move || {
            map.get_or_insert_with(&KEY, || {
                begun.send(()).unwrap();
                gone.recv().unwrap();
                panic!("as the test wants")
            })
        })
    };
    wait.recv_timeout(LONG).expect("the computation has not begun");
    let second = Waiting::begin(&map, 2);
    go.send(()).unwrap();
    assert!(first.join().is_err());
    assert_eq!((second.end(), map.get(&KEY)), (2, Some(2)));
}

// A write comes while a thread computes. Then its value is not put, and a call that begins later doesn't wait for it.
fn detaches(write: impl FnOnce(&Numbers), then: Option<u64>) {
    let map = Numbers::new(100).unwrap();
    let old = Computation::begin(&map, 1);
    let waiting = Waiting::begin(&map, 10);
    write(&map);
    assert_eq!(map.get(&KEY), then);
    let new = map.try_get_or_insert_with(&KEY, || 2);
    assert_eq!(new, Ok(then.unwrap_or(2)), "a call waits for a value that is too old");
    if then.is_none() {
        map.remove(&KEY).unwrap();
    }
    assert_eq!((old.end(), waiting.end()), (1, 1));
    assert_eq!(map.get(&KEY), then, "the old value was put");
}

#[test]
fn a_value_computed_before_a_removal_is_not_put() {
    detaches(|map| assert_eq!(map.remove(&KEY), Ok(None)), None);
    detaches(|map| assert_eq!(map.try_remove(&KEY), Ok(None)), None);
    detaches(|map| map.clear().unwrap(), None);
}

#[test]
fn a_value_computed_before_a_put_is_not_put() {
    detaches(|map| assert_eq!(map.insert(&KEY, 5), Ok(Inserted::New)), Some(5));
    detaches(|map| assert_eq!(map.update(&KEY, |old| old.unwrap_or(5)), Ok(5)), Some(5));
    // Also if what was put has gone again.
    detaches(
        |map| {
            map.insert(&KEY, 5).unwrap();
            map.remove(&KEY).unwrap();
        },
        None,
    );
}

#[test]
fn a_write_of_another_key_does_not_matter() {
    let map = Numbers::new(1_000).unwrap();
    let computation = Computation::begin(&map, 1);
    for key in 100..400 {
        map.insert(&key, key).unwrap();
        map.remove(&key).unwrap();
    }
    assert_eq!((computation.end(), map.get(&KEY)), (1, Some(1)));
}

fn lead(map: &Numbers, key: u64) -> Lead<'_, u64, u64> {
    match map.try_board(&key) {
        Board::Lead(lead) => lead,
        _ => panic!("nobody loads {key}"),
    }
}

#[test]
fn a_write_finds_each_flight_that_runs_though_others_have_ended() {
    let map = Numbers::new(100).unwrap();
    for rounds in 0..3 {
        let leads = [1, 2, 3].map(|key| lead(&map, key));
        assert_eq!(map.inner.core.flights.running(), 3, "round {rounds}");
        let [first, second, third] = leads;
        assert_eq!(first.publish(10), 10);
        drop(second);
        assert_eq!(map.inner.core.flights.running(), 1);
        map.remove(&3).unwrap();
        assert_eq!((third.publish(30), map.get(&3)), (30, None), "it was detached");
        assert_eq!(map.inner.core.flights.running(), 0);
        assert_eq!(map.remove(&1), Ok(Some(10)));
    }
}
