//! Threads whose functions want the values that the others compute.
use super::forks::in_child;
use super::turns::before_calls;
use super::waiting::LONG;
use crate::slots::BEFORE_CALL;
use crate::{deadlocks, Map};
#[cfg(feature = "objects")]
use std::hash::RandomState;
use std::sync::mpsc::channel;
use std::sync::{Arc, Barrier};
use std::thread;
use std::time::{Duration, Instant};

type Numbers = Map<u64, u64>;
/// The value of a key of a map, or else what the function makes.
type Ask = Arc<dyn Fn(&dyn Fn() -> u64) -> u64 + Send + Sync>;

fn of_map(map: &Numbers, key: u64) -> Ask {
    let map = map.clone();
    Arc::new(move |make| map.get_or_insert_with(&key, make))
}

// Each thread computes a value, and asks for that of the next one, which is one more than what that gets.
fn ring(asks: &[Ask]) {
    let (sender, values) = channel();
    let begun = Arc::new(Barrier::new(asks.len()));
    for (ask, next) in asks.iter().zip(asks.iter().cycle().skip(1)) {
        let (ask, next, begun, sender) = (ask.clone(), next.clone(), begun.clone(), sender.clone());
        thread::spawn(move || {
            let value = ask(&|| {
                begun.wait();
                next(&|| 1) + 1
            });
            sender.send(value).unwrap();
        });
    }
    let mut values: Vec<u64> = asks.iter().map(|_| values.recv_timeout(LONG).expect("a thread waits for ever")).collect();
    // One calls the next one's function for itself alone, and that next one puts what comes of all the others.
    values.sort_unstable();
    assert!(values.into_iter().eq(2..2 + asks.len() as u64));
    let mut put: Vec<u64> = asks.iter().map(|ask| ask(&|| panic!("it was put"))).collect();
    put.sort_unstable();
    assert!(put.into_iter().eq(2..2 + asks.len() as u64));
}

#[test]
fn two_threads_and_two_keys() {
    let map = Numbers::new(100).unwrap();
    ring(&[of_map(&map, 1), of_map(&map, 2)]);
}

#[test]
fn a_ring_of_three() {
    let (map, other) = (Numbers::new(100).unwrap(), Numbers::new(100).unwrap());
    ring(&[of_map(&map, 1), of_map(&other, 1), of_map(&map, 2)]);
}

#[cfg(feature = "objects")]
#[test]
fn a_map_of_values_and_one_of_objects() {
    let objects = crate::ObjectMap::<u64, u64>::new(100).unwrap();
    ring(&[of_map(&Numbers::new(100).unwrap(), 1), Arc::new(move |make| objects.get_or_insert_with(&1, make))]);
}

fn until_one_waits(map: &Numbers, key: u64) {
    let begin = Instant::now();
    while !map.inner.core.flights.is_awaited(map.inner.print(&key)) {
        assert!(begin.elapsed() < LONG, "no thread waits for the computation");
        thread::yield_now();
    }
}

// A thread that computes 1 waits for another one's 2. That one ends, and then asks for 1: so nobody waits for it any more, and it waits.
#[test]
fn a_wait_that_is_over_closes_no_ring() {
    let map = Numbers::new(100).unwrap();
    let (first, second) = (map.clone(), map.clone());
    let (begun, has_begun) = channel();
    let (go, gone) = channel();
    let (send, values) = channel();
    let sender = send.clone();
    thread::spawn(move || {
        let value = second.get_or_insert_with(&2, || {
            begun.send(()).unwrap();
            until_one_waits(&second, 2);
            20
        });
        sender.send(second.get_or_insert_with(&1, || panic!("another thread computes it")) + value).unwrap();
    });
    thread::spawn(move || {
        let make = || {
            has_begun.recv().unwrap();
            let value = first.get_or_insert_with(&2, || panic!("another thread computes it"));
            gone.recv().unwrap();
            value + 1
        };
        send.send(first.get_or_insert_with(&1, make)).unwrap();
    });
    until_one_waits(&map, 1);
    go.send(()).unwrap();
    let mut values = [0; 2].map(|_| values.recv_timeout(LONG).expect("a thread waits for ever"));
    values.sort_unstable();
    assert_eq!((values, map.get(&1), map.get(&2)), ([21, 41], Some(21), Some(20)));
}

// While one thread makes the value of a key, another one asks for it.
fn asks_within(ask: impl Fn(&dyn Fn() -> u64) -> u64 + Sync) -> u64 {
    ask(&|| thread::scope(|threads| threads.spawn(|| ask(&|| 10)).join().unwrap()) + 1)
}

#[test]
fn a_call_that_may_not_wait_computes_for_itself_alone() {
    let map = Numbers::builder(100).most_wait(Duration::ZERO).open().unwrap();
    assert_eq!((asks_within(|make| map.get_or_insert_with(&1, make)), map.get(&1), map.stats().added), (11, Some(11), 1));
    #[cfg(feature = "objects")]
    {
        let builder = crate::ObjectMap::<u64, u64>::builder(100).most_wait(Duration::ZERO);
        let map = builder.hasher(RandomState::new()).open().unwrap();
        assert_eq!((asks_within(|make| map.get_or_insert_with(&1, make)), map.get(&1), map.stats().added), (11, Some(11), 1));
    }
}

// Each computation fails once the call waits for it, and the next one has begun before the call looks again. So no wait is long, but all together are.
#[test]
fn a_call_waits_for_many_computations_no_longer_than_for_one() {
    let map = Numbers::builder(100).most_wait(Duration::from_millis(100)).open().unwrap();
    let other = map.clone();
    before_calls(0, 100_000, move || {
        let (map, (begun, has_begun)) = (other.clone(), channel());
        thread::spawn(move || {
            let fail = || {
                begun.send(()).unwrap();
                until_one_waits(&map, 1);
                Err::<u64, ()>(())
            };
            map.get_or_try_insert_with(&1, fail)
        });
        has_begun.recv().unwrap();
    });
    assert_eq!(map.get_or_insert_with(&1, || 10), 10);
    assert_eq!((BEFORE_CALL.take().is_some(), map.get(&1)), (true, None), "it has waited until none computes any more");
}

// A thread that has computed so asks no more for what it would have waited for.
#[test]
fn a_wait_that_was_too_long_closes_no_ring() {
    let (hasty, map) = (Numbers::builder(100).most_wait(Duration::ZERO).open().unwrap(), Numbers::new(100).unwrap());
    let (begun, has_begun) = channel();
    let value = hasty.get_or_insert_with(&1, || {
        let (hasty, other) = (hasty.clone(), map.clone());
        let begun = begun.clone();
        thread::spawn(move || {
            other.get_or_insert_with(&2, || {
                let value = hasty.get_or_insert_with(&1, || 10);
                begun.send(()).unwrap();
                until_one_waits(&other, 2);
                value + 10
            })
        });
        has_begun.recv().unwrap();
        map.get_or_insert_with(&2, || panic!("another thread computes it")) + 1
    });
    assert_eq!((value, map.get(&2)), (21, Some(20)));
}

#[test]
fn a_call_that_waits_for_less_than_it_may_gets_the_value() {
    let map = Numbers::builder(100).most_wait(LONG).open().unwrap();
    let mut other = None;
    let value = map.get_or_insert_with(&1, || {
        let clone = map.clone();
        other = Some(thread::spawn(move || clone.get_or_insert_with(&1, || panic!("another thread computes it"))));
        until_one_waits(&map, 1);
        10
    });
    assert_eq!((value, other.unwrap().join().unwrap(), map.get(&1)), (10, 10, Some(10)));
}

// Another thread of the parent may have had the lock, and waited: neither is so in the child.
#[test]
fn a_child_has_waits_of_its_own() {
    let _counts_forks = Numbers::new(100).unwrap();
    assert!(deadlocks::begin(1, 10, 2));
    let _locked = deadlocks::hold();
    assert_eq!(in_child(|| i32::from(!deadlocks::begin(2, 20, 1))), 0);
}
