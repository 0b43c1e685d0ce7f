//! What a task finds that wants a key, and whom its flight carries.
use super::turns::{before_calls, calls};
use crate::{Board, Map};

type Numbers = Map<u64, u64>;

const KEY: u64 = 7;

// Between its lookup and its boarding an earlier flight may end, whose value is there then.
#[test]
fn a_value_that_came_after_the_lookup_is_not_loaded_again() {
    let map = Numbers::new(100).unwrap();
    let other = map.clone();
    before_calls(1, 1, move || super::done(other.insert(&KEY, 70)));
    let (_, board) = calls(|| map.try_board(&KEY));
    assert!(matches!(board, Board::Found(70)));
    assert!(matches!(map.try_board(&KEY), Board::Found(70)));
}

#[cfg(feature = "objects")]
#[test]
fn nor_is_an_object() {
    let map = crate::ObjectMap::<u64, u64>::new(100).unwrap();
    let other = map.clone();
    before_calls(1, 1, move || drop(other.insert(KEY, 70)));
    let (_, board) = calls(|| map.try_board(&KEY));
    assert!(matches!(board, Board::Found(70)));
}

#[test]
fn a_flight_forgets_who_waits_no_more() {
    let map = Numbers::new(100).unwrap();
    let passengers = || map.inner.core.flights.passengers(map.inner.print(&KEY));
    let lead = map.try_board(&KEY);
    let waits = [map.try_board(&KEY), map.try_board(&KEY)];
    assert!(matches!(&lead, Board::Lead(_)) && matches!(&waits, [Board::Wait(_), Board::Wait(_)]));
    assert_eq!(passengers(), 2);
    drop(waits);
    assert_eq!(passengers(), 0);
}

fn is_send<T: Send>(of: T) -> T {
    of
}

// So a task may go on in any thread.
#[test]
fn what_a_task_keeps_may_go_to_other_threads() {
    let map = Numbers::new(100).unwrap();
    let (first, second) = (is_send(map.try_board(&KEY)), is_send(map.try_board(&KEY)));
    assert!(matches!((first, second), (Board::Lead(_), Board::Wait(_))));
}
