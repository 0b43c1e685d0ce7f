//! Entries that expire if they are not used, by a clock that the tests turn.
use super::done;
use super::turns::{before_calls, calls, Turn};
use crate::handle::Index;
use crate::Map;
use std::time::Duration;

type Numbers = Map<u64, u64>;

const IDLE: Duration = seconds(160);

const fn seconds(number: u64) -> Duration {
    Duration::from_secs(number)
}

// A map with the keys 1 to 4.
fn open() -> Numbers {
    let map = Map::builder(100).time_to_idle(IDLE).open().unwrap();
    for key in 1..=4 {
        map.insert(&key, 10 * key).unwrap();
    }
    map
}

fn turn(map: &Numbers, by: u64) {
    map.inner.core.clock.turn(seconds(by));
}

#[test]
fn an_entry_expires_when_it_was_not_used_for_so_long() {
    let map = open();
    turn(&map, 100);
    assert_eq!((map.get(&1), map.peek(&2)), (Some(10), Ok(Some(20))));
    turn(&map, 59);
    assert_eq!((map.peek(&2), map.peek(&3)), (Ok(Some(20)), Ok(Some(30))));
    turn(&map, 1);
    // Peeks are no uses.
    assert_eq!((map.get(&1), map.get(&2), map.get(&3), map.peek(&4)), (Some(10), None, None, Ok(None)));
    turn(&map, 159);
    assert_eq!(map.peek(&1), Ok(Some(10)));
    turn(&map, 1);
    assert_eq!((map.get(&1), map.stats().expired), (None, 3));
}

// A lookup gives the entry a new end, and that is no reason to keep it.
#[test]
fn what_is_used_after_it_was_shown_is_removed() {
    let (map, mut shown) = (open(), Vec::new());
    turn(&map, 100);
    let removed = map.retain(|key, _| {
        shown.push(*key);
        *key > 1 || shown.len() < 5 && map.get(key).is_none()
    });
    assert_eq!((removed, map.get(&1), map.len(), shown.iter().filter(|key| **key == 1).count()), (Ok(1), None, 3, 2));
}

#[test]
fn each_lookup_and_write_is_a_use() {
    type Use = fn(&Numbers);
    let uses: [Use; 10] = [
        |map| done(map.get(&1)),
        |map| done(map.try_get(&1)),
        |map| done(map.contains_key(&1)),
        |map| done(map.get_many([&1, &9])),
        |map| done(map.get_or_insert_with(&1, || unreachable!("it is there"))),
        |map| done(map.try_board(&1)),
        |map| done(map.insert(&1, 10)),
        |map| done(map.update(&1, |old| old.unwrap())),
        |map| done(map.modify(&1, |old| old)),
        |map| done(map.try_update(&1, |old| old.unwrap())),
    ];
    for is_use in uses {
        let map = open();
        turn(&map, 150);
        is_use(&map);
        turn(&map, 159);
        assert_eq!(map.peek(&1), Ok(Some(10)));
        turn(&map, 1);
        assert_eq!(map.peek(&1), Ok(None));
    }
}

// When the index put what the key has.
fn since(map: &Numbers) -> u64 {
    let Some(crate::inner::Found::Live(_, since)) = map.inner.look(map.inner.print_now(&1u64), 1) else { panic!("it is there") };
    since
}

#[test]
fn a_lookup_writes_once_in_a_sixteenth_of_the_time() {
    let map = open();
    let first = since(&map);
    turn(&map, 9);
    assert_eq!((map.get(&1), since(&map)), (Some(10), first));
    turn(&map, 2);
    assert_eq!(map.get(&1), Some(10));
    let second = since(&map);
    assert!(second > first);
    assert_eq!((map.get(&1), since(&map), map.stats().renewed), (Some(10), second, 0));
    // So it may go a sixteenth earlier than its last use says.
    turn(&map, 9);
    assert_eq!(map.get(&1), Some(10));
    turn(&map, 151);
    assert_eq!(map.get(&1), None);
}

#[test]
fn the_time_to_live_ends_it_though_it_is_used() {
    let map = Numbers::builder(100).time_to_live(seconds(300)).time_to_idle(IDLE).open().unwrap();
    map.insert(&1, 10).unwrap();
    map.insert_for(&2, 20, seconds(10)).unwrap();
    turn(&map, 10);
    assert_eq!((map.get(&1), map.get(&2)), (Some(10), None));
    for _ in 0..2 {
        turn(&map, 140);
        assert_eq!((map.get(&1), map.update(&1, |old| old.unwrap())), (Some(10), Ok(10)));
    }
    turn(&map, 9);
    assert_eq!(map.get(&1), Some(10));
    turn(&map, 1);
    assert_eq!(map.get(&1), None);
}

#[test]
fn a_time_without_end_ends_never_and_none_ends_at_once() {
    let map = Numbers::builder(100).time_to_idle(Duration::MAX).open().unwrap();
    map.insert(&1, 10).unwrap();
    let first = since(&map);
    turn(&map, 1 << 32);
    assert_eq!((map.get(&1), since(&map)), (Some(10), first));
    let map = Numbers::builder(100).time_to_idle(Duration::ZERO).open().unwrap();
    map.insert(&1, 10).unwrap();
    assert_eq!(map.get(&1), None);
}

#[test]
fn a_use_undoes_no_write_that_comes_before_it_is_noted() {
    let map = open();
    turn(&map, 100);
    let other = map.clone();
    before_calls(1, 1, move || assert_eq!(other.remove(&1), Ok(Some(10))));
    assert_eq!((calls(|| map.get(&1)).1, map.get(&1)), (Some(10), None));
    let other = map.clone();
    before_calls(1, 1, move || done(other.insert(&2, 21).unwrap()));
    assert_eq!((calls(|| map.get(&2)).1, map.get(&2)), (Some(20), Some(21)));
}

#[test]
fn a_lookup_does_not_wait_for_the_turn_and_the_next_one_is_noted() {
    let map = open();
    turn(&map, 100);
    let held = Turn::begin(&map.inner.core.slots, Index::keys);
    assert_eq!((map.try_get(&1), map.try_get(&9)), (Ok(Some(10)), Ok(None)));
    drop(held);
    assert_eq!(map.get(&1), Some(10));
    turn(&map, 159);
    assert_eq!((map.get(&1), map.get(&2)), (Some(10), None));
}
