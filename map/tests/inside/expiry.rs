//! Values expire by a clock that the tests turn.
use super::done;
use crate::clock::{Clock, NEVER};
use crate::{InsertError, Inserted, Map, UpdateError};
use std::time::Duration;

const fn seconds(number: u64) -> Duration {
    Duration::from_secs(number)
}

fn timed(life: Duration) -> Map<u64, u64> {
    Map::builder(100).time_to_live(life).open().unwrap()
}

fn turn(map: &Map<u64, u64>, by: Duration) {
    map.inner.core.clock.turn(by);
}

#[test]
fn a_value_expires_at_its_deadline() {
    let map = timed(seconds(100));
    map.insert(&1, 10).unwrap();
    turn(&map, seconds(50));
    map.insert(&2, 20).unwrap();
    turn(&map, seconds(49));
    assert_eq!((map.get(&1), map.get(&2), map.stats().expired), (Some(10), Some(20), 0));
    turn(&map, seconds(1));
    assert_eq!((map.get(&1), map.get(&2), map.contains_key(&1)), (None, Some(20), false));
    turn(&map, seconds(50));
    assert_eq!((map.get(&1), map.get(&2)), (None, None));
    let stats = map.stats();
    assert_eq!((stats.hits, stats.misses, stats.expired, map.len()), (3, 4, 4, 2));
}

#[test]
fn a_put_begins_the_time_anew_and_an_update_does_not() {
    let map = timed(seconds(100));
    for key in 1..=3 {
        map.insert(&key, 10).unwrap();
    }
    turn(&map, seconds(60));
    assert_eq!(map.insert(&1, 11), Ok(Inserted::Renewed));
    assert_eq!(map.update(&2, |old| old.unwrap() + 1), Ok(11));
    assert_eq!(map.modify(&3, |old| old + 1), Ok(Some(11)));
    turn(&map, seconds(60));
    assert_eq!((map.get(&1), map.get(&2), map.get(&3)), (Some(11), None, None));
    // What has expired is not there for an update.
    assert_eq!((map.modify(&3, |old| old + 1), map.update(&2, |old| old.unwrap_or(7))), (Ok(None), Ok(7)));
    turn(&map, seconds(60));
    assert_eq!((map.get(&1), map.get(&2)), (None, Some(7)));
}

#[test]
fn what_has_expired_is_removed_and_nothing_else() {
    for builder in [Map::<u64, u64>::builder(100).time_to_live(seconds(100)), Map::builder(100).time_to_idle(seconds(100))] {
        let map = builder.shards(4).open().unwrap();
        (0..50).for_each(|key| done(map.insert(&key, key).unwrap()));
        turn(&map, seconds(60));
        (20..80).for_each(|key| done(map.insert(&key, key + 1).unwrap()));
        assert_eq!((map.remove_expired(), map.len()), (Ok(0), 80));
        turn(&map, seconds(40));
        let before = map.stats();
        assert_eq!((map.remove_expired(), map.remove_expired(), map.len()), (Ok(20), Ok(0), 60));
        let stats = map.stats();
        assert_eq!((stats.removed - before.removed, stats.hits, stats.expired), (20, before.hits, before.expired));
        assert!((0..80).all(|key| map.get(&key) == (key >= 20).then_some(key + 1)));
        // What was invalidated stays until it expires.
        map.invalidate_all();
        assert_eq!((map.remove_expired(), map.len()), (Ok(0), 60));
        turn(&map, seconds(100));
        assert_eq!((map.remove_expired(), map.len()), (Ok(60), 0));
    }
    let map = Map::<u64, u64>::new(100).unwrap();
    map.insert(&1, 1).unwrap();
    assert_eq!((map.remove_expired(), map.len()), (Ok(0), 1));
}

#[test]
fn a_renewal_moves_the_deadline() {
    let map = timed(seconds(100));
    for key in 1..=4 {
        map.insert(&key, 10).unwrap();
    }
    turn(&map, seconds(60));
    assert_eq!(map.modify_for(&1, seconds(100), |old| old + 1), Ok(Some(11)));
    assert_eq!(map.modify_for(&2, seconds(5), |old| old), Ok(Some(10)));
    assert_eq!(map.modify_for(&3, Duration::MAX, |old| old), Ok(Some(10)));
    assert_eq!(map.modify_for(&4, Duration::ZERO, |old| old), Ok(Some(10)));
    assert_eq!((map.get(&1), map.get(&2), map.get(&3), map.get(&4)), (Some(11), Some(10), Some(10), None));
    turn(&map, seconds(6));
    assert_eq!((map.get(&1), map.get(&2), map.get(&3)), (Some(11), None, Some(10)));
    // Past the first deadline, and then past the second one.
    turn(&map, seconds(93));
    assert_eq!(map.get(&1), Some(11));
    turn(&map, seconds(1));
    assert_eq!((map.get(&1), map.get(&3)), (None, Some(10)));
    // What has expired, and what was removed, is not renewed.
    map.remove(&3).unwrap();
    for key in 1..=5 {
        assert_eq!(map.modify_for(&key, seconds(100), |_| unreachable!("it is not there")), Ok(None));
        assert_eq!(map.get(&key), None);
    }
}

#[test]
fn a_value_may_have_a_time_of_its_own() {
    let map = timed(seconds(100));
    map.insert_for(&1, 10, seconds(5)).unwrap();
    map.insert_for(&2, 20, seconds(1_000)).unwrap();
    map.insert_for(&3, 30, Duration::MAX).unwrap();
    map.insert_for(&4, 40, Duration::ZERO).unwrap();
    assert_eq!((map.get(&1), map.get(&2), map.get(&3), map.get(&4)), (Some(10), Some(20), Some(30), None));
    turn(&map, seconds(6));
    assert_eq!((map.get(&1), map.get(&2), map.get(&3)), (None, Some(20), Some(30)));
    turn(&map, seconds(1_000_000_000));
    assert_eq!((map.get(&2), map.get(&3)), (None, Some(30)));
    let map = timed(Duration::MAX);
    map.insert(&1, 10).unwrap();
    turn(&map, seconds(1_000_000_000));
    assert_eq!(map.get(&1), Some(10));
}

// The clock's nanoseconds suffice for 584 years.
#[test]
fn a_life_that_is_too_long_to_be_counted_never_ends() {
    const YEAR: Duration = seconds(365 * 86_400);
    let map = timed(585 * YEAR);
    map.insert(&1, 10).unwrap();
    map.insert_for(&2, 20, 600 * YEAR).unwrap();
    map.insert_for(&3, 30, 10_000 * YEAR).unwrap();
    turn(&map, 580 * YEAR);
    assert_eq!((map.get(&1), map.get(&2), map.get(&3)), (Some(10), Some(20), Some(30)));
}

// The life alone can be counted, and its end can't.
#[test]
fn a_life_whose_end_is_too_late_to_be_counted_never_ends() {
    const YEAR: Duration = seconds(365 * 86_400);
    let map = timed(580 * YEAR);
    turn(&map, 10 * YEAR);
    map.insert(&1, 10).unwrap();
    map.insert_for(&2, 20, 584 * YEAR).unwrap();
    assert_eq!((map.get(&1), map.get(&2)), (Some(10), Some(20)));
    turn(&map, 570 * YEAR);
    assert_eq!((map.get(&1), map.get(&2)), (Some(10), Some(20)));
}

#[test]
fn what_has_expired_is_computed_anew() {
    let map = timed(seconds(100));
    assert_eq!((map.get_or_insert_with(&1, || 10), map.get_or_insert_with(&1, || 11)), (10, 10));
    turn(&map, seconds(101));
    assert_eq!((map.get_or_insert_with(&1, || 12), map.get(&1)), (12, Some(12)));
    turn(&map, seconds(99));
    assert_eq!(map.get(&1), Some(12));
    turn(&map, seconds(2));
    assert_eq!((map.get(&1), map.len()), (None, 1));
}

#[test]
fn the_time_begins_when_the_closure_has_ended() {
    type Put = fn(&Map<u64, u64>, &dyn Fn() -> u64);
    let puts: [Put; 3] = [
        |map, slowly| done(map.update(&1, |_| slowly())),
        |map, slowly| done(map.get_or_insert_with(&1, slowly)),
        |map, slowly| {
            map.insert(&1, 9).unwrap();
            map.modify_for(&1, seconds(100), |_| slowly()).unwrap();
        },
    ];
    for put in puts {
        let map = timed(seconds(100));
        let slowly = || {
            turn(&map, seconds(50));
            10
        };
        put(&map, &slowly);
        turn(&map, seconds(99));
        assert_eq!(map.get(&1), Some(10));
        turn(&map, seconds(1));
        assert_eq!(map.get(&1), None);
    }
}

#[test]
fn what_has_expired_is_removed_but_not_returned() {
    let map = timed(seconds(100));
    map.insert(&1, 10).unwrap();
    map.insert(&2, 20).unwrap();
    turn(&map, seconds(50));
    assert_eq!(map.remove(&1), Ok(Some(10)));
    turn(&map, seconds(51));
    assert_eq!((map.remove(&2), map.len(), map.stats().removed), (Ok(None), 0, 2));
}

#[test]
fn a_map_without_a_time_to_live_has_no_deadlines() {
    let map = Map::<u64, u64>::new(100).unwrap();
    map.insert(&1, 10).unwrap();
    turn(&map, seconds(1_000_000_000));
    assert_eq!(map.get(&1), Some(10));
    assert_eq!((map.insert_for(&1, 11, seconds(1)), map.stats().refused), (Err(InsertError::NoTimeToLive), 1));
    let renewed = map.modify_for(&1, seconds(1), |_| 11);
    assert_eq!((renewed, map.stats().refused), (Err(UpdateError::Insert(InsertError::NoTimeToLive)), 2));
    assert_eq!(map.get(&1), Some(10));
}

// A life is counted to the nanosecond.
#[test]
fn a_deadline_is_so_long_after_now() {
    let clock = Clock::new();
    for nanos in [0, 1, 999, 1_000, 999_999, 1_000_001, 1_999_999_999, 10_u64.pow(18)] {
        let (before, deadline, after) = {
            let life = Duration::from_nanos(nanos);
            (clock.deadline(Duration::ZERO), clock.deadline(life), clock.deadline(Duration::ZERO))
        };
        assert!(before + nanos <= deadline && deadline <= after + nanos, "{nanos} ns: {before}, {deadline}, {after}");
        assert!(clock.has_passed(before) && clock.has_passed(after));
    }
    let days = clock.deadline(seconds(100 * 86_400));
    clock.turn(seconds(99 * 86_400));
    assert!(!clock.has_passed(days) && !clock.has_passed(NEVER));
    clock.turn(seconds(86_400));
    assert!(clock.has_passed(days) && !clock.has_passed(NEVER));
}
