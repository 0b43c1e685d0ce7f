//! Objects that expire if they are not used, by a clock that the tests turn.
use super::done;
use crate::{ObjectMap, Reason};
use std::sync::{Arc, Mutex};
use std::time::Duration;

type Numbers = ObjectMap<u64, u64>;

const IDLE: Duration = seconds(160);

const fn seconds(number: u64) -> Duration {
    Duration::from_secs(number)
}

fn turn(map: &Numbers, by: u64) {
    map.inner.core.clock.turn(seconds(by));
}

#[test]
fn an_object_expires_when_it_was_not_used_for_so_long() {
    let left = Arc::new(Mutex::new(Vec::new()));
    let hears = Arc::clone(&left);
    let listener = move |key: &u64, _: &u64, reason| hears.lock().unwrap().push((*key, reason));
    let map = Numbers::builder(100).time_to_idle(IDLE).listener(listener).open().unwrap();
    for key in 1..=3 {
        map.insert(key, 10 * key).unwrap();
    }
    turn(&map, 100);
    assert_eq!((map.get(&1), map.peek(&2)), (Some(10), Ok(Some(20))));
    turn(&map, 60);
    assert_eq!((map.get(&1), map.get(&2), map.peek(&3)), (Some(10), None, Ok(None)));
    let mut seen = Vec::new();
    map.for_each(|key, _| seen.push(*key)).unwrap();
    assert_eq!((seen, map.len(), map.stats().expired), (vec![1], 3, 1));
    assert_eq!((map.remove_expired(), map.len()), (Ok(2), 1));
    left.lock().unwrap().sort_unstable_by_key(|(key, _)| *key);
    assert_eq!(*left.lock().unwrap(), [(2, Reason::Expired), (3, Reason::Expired)]);
    // A list is no use.
    turn(&map, 159);
    map.for_each(|_, _| ()).unwrap();
    assert_eq!(map.peek(&1), Ok(Some(10)));
    turn(&map, 1);
    assert_eq!(map.get(&1), None);
}

#[test]
fn each_lookup_and_write_is_a_use() {
    type Use = fn(&Numbers);
    let uses: [Use; 9] = [
        |map| done(map.get(&1)),
        |map| done(map.look(&1, |_| ())),
        |map| map.get_many_with(&[&1, &9], |_, _| ()),
        |map| done(map.get_or_insert_with(&1, || unreachable!("it is there"))),
        |map| done(map.try_board(&1)),
        |map| done(map.insert(1, 10)),
        |map| done(map.update(1, |old| *old.unwrap())),
        |map| done(map.modify(&1, |old| *old)),
        |map| done(map.touch(&1, Duration::MAX)),
    ];
    for is_use in uses {
        let map = Numbers::builder(100).time_to_idle(IDLE).open().unwrap();
        map.insert(1, 10).unwrap();
        turn(&map, 150);
        is_use(&map);
        turn(&map, 159);
        assert_eq!(map.peek(&1), Ok(Some(10)));
        turn(&map, 1);
        assert_eq!((map.peek(&1), map.get(&1)), (Ok(None), None));
    }
}

#[test]
fn the_time_to_live_ends_it_though_it_is_used() {
    let map = Numbers::builder(100).time_to_live(seconds(300)).time_to_idle(IDLE).open().unwrap();
    map.insert(1, 10).unwrap();
    map.insert_for(2, 20, Duration::MAX).unwrap();
    for _ in 0..2 {
        turn(&map, 149);
        assert_eq!((map.get(&1), map.get(&2)), (Some(10), Some(20)));
    }
    turn(&map, 2);
    assert_eq!((map.get(&1), map.get(&2)), (None, Some(20)));
    turn(&map, 159);
    assert_eq!(map.get(&2), None);
}

// A use is noted in steps of a sixteenth, and never moves a deadline back.
#[test]
fn a_use_moves_the_deadline_forward_alone() {
    let map = Numbers::builder(100).time_to_idle(IDLE).open().unwrap();
    map.insert(1, 10).unwrap();
    turn(&map, 9);
    assert_eq!(map.get(&1), Some(10));
    turn(&map, 151);
    assert_eq!(map.get(&1), None);
    let object = map.inner.object(1, 10, None, 0);
    crate::objects::Held::move_idle(&*object, 7);
    assert!(crate::objects::Held::idle(&*object) > 7);
}
