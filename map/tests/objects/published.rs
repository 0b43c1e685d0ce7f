//! What a task hears of the object that it has loaded.
use cefrodil_map::{Board, InsertError, Inserted, ObjectLead, ObjectMap, Published, UpdateError};
use std::time::Duration;

type Numbers = ObjectMap<u64, u64>;

const LIFE: Duration = Duration::from_secs(1_000);

fn lead(map: &Numbers) -> ObjectLead<'_, u64, u64> {
    match map.try_board(&1) {
        Board::Lead(lead) => lead,
        other => panic!("nobody else loads it: {other:?}"),
    }
}

#[test]
fn a_value_that_is_put_is_found() {
    let map = Numbers::new(100).unwrap();
    assert_eq!((lead(&map).try_publish(10), map.get(&1)), (Published::Put(10), Some(10)));
}

#[test]
fn a_write_outdates_what_is_loaded() {
    let writes: [fn(&Numbers); 4] = [
        |map| assert_eq!(map.insert(1, 20).unwrap(), Inserted::New),
        |map| assert_eq!(map.remove(&1), Ok(None)),
        |map| map.clear().unwrap(),
        |map| map.invalidate_all(),
    ];
    for (number, write) in writes.iter().enumerate() {
        let map = Numbers::new(100).unwrap();
        let lead = lead(&map);
        write(&map);
        let there = map.get(&1);
        let expected = there.map_or(Published::Outdated(10), Published::Other);
        assert_eq!((lead.try_publish(10), map.get(&1)), (expected, there), "write {number}");
        assert_eq!((there.is_some(), map.stats().refused), (number < 1, 0));
    }
}

#[test]
fn a_value_has_the_time_to_live_that_it_is_published_for() {
    let map = Numbers::builder(100).time_to_live(Duration::ZERO).open().unwrap();
    assert_eq!((lead(&map).try_publish(10), map.get(&1)), (Published::Put(10), None));
    assert_eq!((lead(&map).publish_for(11, LIFE), map.get(&1)), (Published::Put(11), Some(11)));
    let map = Numbers::new(100).unwrap();
    assert_eq!((lead(&map).publish_for(10, Duration::ZERO), map.get(&1)), (Published::Put(10), None));
    assert_eq!((lead(&map).publish(12), map.get(&1)), (12, Some(12)));
}

#[test]
fn a_value_that_is_too_heavy_says_so() {
    let map = Numbers::builder(100).max_weight(5, |_, value| *value).open().unwrap();
    let why = UpdateError::Insert(InsertError::TooHeavy);
    assert_eq!(lead(&map).try_publish(10), Published::Refused { value: 10, why });
    assert_eq!((map.get(&1), map.len(), map.stats().refused), (None, 0, 1));
}
