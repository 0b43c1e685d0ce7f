//! What a task hears of the value that it has loaded.
use cefrodil_map::{Board, InsertError, Inserted, Lead, Map, Published, UpdateError};
use std::time::Duration;

type Numbers = Map<u64, u64>;

const LIFE: Duration = Duration::from_secs(1_000);

fn lead(map: &Numbers) -> Lead<'_, u64, u64> {
    match map.try_board(&1) {
        Board::Lead(lead) => lead,
        other => panic!("nobody else loads it: {other:?}"),
    }
}

#[test]
fn a_value_that_is_put_is_found() {
    let map = Numbers::new(100).unwrap();
    assert_eq!((lead(&map).try_publish(10), map.get(&1)), (Published::Put(10), Some(10)));
}

#[test]
fn a_write_outdates_what_is_loaded() {
    let writes: [fn(&Numbers); 5] = [
        |map| assert_eq!(map.insert(&1, 20), Ok(Inserted::New)),
        |map| assert_eq!(map.update(&1, |_| 20), Ok(20)),
        |map| assert_eq!(map.remove(&1), Ok(None)),
        |map| assert_eq!(map.clear(), Ok(())),
        |map| map.invalidate_all(),
    ];
    for (number, write) in writes.iter().enumerate() {
        let map = Numbers::new(100).unwrap();
        let lead = lead(&map);
        write(&map);
        let there = map.get(&1);
        assert_eq!((lead.try_publish(10), map.get(&1)), (Published::Outdated(10), there), "write {number}");
        assert_eq!((there.is_some(), map.stats().refused), (number < 2, 0));
    }
}

// A thread that computes the key's value itself puts one while a task of the same thread loads it.
#[test]
fn a_task_of_a_thread_that_computes_the_value_puts_none() {
    let map = Numbers::new(100).unwrap();
    let made = map.get_or_insert_with(&1, || {
        assert_eq!(lead(&map).try_publish(10), Published::Outdated(10));
        20
    });
    assert_eq!((made, map.get(&1)), (20, Some(20)));
}

#[test]
fn a_value_has_the_time_to_live_that_it_is_published_for() {
    let map = Numbers::builder(100).time_to_live(Duration::ZERO).open().unwrap();
    assert_eq!((lead(&map).try_publish(10), map.get(&1)), (Published::Put(10), None));
    assert_eq!((lead(&map).publish_for(11, LIFE), map.get(&1)), (Published::Put(11), Some(11)));
    let map = Numbers::builder(100).time_to_live(LIFE).open().unwrap();
    assert_eq!((lead(&map).publish_for(10, Duration::ZERO), map.get(&1)), (Published::Put(10), None));
    assert_eq!((lead(&map).publish(12), map.get(&1)), (12, Some(12)));
}

#[test]
fn a_map_without_a_time_to_live_says_so() {
    let map = Numbers::new(100).unwrap();
    let why = UpdateError::Insert(InsertError::NoTimeToLive);
    assert_eq!(lead(&map).publish_for(10, LIFE), Published::Refused { value: 10, why });
    assert_eq!((map.get(&1), map.len(), map.stats().refused), (None, 0, 1));
}

#[test]
fn each_has_a_value() {
    let refused = Published::Refused { value: 4, why: UpdateError::Busy };
    assert_eq!([Published::Put(1), Published::Other(2), Published::Outdated(3), refused].map(Published::value), [1, 2, 3, 4]);
}
