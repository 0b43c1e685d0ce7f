//! A map all of whose entries are invalidated by one step.
mod ends;
mod executor;
mod loads;

use cefrodil_map::{Board, Inserted, Map};
use ends::ends;
use executor::poll;
use loads::load_beside_invalidations;
use std::sync::atomic::{AtomicBool, AtomicU64, Ordering::SeqCst};
use std::sync::Arc;
use std::task::Poll;
use std::thread;
use std::time::Duration;

type Numbers = Map<u64, u64>;

const KEYS: u64 = 100;

// With entries of each layout. The last one is full.
fn maps() -> Vec<Numbers> {
    let builder = || Numbers::builder(1_000);
    let maps = vec![
        builder().open().unwrap(),
        builder().time_to_live(Duration::MAX).open().unwrap(),
        builder().time_to_idle(Duration::from_secs(1_000)).open().unwrap(),
        builder().shards(1).open().unwrap(),
    ];
    (1_000..5_000).for_each(|key| assert!(maps[3].insert(&key, key).is_ok()));
    maps
}

fn put_all(map: &Numbers, add: u64) {
    (0..KEYS).for_each(|key| assert!(map.insert(&key, key + add).is_ok()));
}

#[test]
fn nothing_is_found_afterwards_but_what_is_put_later() {
    for map in maps() {
        put_all(&map, 0);
        for round in 1..4 {
            let there = map.len();
            map.invalidate_all();
            let keys: Vec<u64> = (0..KEYS).collect();
            assert!(map.get_many(&keys).iter().all(Option::is_none));
            assert!(keys.iter().all(|key| map.get(key).is_none() && map.peek(key) == Ok(None) && !map.contains_key(key)));
            assert_eq!(map.len(), there);
            assert_eq!(map.insert(&0, 7), Ok(Inserted::Renewed));
            put_all(&map, round);
            assert!(keys.iter().all(|key| map.get(key) == Some(key + round) && map.peek(key) == Ok(Some(key + round))));
            assert_eq!(map.get_many(&keys), keys.iter().map(|key| Some(key + round)).collect::<Vec<_>>());
        }
    }
}

#[test]
fn each_call_takes_an_older_entry_for_an_absent_one() {
    for map in maps() {
        put_all(&map, 0);
        map.invalidate_all();
        assert_eq!((map.remove(&0), map.modify(&1, |old| old), map.try_get(&1)), (Ok(None), Ok(None), Ok(None)));
        assert_eq!((map.update(&2, |old| old.map_or(100, |old| old + 1)), map.get(&2)), (Ok(100), Some(100)));
        assert_eq!((map.get_or_insert_with(&3, || 9), map.get(&3)), (9, Some(9)));
        let Board::Lead(lead) = map.try_board(&4) else { panic!("an older value is found") };
        assert_eq!((lead.publish(11), map.get(&4)), (11, Some(11)));
    }
}

#[test]
fn what_was_being_made_when_it_came_is_not_found() {
    for map in maps() {
        put_all(&map, 0);
        let invalidate = |value: u64| {
            map.invalidate_all();
            value
        };
        assert_eq!((map.update(&1, |old| invalidate(old.unwrap() + 50)), map.get(&1)), (Ok(51), None));
        assert_eq!((map.update(&2, |old| invalidate(old.unwrap_or(3))), map.get(&2)), (Ok(3), None));
        assert_eq!((map.get_or_insert_with(&3, || invalidate(8)), map.get(&3)), (8, None));
        let Board::Lead(lead) = map.try_board(&4) else { panic!("nobody loads it") };
        let Board::Wait(mut wait) = map.try_board(&4) else { panic!("somebody loads it") };
        map.invalidate_all();
        // Who comes later doesn't wait for it.
        let Board::Lead(later) = map.try_board(&4) else { panic!("nobody loads a value of now") };
        assert_eq!((lead.publish(1), map.get(&4)), (1, None));
        assert_eq!(poll(&Arc::default(), &mut wait), Poll::Ready(Some(1)), "those that waited are woken");
        assert_eq!((later.publish(2), map.get(&4)), (2, Some(2)));
    }
}

#[test]
fn no_value_is_older_than_an_invalidation_that_has_returned() {
    ends(|| load_from_source(|| Numbers::builder(8).open().unwrap()));
}

// A value is the source's number when it was loaded.
fn load_from_source(open: fn() -> Numbers) {
    let map = open();
    load_beside_invalidations(
        |key, source| map.get_or_insert_with(&key, || source.load(SeqCst)),
        |key| map.get(&key),
        || map.invalidate_all(),
    );
}

#[test]
fn a_count_begins_anew_once_for_each_invalidation() {
    ends(count_beside_invalidations);
}

// No count is lost but by an invalidation. So between two of them a thread sees its own counts grow.
fn count_beside_invalidations() {
    let (map, begun, ended) = (Numbers::new(100).unwrap(), AtomicU64::new(0), AtomicU64::new(0));
    let end = AtomicBool::new(false);
    thread::scope(|threads| {
        for _ in 0..3 {
            threads.spawn(|| {
                let (mut last, mut of) = (0, 0);
                while !end.load(SeqCst) {
                    let before = ended.load(SeqCst);
                    let count = map.update(&7, |old| old.unwrap_or(0) + 1).unwrap();
                    let after = begun.load(SeqCst);
                    assert!(before != after || of != before || count > last, "{count} after {last}");
                    (last, of) = (count, if before == after { after } else { u64::MAX });
                }
            });
        }
        for number in 1..2_000 {
            begun.store(number, SeqCst);
            map.invalidate_all();
            ended.store(number, SeqCst);
            thread::yield_now();
        }
        end.store(true, SeqCst);
    });
}
