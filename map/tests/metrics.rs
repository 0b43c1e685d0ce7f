//! What a map counts of loads, of entries that had ended, and of the lookups of the last minute.
mod executor;

use cefrodil_map::Map;
#[cfg(feature = "objects")]
use cefrodil_map::ObjectMap;
use executor::{poll, Wakes};
use std::future::{pending, ready};
use std::panic::{catch_unwind, AssertUnwindSafe};
use std::sync::Arc;
use std::thread::sleep;
use std::time::{Duration, Instant};

const BRIEF: Duration = Duration::from_millis(20);

// Of a map from numbers to numbers: each kind of load, and what was counted of them.
macro_rules! counts_loads {
    ($map:expr) => {
        let (map, began) = ($map, Instant::now());
        let slow = || {
            sleep(BRIEF);
            1
        };
        assert_eq!((map.get_or_insert_with(&1, slow), map.get_or_insert_with(&1, || panic!("it is there"))), (1, 1));
        assert_eq!(map.get_or_try_insert_with(&2, || Err::<u64, i32>(7)), Err(7));
        assert!(catch_unwind(AssertUnwindSafe(|| map.get_or_insert_with(&2, || panic!("a load that fails")))).is_err());
        assert_eq!(map.get_or_insert_with(&2, || map.get_or_insert_with(&2, slow)), 1);
        assert_eq!((map.stats().loads, map.stats().load_failures), (5, 2));
        // The time of a function within another one counts for both.
        assert!((BRIEF * 3..=began.elapsed() * 2).contains(&map.stats().load_time), "{:?}", map.stats().load_time);
        let wakes = Arc::new(Wakes::default());
        assert!(poll(&wakes, &mut Box::pin(map.get_or_insert_async(&3, ready(3)))).is_ready());
        assert!(poll(&wakes, &mut Box::pin(map.get_or_try_insert_async(&4, ready(Err::<u64, i32>(7))))).is_ready());
        // It is dropped before it ends.
        assert!(poll(&wakes, &mut Box::pin(map.get_or_insert_async(&5, pending()))).is_pending());
        assert_eq!((map.stats().loads, map.stats().load_failures), (8, 4));
    };
}

#[test]
fn loads_and_their_time_are_counted() {
    counts_loads!(Map::<u64, u64>::new(100).unwrap());
    #[cfg(feature = "objects")]
    {
        counts_loads!(ObjectMap::<u64, u64>::new(100).unwrap());
    }
}

#[test]
fn what_is_removed_since_it_had_ended_is_counted() {
    let map = Map::<u64, u64>::builder(100).time_to_live(Duration::MAX).open().unwrap();
    (0..10).for_each(|key| assert!(map.insert_for(&key, 1, Duration::ZERO).is_ok()));
    (10..20).for_each(|key| assert!(map.insert(&key, 1).is_ok()));
    assert!(map.remove(&10).is_ok());
    assert_eq!((map.remove_expired(), map.retain(|key, _| *key != 11)), (Ok(10), Ok(1)));
    assert_eq!((map.stats().ended, map.stats().removed, map.len()), (10, 12, 8));
}

#[cfg(feature = "objects")]
#[test]
fn so_it_is_of_objects() {
    let map = ObjectMap::<u64, u64>::new(100).unwrap();
    (0..10).for_each(|key| assert!(map.insert_for(key, 1, Duration::ZERO).is_ok()));
    map.insert(10, 1).unwrap();
    map.invalidate_all();
    (11..20).for_each(|key| assert!(map.insert(key, 1).is_ok()));
    assert!(map.remove(&11).is_ok());
    assert_eq!((map.remove_expired(), map.retain(|key, _| *key != 12)), (Ok(11), Ok(1)));
    assert_eq!((map.stats().ended, map.stats().removed, map.len()), (11, 13, 7));
}

#[test]
fn the_rate_of_the_last_minute_is_that_of_its_lookups() {
    let map = Map::<u64, u64>::new(100).unwrap();
    assert_eq!(map.hit_rate_of_last_minute(), 0.0);
    map.insert(&1, 1).unwrap();
    let found = [1, 1, 1, 2].map(|key| map.get(&key).is_some());
    assert_eq!(
        (found, map.hit_rate_of_last_minute(), map.stats().hit_rate_of_last_minute()),
        ([true, true, true, false], 0.75, 0.75)
    );
    #[cfg(feature = "objects")]
    {
        let map = ObjectMap::<u64, u64>::new(100).unwrap();
        map.insert(1, 1).unwrap();
        assert_eq!((map.get(&1), map.get(&2), map.hit_rate_of_last_minute()), (Some(1), None, 0.5));
    }
}
