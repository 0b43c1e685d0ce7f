//! Calls of a map of objects that writes of other threads disturb. What fails says so, and has changed nothing.
use super::disturbed::beside;
use super::{done, one_shard};
use crate::handle::MANY;
use crate::stats::Stats;
use crate::wait::TRIES;
use crate::{AbsentError, GetError, IfError, InsertError, Look, ObjectMap, RemoveError, UpdateError};
use cefrodil::{Reply, Shape};
use std::cell::Cell;
use std::iter::once;
use std::time::Duration;

// A map of objects whose calls try so often. It has the key 1, and a write of any other key disturbs its lookups.
fn restless(tries: u32) -> ObjectMap<u64, u64> {
    let shape = Shape { stripes: 1, tries: 1, ..one_shard(100) };
    let map = ObjectMap::builder(1).open_shaped(&shape, 1, tries).unwrap();
    map.insert(1, 10).unwrap();
    map
}

#[test]
fn a_lookup_that_stays_busy_says_so_and_is_counted() {
    let map = restless(1);
    let write = || done(map.insert(2, 20));
    beside(write, |_| {
        let before = map.stats().busy;
        let looked = map.look(&1, |value| *value);
        assert!(matches!(looked, Ok(Look::Found { result: 10, .. }) | Err(GetError::Busy)), "{looked:?}");
        assert_eq!(map.stats().busy, before + u64::from(looked.is_err()));
        let added = map.insert_if_absent(1, 11).unwrap_err().why;
        assert!(matches!(added, AbsentError::Present { .. } | AbsentError::Busy), "{added:?}");
        // No put has this moment.
        let taken = map.remove_if(&1, 0);
        assert!(matches!(taken, Err(IfError::Changed { .. } | IfError::Busy)), "{taken:?}");
        let removed = map.remove(&1);
        match removed {
            Ok(value) => {
                assert_eq!(value, Some(10));
                while map.insert(1, 10).is_err() {}
            }
            Err(why) => assert!(matches!(why, RemoveError::Busy | RemoveError::Held), "{why:?}"),
        }
        [looked.is_err(), added == AbsentError::Busy, taken == Err(IfError::Busy), removed == Err(RemoveError::Busy)]
    });
}

#[test]
fn a_removal_on_a_condition_that_stays_busy_is_counted() {
    let map = restless(1);
    // What this thread has counted.
    let refused = || Stats::sum(once(map.inner.core.slots.own().unwrap().1)).refused;
    beside(
        || done(map.insert(2, 20)),
        |_| {
            let before = refused();
            // No put has this moment.
            let is_busy = map.remove_if(&1, 0) == Err(IfError::Busy);
            assert!(!is_busy || refused() == before + 1);
            [is_busy]
        },
    );
}

// No change or computation takes it for an absent key.
#[test]
fn a_busy_object_is_not_taken_for_an_absent_one() {
    let map = restless(1);
    let write = || done(map.insert(2, 20));
    beside(write, |_| {
        let changed = map.modify(&1, |old| *old);
        assert!(matches!(changed, Ok(Some(_)) | Err(UpdateError::Busy | UpdateError::Insert(InsertError::Held))), "{changed:?}");
        let renewed = map.modify_for(&1, Duration::MAX, |old| *old);
        assert!(matches!(renewed, Ok(Some(_)) | Err(UpdateError::Busy | UpdateError::Insert(InsertError::Held))), "{renewed:?}");
        let updated = map.update(1, |old| *old.unwrap());
        assert!(matches!(updated, Ok(_) | Err(UpdateError::Busy | UpdateError::Insert(InsertError::Held))), "{updated:?}");
        let found = map.try_get_or_insert_with(&1, || unreachable!("it is there"));
        assert!(matches!(found, Ok(10) | Err(GetError::Busy)), "{found:?}");
        let busy = Err(UpdateError::Busy);
        [changed == busy, renewed == busy, updated == Err(UpdateError::Busy), found.is_err()]
    });
}

// The lookup before the put may be busy, too: then the value is not put, and that is counted.
#[test]
fn a_computed_object_is_put_or_refused() {
    let shape = Shape { stripes: 1, tries: 1, ..one_shard(10_000) };
    let map = ObjectMap::<u64, u64>::builder(1).open_shaped(&shape, 1, 1).unwrap();
    // What this thread has counted.
    let count = || Stats::sum(once(map.inner.core.slots.own().unwrap().1));
    beside(
        || done(map.insert(0, 0)),
        |number| {
            let before = count();
            assert_eq!(map.get_or_insert_with(&number, || 3), 3);
            let after = count();
            assert_eq!(after.added + after.refused, before.added + before.refused + 1);
            [after.busy > before.busy, after.refused > before.refused]
        },
    );
}

#[test]
fn a_busy_key_of_many_is_looked_up_again() {
    let map = restless(TRIES);
    let hash = map.hash_of(&1);
    beside(
        || done(map.insert(2, 20)),
        |_| {
            let mut replies = [Reply::Busy; MANY];
            map.inner.core.slots.call(|handle| handle.get_many(&[hash; MANY], &mut replies));
            let (mut found, mut looked) = (0, 0);
            map.get_many_with(&[&1; 40], |_, value| found += *value);
            map.look_many(&[&1; 40], |_, look| looked += *look.unwrap().found().unwrap());
            assert_eq!((found, looked), (400, 400));
            [replies.contains(&Reply::Busy)]
        },
    );
    assert_eq!((map.stats().busy, map.stats().misses), (0, 0));
}

#[test]
fn a_call_that_tries_more_often_finds_its_key() {
    let (map, rounds) = (restless(TRIES), Cell::new(0));
    let hash = map.hash_of(&1);
    let write = || done(map.insert(2, 20));
    beside(write, |_| {
        rounds.set(rounds.get() + 1);
        assert!(map.get(&1) == Some(10) && map.contains_key(&1) && map.touch(&1, Duration::MAX));
        assert_eq!(map.get_or_insert_with(&1, || unreachable!("it is there")), 10);
        let Ok(Look::Found { result: 10, since, .. }) = map.look(&1, |value| *value) else { panic!("it is there") };
        assert_eq!(map.insert_if_absent(1, 11).unwrap_err().why, AbsentError::Present { since });
        assert!(map.modify(&1, |old| *old).unwrap().is_some_and(|put| put.at > since));
        assert!(map.update(1, |old| *old.unwrap()).is_ok());
        assert!(map.remove(&1) == Ok(Some(10)) && map.insert(1, 10).is_ok());
        // A single try is disturbed now and then.
        [map.inner.core.slots.call(|handle| handle.get(hash)) == Reply::Busy]
    });
    assert_eq!((map.stats().busy, map.stats().misses, map.stats().refused), (0, 0, rounds.get()));
}
