//! Calls of a map while another thread has the turn. Each tries as often as it may, says that it was held, and has changed nothing.
use super::one_shard;
use super::turns::{before_calls, calls, Turn};
use crate::handle::Index;
use crate::{ClearError, GetError, InsertError, Map, RemoveError, UpdateError};
use std::cell::RefCell;
use std::rc::Rc;
use std::time::Duration;

const HELD: InsertError = InsertError::Held;
const UPDATE_HELD: UpdateError = UpdateError::Insert(HELD);

/// How often a call tries here.
const TRIES: u32 = 5;

const LIFE: Duration = Duration::MAX;

/// At so many places a put first looks for what has ended.
const PLACES: u32 = 2;

// A map of one shard with the key 1, whose calls try five times.
fn open() -> Map<u64, u64> {
    let map = Map::builder(1).time_to_live(LIFE).open_shaped(&one_shard(100), 1, TRIES).unwrap();
    map.insert(&1, 10).unwrap();
    map
}

fn hold(map: &Map<u64, u64>) -> Turn {
    Turn::begin(&map.inner.core.slots, Index::keys)
}

#[test]
fn a_write_tries_so_often_and_changes_nothing() {
    let map = open();
    let turn = hold(&map);
    assert_eq!(calls(|| map.insert(&1, 11)), (PLACES + TRIES, Err(HELD)));
    assert_eq!(calls(|| map.insert(&2, 20)), (PLACES + TRIES, Err(HELD)));
    assert_eq!(calls(|| map.insert_for(&1, 11, LIFE)), (PLACES + TRIES, Err(HELD)));
    // A change looks the key up first.
    assert_eq!(calls(|| map.update(&1, |_| 11)), (1 + PLACES + TRIES, Err(UPDATE_HELD)));
    assert_eq!(calls(|| map.update(&2, |_| 20)), (1 + PLACES + TRIES, Err(UPDATE_HELD)));
    assert_eq!(calls(|| map.modify(&1, |_| 11)), (1 + PLACES + TRIES, Err(UPDATE_HELD)));
    assert_eq!(calls(|| map.modify_for(&1, LIFE, |_| 11)), (1 + PLACES + TRIES, Err(UPDATE_HELD)));
    assert_eq!(calls(|| map.remove(&1)), (1 + TRIES, Err(RemoveError::Held)));
    assert_eq!((map.stats().refused, map.get(&1), map.get(&2), map.len()), (8, Some(10), None, 1));
    assert_eq!(calls(|| map.peek(&1)), (TRIES, Err(GetError::Busy)));
    drop(turn);
    assert_eq!((map.insert(&2, 20).is_ok(), map.remove(&1)), (true, Ok(Some(10))));
}

// Another thread has the lock: between a look at the generation and a put, say.
#[test]
fn a_write_waits_for_the_lock_of_its_key() {
    let map = Map::<u64, u64>::builder(1).open_shaped(&one_shard(100), 1, TRIES).unwrap();
    map.insert(&1, 10).unwrap();
    for key in [1, 2] {
        let locked = map.inner.core.hold_lock(map.inner.print(&key).key);
        assert_eq!((map.insert(&key, 11), map.update(&key, |_| 11)), (Err(HELD), Err(UPDATE_HELD)));
        if key == 1 {
            assert_eq!((map.remove(&1), map.retain(|_, _| false)), (Err(RemoveError::Held), Err(ClearError::Held)));
            assert_eq!((map.clear(), map.len()), (Err(ClearError::Held), 1));
        }
        drop(locked);
        assert_eq!((map.get(&1), map.get(&2)), (Some(10), None));
    }
    assert_eq!((map.update(&2, |_| 20), map.clear(), map.len()), (Ok(20), Ok(()), 0));
}

#[test]
fn a_single_try_is_one() {
    let map = open();
    let _turn = hold(&map);
    assert_eq!(calls(|| map.try_insert(&1, 11)), (PLACES + 1, Err(HELD)));
    assert_eq!(calls(|| map.try_update(&1, |_| 11)), (PLACES + 2, Err(UPDATE_HELD)));
    assert_eq!(calls(|| map.try_update(&2, |_| 20)), (PLACES + 2, Err(UPDATE_HELD)));
    assert_eq!(calls(|| map.try_remove(&1)), (2, Err(RemoveError::Held)));
    assert_eq!(calls(|| map.try_clear()), (1, Err(ClearError::Held)));
    assert_eq!((map.stats().refused, map.get(&1), map.get(&2)), (5, Some(10), None));
}

#[test]
fn lookups_need_no_turn() {
    let map = open();
    let _turn = hold(&map);
    assert_eq!(calls(|| map.get(&1)), (1, Some(10)));
    assert_eq!(calls(|| map.try_get(&2)), (1, Ok(None)));
    assert_eq!(calls(|| map.get_many(&[1, 2])), (1, vec![Some(10), None]));
    assert_eq!(calls(|| map.contains_key(&1)), (1, true));
    assert_eq!(calls(|| map.remove(&2)), (1, Ok(None)));
    assert_eq!(calls(|| map.modify(&2, |_| unreachable!("it is not there"))), (1, Ok(None)));
    assert_eq!((map.stats().refused, map.stats().busy), (0, 0));
}

// The call looks the key up, looks again as the leader of a flight, and once more before its put.
#[test]
fn a_computed_value_is_returned_though_its_put_is_held() {
    let map = open();
    let _turn = hold(&map);
    assert_eq!(calls(|| map.get_or_insert_with(&2, || 20)), (3 + PLACES + TRIES, 20));
    assert_eq!(calls(|| map.get_or_try_insert_with(&2, || Ok::<u64, ()>(21))), (3 + PLACES + TRIES, Ok(21)));
    assert_eq!(calls(|| map.try_get_or_insert_with(&2, || 22)), (3 + PLACES + 1, Ok(22)));
    assert_eq!((map.get(&2), map.stats().refused, map.stats().added), (None, 3, 1));
}

#[test]
fn a_clear_tries_to_list_a_hundred_times() {
    let map = open();
    let _turn = hold(&map);
    assert_eq!(calls(|| map.clear()), (TRIES, Err(ClearError::Held)));
    assert_eq!((map.get(&1), map.len(), map.stats().refused), (Some(10), 1, 1));
}

// The other thread has the turn from when the keys are listed.
#[test]
fn a_clear_whose_removal_is_held_says_so() {
    type Clear = fn(&Map<u64, u64>) -> Result<(), ClearError>;
    let clears: [(Clear, u32); 4] = [
        (|map| map.clear(), TRIES),
        (|map| map.try_clear(), 1),
        (|map| map.retain(|_, _| false).map(drop), TRIES),
        (|map| map.remove_expired().map(drop), TRIES),
    ];
    for (clear, tries) in clears {
        let (map, turn) = (open(), Rc::new(RefCell::new(None)));
        let (held, taken) = (map.clone(), Rc::clone(&turn));
        before_calls(1, 1, move || drop(taken.replace(Some(hold(&held)))));
        assert_eq!(calls(|| clear(&map)), (1 + tries, Err(ClearError::Held)));
        assert_eq!((map.get(&1), map.len(), map.stats().refused), (Some(10), 1, 1));
    }
}

// The turn is given back before the last try.
#[test]
fn a_write_that_gets_the_turn_at_last_is_made() {
    type Write = fn(&Map<u64, u64>) -> bool;
    let writes: [Write; 6] = [
        |map| map.insert(&1, 11).is_ok(),
        |map| map.insert_for(&1, 11, LIFE).is_ok(),
        |map| map.update(&1, |_| 11) == Ok(11),
        |map| map.modify(&1, |_| 11) == Ok(Some(11)),
        |map| map.remove(&1) == Ok(Some(10)),
        |map| map.get_or_insert_with(&2, || 20) == 20 && map.get(&2) == Some(20),
    ];
    for (number, write) in writes.into_iter().enumerate() {
        let map = open();
        let turn = RefCell::new(Some(hold(&map)));
        let looks = [PLACES, PLACES, 1 + PLACES, 1 + PLACES, 1, 3 + PLACES][number];
        before_calls(looks + TRIES - 1, 1, move || drop(turn.take()));
        assert!(calls(|| write(&map)).1, "write {number}");
        assert_eq!(map.stats().refused, 0);
    }
}
