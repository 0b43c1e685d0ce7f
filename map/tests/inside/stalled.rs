//! Calls that give up, while another thread keeps the turn: how many, and for how long.
use super::one_shard;
use super::turns::Turn;
use crate::handle::Index;
use crate::wait::{SLEEPS_FROM, TRIES};
use crate::{Board, InsertError, Map, Published, RemoveError};
use std::thread::sleep;
use std::time::Duration;

const LIFE: Duration = Duration::MAX;

// A map of one shard with the key 1, whose calls try so often.
fn open(tries: u32) -> Map<u64, u64> {
    let map = Map::builder(1).time_to_live(LIFE).open_shaped(&one_shard(100), 1, tries).unwrap();
    map.insert(&1, 10).unwrap();
    map
}

fn hold(map: &Map<u64, u64>) -> Turn {
    Turn::begin(&map.inner.core.slots, Index::keys)
}

#[test]
fn calls_that_slept_and_gave_up_are_counted() {
    let map = open(SLEEPS_FROM + 1);
    let turn = hold(&map);
    assert_eq!((map.stats().given_up, map.stats().stalled), (0, Duration::ZERO));
    assert_eq!((map.insert(&1, 11), map.remove(&1)), (Err(InsertError::Held), Err(RemoveError::Held)));
    assert!(map.update(&1, |_| 11).is_err() && map.update(&2, |_| 20).is_err());
    assert_eq!(map.get_or_insert_with(&2, || 20), 20);
    assert_eq!((map.stats().given_up, map.get(&1)), (5, Some(10)));
    let slept = Duration::from_millis(30);
    sleep(slept);
    assert!(map.insert(&1, 11).is_err());
    assert!(map.stats().stalled >= slept, "{:?}", map.stats());
    assert_eq!((map.try_insert(&1, 11), map.stats().given_up), (Err(InsertError::Held), 6));
    drop(turn);
    assert!(map.insert(&1, 11).is_ok());
    assert_eq!((map.stats().given_up, map.stats().refused), (6, 7));
}

#[test]
fn a_call_that_never_slept_is_not_counted() {
    let map = open(SLEEPS_FROM);
    let _turn = hold(&map);
    assert_eq!(map.insert(&1, 11), Err(InsertError::Held));
    assert_eq!((map.stats().given_up, map.stats().stalled), (0, Duration::ZERO));
}

// A call that sleeps and gives up is counted.
#[test]
fn the_put_of_a_task_never_sleeps() {
    let map = open(TRIES);
    let Board::Lead(lead) = map.try_board(&2) else { panic!("nobody else loads it") };
    let _turn = hold(&map);
    assert!(matches!(lead.try_publish(20), Published::Refused { value: 20, .. }));
    assert_eq!((map.stats().given_up, map.stats().refused), (0, 1));
}

#[cfg(feature = "objects")]
#[test]
fn nor_does_that_of_an_object() {
    let map = crate::ObjectMap::<u64, u64>::builder(1).open_shaped(&one_shard(100), 1, TRIES).unwrap();
    map.insert(1, 10).unwrap();
    let Board::Lead(lead) = map.try_board(&2) else { panic!("nobody else loads it") };
    let _turn = Turn::begin(&map.inner.core.slots, cefrodil::Handle::<1>::try_entries);
    assert!(matches!(lead.try_publish(20), Published::Refused { value: 20, .. }));
    assert_eq!((map.stats().given_up, map.stats().refused), (0, 1));
}
