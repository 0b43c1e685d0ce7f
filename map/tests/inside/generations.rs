//! Invalidations that come between the steps of a call.
#[cfg(feature = "objects")]
use super::done;
use super::one_shard;
use super::turns::{before_calls, calls};
use crate::generation::check_in;
#[cfg(feature = "objects")]
use crate::{generation::NONE, objects::Over, ObjectMap, Published};
use crate::{Board, Map};
use std::cell::Cell;
use std::rc::Rc;

type Numbers = Map<u64, u64>;

fn open() -> Numbers {
    Map::builder(1).open_shaped(&one_shard(100), 1, 5).unwrap()
}

// However many invalidations lie between them.
#[test]
fn no_two_generations_have_the_same_check_word() {
    for bit in 0..64 {
        assert_ne!(check_in(1, 7), check_in(1 ^ 1 << bit, 7), "bit {bit}");
    }
}

// A call of an earlier generation finds an entry of a later one.
#[test]
fn an_update_that_began_before_loses_no_later_one() {
    let map = open();
    map.insert(&1, 1).unwrap();
    let other = map.clone();
    before_calls(0, 1, move || {
        other.invalidate_all();
        other.update(&1, |old| old.unwrap_or(10)).unwrap();
    });
    assert_eq!(calls(|| map.update(&1, |old| old.map_or(100, |old| old + 1))).1, Ok(11));
    assert_eq!(map.get(&1), Some(11));
}

// All is invalidated right before its call of the index, and then another thread puts the key, if it can.
#[test]
fn an_insert_that_began_before_destroys_no_later_value() {
    let map = open();
    map.insert(&1, 1).unwrap();
    let (other, has_put) = (map.clone(), Rc::new(Cell::new(false)));
    let tells = Rc::clone(&has_put);
    before_calls(0, 1, move || {
        other.invalidate_all();
        tells.set(other.try_insert(&1, 20).is_ok());
    });
    calls(|| map.insert(&1, 10)).1.unwrap();
    assert!(!has_put.get() || map.get(&1).is_some());
    assert_eq!((map.insert(&1, 30).is_ok(), map.get(&1)), (true, Some(30)));
}

#[cfg(feature = "objects")]
#[test]
fn an_insert_of_an_object_that_began_before_destroys_no_later_one() {
    let map = ObjectMap::<u64, u64>::new(100).unwrap();
    let other = map.clone();
    before_calls(0, 1, move || {
        other.invalidate_all();
        other.insert(1, 20).unwrap();
    });
    // It comes after the other one.
    calls(|| map.insert(1, 10)).1.unwrap();
    assert_eq!(map.get(&1), Some(10));
    map.invalidate_all();
    assert_eq!(map.get(&1), None);
}

// It is invalidated between the lookup of the key and the put.
#[test]
fn what_is_put_where_nothing_was_is_found_or_was_invalidated() {
    let map = open();
    map.insert(&1, 1).unwrap();
    let other = map.clone();
    before_calls(0, 1, move || {
        other.invalidate_all();
        other.remove(&1).unwrap();
        other.insert(&1, 2).unwrap();
        other.remove(&1).unwrap();
    });
    // The key had a value until all was invalidated, so this came later.
    assert_eq!(calls(|| map.update(&1, |old| old.unwrap_or(10))).1, Ok(10));
    assert_eq!(map.get(&1), Some(10));
}

#[cfg(feature = "objects")]
#[test]
fn an_object_that_is_put_where_none_was_is_found_or_was_invalidated() {
    type Put = fn(&ObjectMap<u64, u64>);
    let puts: [Put; 2] =
        [|map| done(map.update(1, |old| *old.unwrap_or(&10)).unwrap()), |map| done(map.insert_if_absent(1, 10).unwrap())];
    for put in puts {
        let map = ObjectMap::<u64, u64>::new(100).unwrap();
        map.insert(1, 1).unwrap();
        let other = map.clone();
        before_calls(0, 1, move || other.invalidate_all());
        calls(|| put(&map));
        assert_eq!(map.get(&1), Some(10));
    }
}

// The generation ends before a call of the index that the load makes, and its flight is about to be detached.
#[test]
fn a_load_puts_nothing_that_is_found_in_a_later_generation() {
    for before in 0..2 {
        let map = open();
        let Board::Lead(lead) = map.try_board(&1) else { panic!("nobody loads it") };
        let other = map.clone();
        before_calls(before, 1, move || other.inner.core.generation.end());
        assert_eq!(calls(|| lead.publish(7)).1, 7);
        assert_eq!(map.get(&1), None, "before call {before}");
    }
    let map = open();
    let Board::Lead(lead) = map.try_board(&1) else { panic!("nobody loads it") };
    map.inner.core.generation.end();
    assert_eq!((lead.publish(7), map.get(&1)), (7, None));
    let make = || {
        map.inner.core.generation.end();
        8
    };
    assert_eq!((map.get_or_insert_with(&2, make), map.get(&2)), (8, None));
}

#[cfg(feature = "objects")]
#[test]
fn an_update_of_an_object_that_began_before_loses_no_later_one() {
    let map = ObjectMap::<u64, u64>::new(100).unwrap();
    map.insert(1, 1).unwrap();
    let other = map.clone();
    before_calls(0, 1, move || {
        other.invalidate_all();
        other.update(1, |old| *old.unwrap_or(&10)).unwrap();
    });
    calls(|| map.update(1, |old| old.map_or(100, |old| old + 1))).1.unwrap();
    assert_eq!(map.get(&1), Some(11));
}

// It is invalidated between the lookup of the token and the put.
#[cfg(feature = "objects")]
#[test]
fn a_replacement_that_began_before_is_not_found() {
    let map = ObjectMap::<u64, u64>::new(100).unwrap();
    let since = map.put(1, 1, None).unwrap().at;
    let other = map.clone();
    before_calls(1, 1, move || other.invalidate_all());
    done(calls(|| map.replace_if(1, since, 10, None)));
    assert_eq!(map.get(&1), None);
}

// Another thread, which had detached no flight, puts the key between the lookup and the put of a load. Its object is invalidated and taken out, if that
// can be. The flight is not detached so far.
#[cfg(feature = "objects")]
#[test]
fn a_load_of_an_object_says_that_it_is_outdated_though_the_key_is_absent_again() {
    let map = ObjectMap::<u64, u64>::builder(1).open_shaped(&one_shard(100), 1, 5).unwrap();
    let other = map.clone();
    let Board::Lead(lead) = map.try_board(&1) else { panic!("nobody loads it") };
    before_calls(1, 1, move || {
        let object = other.inner.object(1, 10, None, NONE);
        assert!(other.inner.put_over(other.hash_of(&1), object, Over::Absent, 1).is_ok());
        assert_eq!(other.get(&1), Some(10));
        other.inner.core.generation.end();
        let _ = other.remove_expired();
    });
    assert_eq!(calls(|| lead.try_publish(7)).1, Published::Outdated(7));
    assert_eq!(map.get(&1), None);
}

#[cfg(feature = "objects")]
#[test]
fn a_load_of_an_object_puts_nothing_that_is_found_in_a_later_generation() {
    for before in 0..2 {
        let map = ObjectMap::<u64, u64>::new(100).unwrap();
        let other = map.clone();
        let Board::Lead(lead) = map.try_board(&1) else { panic!("nobody loads it") };
        before_calls(before, 1, move || other.inner.core.generation.end());
        assert_eq!(calls(|| lead.publish(7)).1, 7);
        assert_eq!(map.get(&1), None, "before call {before}");
    }
    let map = ObjectMap::<u64, u64>::new(100).unwrap();
    let Board::Lead(lead) = map.try_board(&1) else { panic!("nobody loads it") };
    map.inner.core.generation.end();
    assert_eq!((lead.publish(7), map.get(&1)), (7, None));
    let make = || {
        map.inner.core.generation.end();
        8
    };
    assert_eq!((map.get_or_insert_with(&2, make), map.get(&2)), (8, None));
}
