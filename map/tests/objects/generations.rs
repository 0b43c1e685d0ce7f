//! A map of objects all of which are invalidated by one step.
use crate::ends::ends;
use crate::executor::poll;
use crate::loads::load_beside_invalidations;
use cefrodil_map::{Board, IfError, Inserted, Look, ObjectMap, Reason};
use std::sync::atomic::Ordering::SeqCst;
use std::sync::{Arc, Mutex};
use std::task::Poll;
use std::time::Duration;

type Numbers = ObjectMap<u64, u64>;

const KEYS: u64 = 100;

// With all ways by which objects come to an end.
fn maps() -> Vec<Numbers> {
    let builder = || Numbers::builder(1_000);
    vec![
        builder().open().unwrap(),
        builder().max_weight(1_000, |_, _| 1).open().unwrap(),
        builder().time_to_live(Duration::MAX).open().unwrap(),
        builder().time_to_live(Duration::from_secs(1_000)).time_to_idle(Duration::from_secs(1_000)).open().unwrap(),
    ]
}

fn put_all(map: &Numbers, add: u64) {
    (0..KEYS).for_each(|key| assert!(map.insert(key, key + add).is_ok()));
}

#[test]
fn nothing_is_found_afterwards_but_what_is_put_later() {
    for map in maps() {
        put_all(&map, 0);
        for round in 1..4 {
            map.invalidate_all();
            assert!((0..KEYS).all(|key| map.get(&key).is_none() && map.peek(&key) == Ok(None) && !map.contains_key(&key)));
            assert!(matches!(map.look(&1, |_| ()), Ok(Look::Expired { .. })));
            let keys: Vec<u64> = (0..KEYS).collect();
            map.get_many_with(&keys.iter().collect::<Vec<_>>(), |_, _| panic!("it is found"));
            map.for_each(|_, _| panic!("it is listed")).unwrap();
            assert_eq!((map.len() as u64, map.insert(0, 7).unwrap()), (KEYS, Inserted::Renewed));
            put_all(&map, round);
            assert!(keys.iter().all(|key| map.get(key) == Some(key + round) && map.peek(key) == Ok(Some(key + round))));
            let mut listed = 0;
            map.for_each(|_, _| listed += 1).unwrap();
            assert_eq!((listed, map.len() as u64), (KEYS, KEYS));
        }
    }
}

#[test]
fn each_call_takes_an_older_object_for_an_absent_one() {
    for map in maps() {
        put_all(&map, 0);
        map.invalidate_all();
        assert!(matches!(map.remove_with(&0, |_| ()), Ok(Look::Expired { .. })));
        assert_eq!((map.remove(&1), map.modify(&2, |old| *old), map.touch(&2, Duration::MAX)), (Ok(None), Ok(None), false));
        map.update(3, |old| old.map_or(100, |old| old + 1)).unwrap();
        assert_eq!((map.insert_if_absent(4, 200).unwrap(), map.get(&3), map.get(&4)), (Inserted::Renewed, Some(100), Some(200)));
        assert_eq!((map.get_or_insert_with(&5, || 9), map.get(&5)), (9, Some(9)));
        let Board::Lead(lead) = map.try_board(&6) else { panic!("an older value is found") };
        assert_eq!((lead.publish(11), map.get(&6), map.len() as u64), (11, Some(11), KEYS - 2));
        // Four of the others are of now.
        assert_eq!((map.remove_expired(), map.len()), (Ok(KEYS as usize - 6), 4));
    }
}

#[test]
fn a_token_of_before_replaces_nothing() {
    type End = fn(&Numbers);
    let ends: [End; 3] = [|map| map.invalidate_all(), |map| map.clear().unwrap(), |map| assert!(map.remove(&1).is_ok())];
    for (map, end) in maps().iter().flat_map(|map| ends.map(|end| (map, end))) {
        let since = map.put(1, 10, None).unwrap().at;
        end(map);
        let refused = map.replace_if(1, since, 11, None).unwrap_err();
        assert!(matches!(refused.why, IfError::NotThere { .. }) && refused.value == 11);
        assert_eq!(map.get(&1), None);
        let since = map.put(1, 12, None).unwrap().at;
        assert!(map.replace_if(1, since, 13, None).is_ok());
        assert_eq!(map.get(&1), Some(13));
    }
}

#[test]
fn the_listener_hears_that_it_had_ended() {
    let heard: Arc<Mutex<Vec<(u64, Reason)>>> = Arc::default();
    let hears = Arc::clone(&heard);
    let map = Numbers::builder(100).listener(move |key, _, reason| hears.lock().unwrap().push((*key, reason))).open().unwrap();
    put_all(&map, 0);
    map.invalidate_all();
    assert!(heard.lock().unwrap().is_empty(), "none has left");
    map.insert(1, 0).unwrap();
    map.remove(&2).unwrap();
    map.insert(1, 0).unwrap();
    assert_eq!(*heard.lock().unwrap(), [(1, Reason::Expired), (2, Reason::Expired), (1, Reason::Replaced)]);
}

#[test]
fn what_was_being_made_when_it_came_is_not_found() {
    for map in maps() {
        put_all(&map, 0);
        let invalidate = |value: u64| {
            map.invalidate_all();
            value
        };
        map.update(1, |old| invalidate(old.unwrap() + 50)).unwrap();
        map.update(2, |old| invalidate(*old.unwrap_or(&3))).unwrap();
        assert_eq!((map.get(&1), map.get(&2)), (None, None));
        // Where nothing is, the value is made anew.
        let mut made = 0;
        let make = |old: Option<&u64>| {
            made += 1;
            old.map_or(0, |_| 1_000) + if made == 1 { invalidate(made) } else { made }
        };
        map.update(KEYS, make).unwrap();
        assert_eq!(map.get(&KEYS), Some(2));
        put_all(&map, 0);
        map.modify(&1, |old| invalidate(*old)).unwrap().unwrap();
        assert_eq!((map.get(&1), map.get_or_insert_with(&3, || invalidate(8)), map.get(&3)), (None, 8, None));
        let Board::Lead(lead) = map.try_board(&4) else { panic!("nobody loads it") };
        let Board::Wait(mut wait) = map.try_board(&4) else { panic!("somebody loads it") };
        map.invalidate_all();
        // Who comes later doesn't wait for it.
        let Board::Lead(later) = map.try_board(&4) else { panic!("nobody loads a value of now") };
        assert_eq!((lead.publish(1), map.get(&4)), (1, None));
        assert_eq!(poll(&Arc::default(), &mut wait), Poll::Ready(()), "those that waited are woken");
        assert_eq!((later.publish(2), map.get(&4)), (2, Some(2)));
    }
}

#[test]
fn no_value_is_older_than_an_invalidation_that_has_returned() {
    ends(load_from_source);
}

// A value is the source's number when it was loaded.
fn load_from_source() {
    let map = Numbers::new(8).unwrap();
    load_beside_invalidations(
        |key, source| map.get_or_insert_with(&key, || source.load(SeqCst)),
        |key| map.get(&key),
        || map.invalidate_all(),
    );
}
