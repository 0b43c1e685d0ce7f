//! Objects expire by a clock that the tests turn. What is refused comes back.
use super::{done, hold, one_shard};
use crate::clock::FAR;
use crate::objects::{Held, State, BATCH};
use crate::{
    AbsentError, ClearError, IfError, InsertError, Inserted, Look, ObjectBuilder, ObjectMap, Reason, RemoveError, UpdateError,
};
use cefrodil::Shape;
use std::hint::spin_loop;
use std::sync::atomic::{AtomicBool, Ordering::SeqCst};
use std::sync::{Arc, Mutex, OnceLock};
use std::thread;
use std::time::{Duration, Instant};

const fn seconds(number: u64) -> Duration {
    Duration::from_secs(number)
}

type Names = ObjectMap<u64, String>;

fn text(text: &str) -> String {
    text.into()
}

fn timed(life: Duration) -> Names {
    ObjectMap::builder(100).time_to_live(life).open().unwrap()
}

fn turn(map: &Names, by: Duration) {
    map.inner.core.clock.turn(by);
}

#[test]
fn a_value_expires_at_its_deadline() {
    let map = timed(seconds(100));
    map.insert(1, text("a")).unwrap();
    turn(&map, seconds(50));
    map.insert(2, text("b")).unwrap();
    map.insert_for(3, text("c"), seconds(1_000)).unwrap();
    map.put(4, text("d"), Some(Duration::MAX)).unwrap();
    map.put_if_absent(5, text("e"), Some(Duration::ZERO)).unwrap();
    turn(&map, seconds(49));
    assert_eq!((map.get(&1), map.get(&2), map.get(&5)), (Some(text("a")), Some(text("b")), None));
    turn(&map, seconds(1));
    assert_eq!((map.get(&1), map.contains_key(&1), map.get(&2)), (None, false, Some(text("b"))));
    assert_eq!(map.look(&1, |_| ()), Ok(Look::Expired { at: 5, since: 1 }));
    assert_eq!((map.stats().expired, map.stats().misses, map.len()), (4, 4, 5));
    turn(&map, seconds(1_000));
    assert_eq!((map.get(&2), map.get(&3), map.get(&4)), (None, None, Some(text("d"))));
    // A map without a time to live may have values with one.
    let map = ObjectMap::<u64, String>::new(100).unwrap();
    map.insert(1, text("a")).unwrap();
    map.insert_for(2, text("b"), seconds(5)).unwrap();
    turn(&map, seconds(6));
    assert_eq!((map.get(&1), map.get(&2)), (Some(text("a")), None));
}

#[test]
fn a_put_begins_the_time_anew_and_a_change_does_not() {
    let map = timed(seconds(100));
    (1..=5).for_each(|key| done(map.insert(key, text("a")).unwrap()));
    turn(&map, seconds(60));
    map.insert(1, text("b")).unwrap();
    map.update(2, |old| format!("{}b", old.unwrap())).unwrap();
    map.modify(&3, |old| format!("{old}b")).unwrap().unwrap();
    map.modify_for(&4, seconds(100), |old| format!("{old}b")).unwrap().unwrap();
    assert!(map.touch(&5, seconds(100)));
    turn(&map, seconds(60));
    let found = [1, 2, 3, 4, 5].map(|key| map.get(&key));
    assert_eq!(found, [Some(text("b")), None, None, Some(text("ab")), Some(text("a"))]);
    // What has expired is not there for a change.
    assert!(map.modify(&3, |_| unreachable!("it has expired")).unwrap().is_none());
    assert!(!map.touch(&3, seconds(100)));
    map.update(2, |old| old.cloned().unwrap_or(text("c"))).unwrap();
    assert_eq!(map.insert_if_absent(3, text("d")).unwrap(), Inserted::Renewed);
    turn(&map, seconds(60));
    let found = [1, 2, 3, 4, 5].map(|key| map.get(&key));
    assert_eq!(found, [None, Some(text("c")), Some(text("d")), None, None]);
}

#[test]
fn a_replacement_may_have_a_time_of_its_own() {
    let map = timed(seconds(100));
    let since = [1, 2].map(|key| map.put(key, text("a"), None).unwrap().at);
    turn(&map, seconds(50));
    map.replace_if(1, since[0], text("b"), None).unwrap();
    map.replace_if(2, since[1], text("b"), Some(seconds(500))).unwrap();
    turn(&map, seconds(99));
    assert!(map.contains_key(&1) && map.contains_key(&2));
    turn(&map, seconds(1));
    assert!(!map.contains_key(&1) && map.contains_key(&2));
    turn(&map, seconds(399));
    assert!(map.contains_key(&2));
    turn(&map, seconds(1));
    assert!(!map.contains_key(&2));
}

#[test]
fn the_time_begins_when_the_closure_has_ended() {
    type Put = fn(&Names, &dyn Fn() -> String);
    let puts: [Put; 3] = [
        |map, slowly| done(map.update(1, |_| slowly()).unwrap()),
        |map, slowly| done(map.get_or_insert_with(&1, slowly)),
        |map, slowly| {
            map.insert(1, text("a")).unwrap();
            map.modify_for(&1, seconds(100), |_| slowly()).unwrap();
        },
    ];
    for put in puts {
        let map = timed(seconds(100));
        let slowly = || {
            turn(&map, seconds(50));
            text("b")
        };
        put(&map, &slowly);
        turn(&map, seconds(99));
        assert_eq!(map.get(&1), Some(text("b")));
        turn(&map, seconds(1));
        assert_eq!(map.get(&1), None);
    }
}

#[test]
fn a_touch_changes_no_token_and_is_not_lost_by_a_change() {
    let map = timed(seconds(100));
    map.insert(1, text("a")).unwrap();
    assert!(map.touch(&1, seconds(500)));
    assert_eq!(map.look(&1, |_| ()), Ok(Look::Found { result: (), at: 1, since: 1 }));
    // It comes while a change of the same key is under way.
    map.update(1, |_| {
        assert!(map.touch(&1, seconds(1_000)));
        text("b")
    })
    .unwrap();
    turn(&map, seconds(700));
    assert_eq!(map.get(&1), Some(text("b")));
    map.modify(&1, |old| {
        assert!(map.touch(&1, Duration::MAX));
        old.clone()
    })
    .unwrap();
    turn(&map, seconds(700));
    assert_eq!((map.get(&1), map.touch(&1, Duration::ZERO), map.get(&1)), (Some(text("b")), true, None));
}

// Threads change a value as fast as they can. Once a renewal has returned, no later value has the old deadline.
#[test]
fn no_renewal_is_lost_beside_changes() {
    let map = ObjectMap::<u64, u64>::new(100).unwrap();
    let (hash, end) = (map.hash_of(&1), AtomicBool::new(false));
    map.insert(1, 0).unwrap();
    let lost = thread::scope(|threads| {
        for _ in 0..4 {
            threads.spawn(|| {
                while !end.load(SeqCst) {
                    map.modify(&1, |old| old + 1).unwrap();
                }
            });
        }
        let lost = (0..10_000).filter(|round| {
            let put = map.insert_for(1, 0, seconds(1_000));
            (0..round % 64).for_each(|_| spin_loop());
            let touched = map.touch(&1, Duration::MAX);
            let pinned = map.inner.pin();
            let live = matches!(pinned.look(hash, &1, 1_000), Some(State::Live(seen)) if seen.object.deadline() >= FAR);
            put.is_err() || !touched || !live
        });
        let lost = lost.count();
        end.store(true, SeqCst);
        lost
    });
    assert_eq!((lost, map.stats().evicted), (0, 0));
}

type Heard = Arc<Mutex<Vec<(u64, Reason)>>>;

fn heard(builder: ObjectBuilder<u64, String>) -> (ObjectBuilder<u64, String>, Heard) {
    let heard = Heard::default();
    let hears = Arc::clone(&heard);
    (builder.listener(move |key, _, reason| hears.lock().unwrap().push((*key, reason))), heard)
}

#[test]
fn each_object_leaves_for_its_reason() {
    let (builder, heard) = heard(ObjectMap::builder(8));
    let map = builder.open_shaped(&one_shard(8), 1, 100).unwrap();
    (1..=4).for_each(|key| done(map.insert(key, text("a")).unwrap()));
    map.insert(1, text("b")).unwrap();
    map.remove(&2).unwrap();
    map.insert_for(3, text("b"), seconds(5)).unwrap();
    map.insert_for(4, text("b"), seconds(5)).unwrap();
    turn(&map, seconds(6));
    map.insert(3, text("c")).unwrap();
    assert!(map.remove(&4).unwrap().is_none());
    map.clear().unwrap();
    let replaced = [1, 3, 4].map(|key| (key, Reason::Replaced));
    let expected = [replaced[0], (2, Reason::Removed), replaced[1], replaced[2], (3, Reason::Expired), (4, Reason::Expired)];
    let mut all = std::mem::take(&mut *heard.lock().unwrap());
    all[6..].sort_by_key(|(key, _)| *key);
    assert_eq!((&all[..6], &all[6..]), (&expected[..], &[(1, Reason::Removed), (3, Reason::Removed)][..]));
    (1..=9).for_each(|key| done(map.insert(key, text("a")).unwrap()));
    assert!(matches!(heard.lock().unwrap()[..], [(_, Reason::Evicted)]));
}

// Each way in which an expired object may leave.
#[test]
fn what_has_expired_leaves_as_expired() {
    type Leave = fn(&Names, u64);
    let ways: [Leave; 11] = [
        |map, _| done(map.insert(1, text("b"))),
        |map, _| done(map.insert_if_absent(1, text("b"))),
        |map, since| done(map.replace_if(1, since, text("b"), None)),
        |map, _| done(map.update(1, |_| text("b"))),
        |map, _| done(map.get_or_insert_with(&1, || text("b"))),
        |map, _| done(map.remove(&1)),
        |map, since| done(map.remove_if(&1, since)),
        |map, since| done(map.remove_stamped(map.hash_of(&1), since)),
        |map, _| done(map.remove_expired()),
        |map, _| map.clear().unwrap(),
        // It is evicted.
        |map, _| (2..100).for_each(|key| done(map.insert(key, text("b")))),
    ];
    for (way, leave) in ways.into_iter().enumerate() {
        let (builder, heard) = heard(ObjectMap::builder(8));
        let map = builder.open_shaped(&one_shard(8), 1, 100).unwrap();
        let since = map.put(1, text("a"), Some(seconds(5))).unwrap().at;
        turn(&map, seconds(6));
        leave(&map, since);
        let of_key = heard.lock().unwrap().iter().find(|(key, _)| *key == 1).copied();
        assert_eq!(of_key, Some((1, Reason::Expired)), "way {way}");
    }
}

#[test]
fn what_has_expired_is_removed_and_nothing_else() {
    let (builder, heard) = heard(ObjectMap::builder(1_000).shards(4));
    let map = builder.open().unwrap();
    (0..300).for_each(|key| done(map.insert_for(key, text("a"), seconds(key % 3 * 100)).unwrap()));
    assert_eq!((map.remove_expired(), map.inner.epochs.waiting()), (Ok(100), 0));
    turn(&map, seconds(101));
    assert_eq!((map.remove_expired(), map.remove_expired(), map.len()), (Ok(100), Ok(0), 100));
    assert!(heard.lock().unwrap().iter().all(|(key, reason)| key % 3 < 2 && *reason == Reason::Expired));
    assert!((0..300).all(|key| map.contains_key(&key) == (key % 3 == 2)));
}

// The listener hears of the first one, and puts all keys anew that the call has listed.
#[test]
fn what_was_put_since_the_list_is_not_removed() {
    let (map, renewed) = (OnceLock::<Names>::new(), AtomicBool::new(false));
    let shared = Arc::new((map, renewed));
    let hears = Arc::downgrade(&shared);
    let renew = move |_: &u64, _: &String, _| {
        let shared = hears.upgrade().unwrap();
        if !shared.1.swap(true, SeqCst) {
            (0..10).for_each(|key| done(shared.0.get().unwrap().insert(key, text("b")).unwrap()));
        }
    };
    let map = shared.0.get_or_init(|| ObjectMap::builder(100).listener(renew).open().unwrap());
    (0..10).for_each(|key| done(map.insert_for(key, text("a"), Duration::ZERO).unwrap()));
    assert_eq!(map.remove_expired(), Ok(1));
    assert!((0..10).all(|key| map.get(&key) == Some(text("b"))));
}

// What waited while a closure ran is freed after it, and later objects wait no longer than before.
#[test]
fn few_objects_wait_once_a_long_closure_has_ended() {
    let map = ObjectMap::<u64, u64>::new(100).unwrap();
    let put = |count| (0..count).for_each(|number| done(map.insert(2, number).unwrap()));
    map.insert(1, 1).unwrap();
    let waited = map.get_with(&1, |_| {
        put(1_000);
        map.inner.epochs.waiting()
    });
    put(100);
    assert_eq!((waited, map.inner.epochs.waiting() < BATCH), (Some(999), true));
}

#[test]
fn an_insert_without_a_place_gives_the_key_and_the_value_back() {
    let shape = Shape { buckets: 2, items: 8, stripes: 1, depth: 2, ..one_shard(8) };
    let map: ObjectMap<String, Arc<String>> = ObjectBuilder::new(1).open_shaped(&shape, 1, 10).unwrap();
    let value = Arc::new(text("value"));
    let mut refused = 0;
    for key in 0..50 {
        match map.insert(format!("key {key}"), Arc::clone(&value)) {
            Ok(inserted) => assert_eq!(inserted, Inserted::New),
            Err(back) => {
                refused += 1;
                assert_eq!((back.why, back.key, back.value), (InsertError::NoPlace, format!("key {key}"), Arc::clone(&value)));
                assert_eq!(map.get(format!("key {key}").as_str()), None);
            }
        }
    }
    // One in each entry, and this one.
    assert_eq!((refused, map.len(), Arc::strong_count(&value), map.stats().refused), (42, 8, 9, 42));
    let absent = map.insert_if_absent(text("other"), Arc::clone(&value)).unwrap_err();
    assert_eq!((absent.why, absent.key), (AbsentError::Insert(InsertError::NoPlace), text("other")));
    let updated = map.update(text("other"), |old| old.cloned().unwrap_or_else(|| Arc::clone(&value)));
    assert_eq!(updated, Err(UpdateError::Insert(InsertError::NoPlace)));
    let made = map.get_or_insert_with("other", || Arc::clone(&value));
    assert_eq!((made.as_str(), map.get("other")), ("value", None));
    drop((made, absent.value, map));
    assert_eq!(Arc::strong_count(&value), 1);
}

#[test]
fn a_map_without_changes_left_says_so() {
    // Enough for one insert and one replacement.
    let shape = Shape { limit: 4, depth: 0, ..one_shard(8) };
    let map: Names = ObjectBuilder::new(1).open_shaped(&shape, 1, 10).unwrap();
    map.insert(1, text("a")).unwrap();
    assert_eq!(map.replace_if(1, 1, text("b"), None).unwrap().at, 2);
    let spent = InsertError::Spent;
    assert_eq!(map.insert(1, text("c")).unwrap_err().why, spent);
    assert_eq!(map.insert_if_absent(2, text("c")).unwrap_err().why, AbsentError::Insert(spent));
    assert_eq!(map.replace_if(1, 2, text("c"), None).unwrap_err().why, IfError::Spent);
    assert_eq!(map.modify(&1, |_| text("c")), Err(UpdateError::Insert(spent)));
    assert_eq!(map.update(2, |_| text("c")), Err(UpdateError::Insert(spent)));
    assert_eq!((map.remove(&1), map.remove(&2)), (Err(RemoveError::Spent), Ok(None)));
    assert_eq!((map.remove_if(&1, 2), map.clear()), (Err(IfError::Spent), Err(ClearError::Spent)));
    assert_eq!((map.get(&1), map.free_unused(), map.stats().refused), (Some(text("b")), 0, 8));
    assert!(map.touch(&1, Duration::ZERO));
    assert_eq!((map.remove_expired(), map.len(), map.stats().refused), (Err(ClearError::Spent), 1, 9));
}

#[test]
fn a_write_that_does_not_get_its_turn_says_so() {
    let map: Names = ObjectBuilder::new(100).open_shaped(&one_shard(100), 1, 5).unwrap();
    let held = InsertError::Held;
    let others = hold(&map.inner.core.slots);
    let refused = map.insert(1, text("a")).unwrap_err();
    assert_eq!((refused.why, refused.key, refused.value), (held, 1, text("a")));
    let refused = map.insert_if_absent(1, text("a")).unwrap_err();
    assert_eq!((refused.why, refused.value), (AbsentError::Insert(held), text("a")));
    assert_eq!(map.update(1, |_| text("a")), Err(UpdateError::Insert(held)));
    assert_eq!((map.get_or_insert_with(&1, || text("a")), map.get(&1), map.stats().refused), (text("a"), None, 4));
    drop(others);
    map.insert(1, text("b")).unwrap();
    // Another thread renews the key.
    let _locked = map.inner.core.hold_lock(map.hash_of(&1));
    assert_eq!(map.modify(&1, |_| text("c")), Err(UpdateError::Insert(held)));
    assert!(!map.touch(&1, Duration::ZERO));
    assert_eq!((map.get(&1), map.free_unused()), (Some(text("b")), 0));
    // These need no lock.
    assert_eq!(map.replace_if(1, 1, text("d"), None).unwrap().at, 2);
    assert_eq!(map.remove(&1), Ok(Some(text("d"))));
}

#[test]
fn a_computation_that_tries_once_does_not_wait_for_a_turn() {
    let map = timed(Duration::MAX);
    let others = hold(&map.inner.core.slots);
    // So many tries as others make take over a second. One may take as long, too, if the thread gets no processor: so one of many is short.
    let is_short = |refused| {
        let begin = Instant::now();
        assert_eq!(map.try_get_or_insert_with(&1, || text("a")), Ok(text("a")));
        let taken = begin.elapsed();
        assert_eq!((map.get(&1), map.stats().refused), (None, refused));
        taken < Duration::from_millis(700)
    };
    assert!((1..=60).any(is_short));
    drop(others);
    assert_eq!((map.try_get_or_insert_with(&1, || text("b")), map.get(&1)), (Ok(text("b")), Some(text("b"))));
}
