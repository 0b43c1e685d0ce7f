//! A write on the condition that its key was not put since happens only then.
use crate::ledger::done;
use cefrodil_map::{AbsentError, IfError, Inserted, Look, ObjectMap};
use std::sync::atomic::{AtomicU64, Ordering::SeqCst};
use std::thread;
use std::time::Duration;

type Names = ObjectMap<String, String>;

fn open() -> Names {
    ObjectMap::builder(1_000).shards(1).open().unwrap()
}

fn since(map: &Names, key: &str) -> u64 {
    match map.look(key, |_| ()) {
        Ok(Look::Found { since, at, .. }) if since <= at => since,
        other => panic!("{other:?}"),
    }
}

// Some text.
fn text(text: &str) -> String {
    text.into()
}

#[test]
fn each_put_has_a_moment_of_its_own() {
    let map = open();
    let put = map.put(text("one"), text("a"), None).unwrap();
    assert_eq!((put.did, put.at, since(&map, "one")), (Inserted::New, 1, 1));
    assert_eq!(map.look("two", String::clone), Ok(Look::Absent { at: 1 }));
    let put = map.put(text("one"), text("b"), None).unwrap();
    assert_eq!((put.did, put.at, since(&map, "one")), (Inserted::Renewed, 2, 2));
    assert_eq!(map.look("one", String::clone), Ok(Look::Found { result: text("b"), at: 2, since: 2 }));
    assert_eq!(map.put_if_absent(text("two"), text("c"), None).unwrap().at, 3);
    assert_eq!(map.look("one", |_| ()), Ok(Look::Found { result: (), at: 3, since: 2 }));
    assert_eq!(map.update(text("one"), |old| format!("{}!", old.unwrap())).unwrap().at, 4);
    assert_eq!(map.modify("one", |old| format!("{old}!")).unwrap().unwrap().at, 5);
    assert_eq!(
        (map.modify_some("one", |_| None), map.modify_some("none", |_| unreachable!("it is not there"))),
        (Ok(None), Ok(None))
    );
    assert_eq!(map.remove_with("one", String::clone), Ok(Look::Found { result: text("b!!"), at: 6, since: 5 }));
    assert_eq!(map.remove_with("one", String::clone), Ok(Look::Absent { at: 6 }));
    assert_eq!((since(&map, "two"), map.remove_if("two", 3)), (3, Ok(7)));
}

#[test]
fn a_replacement_needs_the_last_moment() {
    let map = open();
    let refused = map.replace_if(text("one"), 1, text("a"), None).unwrap_err();
    assert_eq!((refused.why, refused.key, refused.value), (IfError::NotThere { at: 0 }, text("one"), text("a")));
    map.insert(text("one"), text("a")).unwrap();
    let first = since(&map, "one");
    assert_eq!(map.replace_if(text("one"), first, text("b"), None).unwrap().did, Inserted::Renewed);
    let second = since(&map, "one");
    let refused = map.replace_if(text("one"), first, text("c"), None).unwrap_err();
    assert_eq!((refused.why, refused.value), (IfError::Changed { since: second }, text("c")));
    // The same value, put again, is another put.
    map.remove("one").unwrap();
    map.insert(text("one"), text("b")).unwrap();
    let refused = map.replace_if(text("one"), second, text("c"), None).unwrap_err();
    assert_eq!((refused.why, map.get("one")), (IfError::Changed { since: since(&map, "one") }, Some(text("b"))));
    assert_eq!(map.stats().refused, 3);
}

#[test]
fn a_removal_on_a_condition_is_exact() {
    let map = open();
    map.insert(text("one"), text("a")).unwrap();
    let first = since(&map, "one");
    map.insert(text("one"), text("b")).unwrap();
    let second = since(&map, "one");
    assert_eq!(map.remove_if("one", first), Err(IfError::Changed { since: second }));
    let hash = map.hash_of("one");
    assert_eq!(map.remove_stamped(hash, first), Err(IfError::Changed { since: second }));
    assert_eq!(map.get("one"), Some(text("b")));
    let at = map.remove_stamped(hash, second).unwrap();
    assert_eq!((map.get("one"), map.len(), at), (None, 0, second + 1));
    assert_eq!(map.remove_stamped(hash, second), Err(IfError::NotThere { at }));
    assert_eq!(map.remove_if("one", second), Err(IfError::NotThere { at }));
}

#[test]
fn a_key_that_is_there_is_not_added() {
    let map = open();
    assert_eq!(map.insert_if_absent(text("one"), text("a")).unwrap(), Inserted::New);
    let refused = map.insert_if_absent(text("one"), text("b")).unwrap_err();
    assert_eq!((refused.why, refused.key, refused.value), (AbsentError::Present { since: 1 }, text("one"), text("b")));
    assert_eq!((map.get("one"), map.stats().refused), (Some(text("a")), 1));
}

#[test]
fn an_update_that_another_write_overtakes_begins_again() {
    let map = open();
    map.insert(text("one"), text("a")).unwrap();
    let mut seen = Vec::new();
    let change = |old: Option<&String>| {
        seen.push(old.cloned());
        if seen.len() == 1 {
            map.insert(text("one"), text("b")).unwrap();
        } else if seen.len() == 2 {
            map.remove("one").unwrap();
        } else if seen.len() == 3 {
            map.insert_if_absent(text("one"), text("c")).unwrap();
        }
        format!("{}!", old.map_or("", String::as_str))
    };
    map.update(text("one"), change).unwrap();
    assert_eq!(seen, [Some(text("a")), Some(text("b")), None, Some(text("c"))]);
    assert_eq!(map.get("one"), Some(text("c!")));
}

#[test]
fn so_does_an_update_over_an_expired_value() {
    let map = open();
    map.insert_for(text("one"), text("a"), Duration::ZERO).unwrap();
    let mut seen = Vec::new();
    let change = |old: Option<&String>| {
        seen.push(old.cloned());
        if seen.len() == 1 {
            map.insert(text("one"), text("b")).unwrap();
        }
        text("c")
    };
    map.update(text("one"), change).unwrap();
    assert_eq!((seen, map.get("one")), (vec![None, Some(text("b"))], Some(text("c"))));
}

#[test]
fn a_modification_does_not_bring_back_what_has_gone() {
    type Modify = fn(&Names, &mut dyn FnMut(&String) -> String) -> bool;
    let modifications: [Modify; 2] = [
        |map, change| map.modify("one", change).unwrap().is_some(),
        |map, change| map.modify_for("one", Duration::from_secs(100), change).unwrap().is_some(),
    ];
    for modify in modifications {
        let map = open();
        map.insert(text("one"), text("a")).unwrap();
        let modified = modify(&map, &mut |old| {
            assert!(map.remove("one").unwrap().is_some());
            old.clone()
        });
        assert_eq!((modified, map.get("one")), (false, None));
    }
}

#[test]
fn many_keys_are_looked_up_as_one() {
    let map = ObjectMap::<u64, u64>::new(10_000).unwrap();
    (0..500).filter(|key| key % 3 != 0).for_each(|key| done(map.insert(key, 10 * key).unwrap()));
    let keys: Vec<u64> = (0..500).rev().collect();
    let keys: Vec<&u64> = keys.iter().collect();
    let mut order = Vec::new();
    map.look_many(&keys, |index, found| {
        order.push(index);
        let key = *keys[index];
        match found.unwrap() {
            Look::Found { result, at, since } => assert!(key % 3 != 0 && *result == 10 * key && since <= at),
            other => assert!(key % 3 == 0 && matches!(other, Look::Absent { .. })),
        }
    });
    assert_eq!(order, (0..500).collect::<Vec<_>>());
    let mut found = Vec::new();
    map.get_many_with(&keys, |index, value| found.push((*keys[index], *value)));
    let expected: Vec<_> = (0..500).rev().filter(|key| key % 3 != 0).map(|key| (key, 10 * key)).collect();
    assert_eq!((found, map.stats().hits, map.stats().misses), (expected, 666, 334));
    let values: Vec<_> = (0..500).rev().map(|key| (key % 3 != 0).then_some(10 * key)).collect();
    assert_eq!((map.get_many(keys.iter().copied()), map.get_many([])), (values, vec![]));
}

#[test]
fn no_change_is_lost() {
    const EACH: u64 = 1_500;
    let map = ObjectMap::<u64, u64>::new(1_000).unwrap();
    let failed = AtomicU64::new(0);
    thread::scope(|threads| {
        for _ in 0..4 {
            threads.spawn(|| {
                for number in 0..EACH {
                    match number % 3 {
                        0 => done(map.update(1, |old| old.map_or(1, |old| old + 1)).unwrap()),
                        1 => assert!(map.modify(&1, |old| old + 1).unwrap().is_some()),
                        _ => {
                            let Ok(Look::Found { result, since, .. }) = map.look(&1, |value| *value) else {
                                panic!("it is there")
                            };
                            if map.replace_if(1, since, result + 1, None).is_err() {
                                failed.fetch_add(1, SeqCst);
                            }
                        }
                    }
                }
            });
        }
    });
    assert_eq!(map.get(&1), Some(4 * EACH - failed.load(SeqCst)));
}
