//! A look that is no use: it finds the value, and is not counted, and the entry is evicted as if nobody had looked.
use cefrodil_map::Map;
use std::time::Duration;

// A full map. No key was used.
fn full() -> Map<u64, u64> {
    let map = Map::builder(4).shards(1).open().unwrap();
    (0..4).for_each(|key| _ = map.insert(&key, 10 * key).unwrap());
    map
}

#[test]
fn it_is_no_use() {
    let (looked, peeked) = (full(), full());
    assert!((0..4).all(|key| looked.peek(&key) == Ok(Some(10 * key)) && peeked.peek(&key) == Ok(Some(10 * key))));
    assert_eq!((looked.get(&0), looked.get(&1), looked.get(&2)), (Some(0), Some(10), Some(20)));
    assert_eq!((peeked.get(&1), peeked.get(&2), peeked.get(&3)), (Some(10), Some(20), Some(30)));
    for map in [&looked, &peeked] {
        map.insert(&5, 50).unwrap();
    }
    assert_eq!((looked.peek(&0), looked.peek(&3)), (Ok(Some(0)), Ok(None)));
    assert_eq!((peeked.peek(&0), peeked.peek(&3)), (Ok(None), Ok(Some(30))));
}

#[test]
fn it_is_not_counted() {
    let map = full();
    let before = map.stats();
    assert_eq!((map.peek(&7), map.peek(&3)), (Ok(None), Ok(Some(30))));
    assert_eq!(map.stats(), before);
}

#[test]
fn it_finds_nothing_that_has_expired() {
    let map = Map::<str, [u64; 6]>::builder(100).time_to_live(Duration::MAX).open().unwrap();
    map.insert("one", [1; 6]).unwrap();
    map.insert_for("two", [2; 6], Duration::ZERO).unwrap();
    assert_eq!((map.peek("one"), map.peek("two"), map.peek("three")), (Ok(Some([1; 6])), Ok(None), Ok(None)));
    assert_eq!(map.len(), 2);
}

#[cfg(feature = "objects")]
#[test]
fn so_it_is_in_a_map_of_objects() {
    let open = || {
        let map = cefrodil_map::ObjectMap::builder(4).shards(1).open().unwrap();
        (0..5).for_each(|key: u64| _ = map.insert(key, key.to_string()).unwrap());
        map
    };
    let (looked, peeked) = (open(), open());
    let before = peeked.stats();
    assert_eq!((looked.get(&1), peeked.peek(&1)), (Some("1".into()), Ok(Some("1".into()))));
    assert_eq!((peeked.peek_with(&4, String::len), peeked.peek_with(&0, String::len)), (Ok(Some(1)), Ok(None)));
    assert_eq!(peeked.stats(), before);
    for map in [&looked, &peeked] {
        map.insert(5, "5".into()).unwrap();
    }
    assert_eq!((looked.peek(&1), looked.peek(&2)), (Ok(Some("1".into())), Ok(None)));
    assert_eq!((peeked.peek(&1), peeked.peek(&2)), (Ok(None), Ok(Some("2".into()))));
}
