//! Objects that left for a put into a full map.
use super::one_shard;
use crate::{InsertError, Inserted, ObjectBuilder, ObjectMap, Reason};
use cefrodil::Shape;
use std::sync::{Arc, Mutex};

// No key may move, so some find no place, also if another one has left for them.
#[test]
fn what_left_for_a_put_that_failed_is_retired() {
    let shape = Shape { buckets: 4, items: 16, stripes: 1, depth: 0, ..one_shard(16) };
    let heard = Arc::new(Mutex::new(Vec::new()));
    let hears = Arc::clone(&heard);
    let listener = move |key: &u64, _: &Arc<()>, reason| hears.lock().unwrap().push((*key, reason));
    let map: ObjectMap<u64, Arc<()>> = ObjectBuilder::new(16).listener(listener).open_shaped(&shape, 1, 10).unwrap();
    map.inner.core.bound.set(11);
    let (value, mut refused) = (Arc::new(()), 0);
    for key in 0..2_000 {
        let before = map.len();
        let put = if key % 2 == 0 {
            map.insert(key, Arc::clone(&value)).map_err(|back| (back.why, back.key))
        } else {
            map.insert_if_absent(key, Arc::clone(&value)).map_err(|back| (InsertError::NoPlace, back.key))
        };
        assert!(put.is_ok() || put == Err((InsertError::NoPlace, key)), "{put:?}");
        refused += u64::from(put.is_err());
        // What left for a put that failed has left room for the next one.
        let expected = if before < 11 { Inserted::New } else { Inserted::Evicted };
        assert!(put.is_err() || put == Ok(expected), "{put:?} beside {before} others");
    }
    let (mut there, stats) = (Vec::new(), map.stats());
    map.for_each(|key, _| there.push(*key)).unwrap();
    assert!(refused > 0 && stats.refused == refused, "{refused} refused");
    assert_eq!((there.len(), stats.added), (map.len(), 2_000 - refused));
    assert_eq!((stats.evicted, stats.evicted_by_capacity), (stats.added - there.len() as u64, stats.evicted));
    // The listener has heard of each that left, and of no other.
    let mut all: Vec<u64> =
        heard.lock().unwrap().iter().map(|(key, reason)| (*key, assert_eq!(*reason, Reason::Evicted)).0).collect();
    assert_eq!(all.len() as u64, stats.evicted);
    all.extend(there);
    all.sort_unstable();
    all.dedup();
    assert_eq!(all.len() as u64, stats.added);
    drop(map);
    assert_eq!(Arc::strong_count(&value), 1);
}
