//! A full map keeps the keys that are used, though scans bring many others.
use cefrodil_map::Map;
use std::hash::{BuildHasherDefault, DefaultHasher};

const ENTRIES: usize = 1_000;
const POPULAR: std::ops::Range<u64> = 0..250;

#[test]
fn scans_evict_no_key_that_is_used_between() {
    for shards in [1, 8] {
        // Which keys share a shard and a bucket depends on the hash. With this one they are always the same.
        let map = Map::<u64, u64>::builder(ENTRIES).shards(shards).hasher(BuildHasherDefault::<DefaultHasher>::default());
        let map = map.open().unwrap();
        POPULAR.for_each(|key| assert!(map.insert(&key, key).is_ok()));
        for scan in 1..=8 {
            assert!(POPULAR.clone().all(|key| map.get(&key) == Some(key)), "before scan {scan}");
            let first = scan * 10_000;
            (first..first + 2 * ENTRIES as u64).for_each(|key| assert!(map.insert(&key, key).is_ok()));
        }
        assert_eq!(map.len(), map.capacity());
    }
}
