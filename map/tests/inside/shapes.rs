//! What a shard is opened with.
use crate::settings::Settings;
use crate::OpenError;
use cefrodil::{Mix, Policy};
use std::collections::hash_map::RandomState;

#[test]
fn many_shards_have_few_stripes_each() {
    for (shards, stripes) in [(1, 4096), (16, 256), (64, 64), (256, 32)] {
        let mut settings = Settings::new(3_000_000);
        settings.shards = Some(shards);
        let (shape, count) = settings.shape().unwrap();
        assert_eq!((shape.stripes, count), (stripes, shards));
    }
}

// One for each 62 entries, a power of two, and 16 at most.
#[test]
fn there_are_so_many_shards_by_default() {
    let expected = [(1, 1), (123, 1), (124, 2), (247, 2), (248, 4), (495, 4), (496, 8), (991, 8), (992, 16), (3_000_000, 16)];
    for (capacity, shards) in expected {
        assert_eq!(Settings::new(capacity).shape().unwrap().1, shards, "of {capacity}");
    }
}

#[test]
fn by_default_a_map_holds_a_tenth_more_at_most() {
    for capacity in (1..100_000).step_by(13).chain([123, 124, 248, 496, 992, 1_000, 40_000]) {
        let settings = Settings::new(capacity);
        let (shape, shards) = settings.shape().unwrap();
        let (bound, room) = (settings.bound(&shape, shards), shape.items as usize * shards as usize);
        assert_eq!(bound, room.min(capacity + capacity / 10), "for {capacity}");
        assert!(capacity <= bound, "{bound} for {capacity}");
    }
}

// One is shared. An index opens 64 more at any time, and has 1,024 at most.
#[test]
fn so_many_handles_are_opened_with_the_map() {
    for (threads, handles) in [(0, Ok(1)), (64, Ok(1)), (65, Ok(2)), (1_023, Ok(960)), (1_024, Err(OpenError::Threads))] {
        let mut settings = Settings::new(100);
        settings.threads = threads;
        assert_eq!(settings.handles(), handles);
    }
}

// 255 entries have as many buckets as 510 would, and 256 as many as 256.
#[test]
fn small_shards_have_more_buckets() {
    for (items, buckets) in [(1, 2), (10, 8), (100, 64), (255, 256), (256, 128), (1_000, 512)] {
        let mut settings = Settings::new(items as usize);
        settings.shards = Some(1);
        let (shape, shards) = settings.shape().unwrap();
        assert_eq!((shards, shape.items, shape.buckets), (1, items, buckets));
    }
}

#[test]
fn a_map_evicts_few_keys_for_a_scan() {
    assert_eq!(Settings::new(5_000).shape().unwrap().0.policy, Policy::ScanResistant);
}

// The map mixes the bits of a hasher of the user's, and the index those of none.
#[test]
fn a_hasher_of_the_users_changes_no_shape() {
    let (shape, shards) = Settings::new(5_000).shape().unwrap();
    assert_eq!(Settings::new(5_000).hasher(RandomState::new()).shape(), Ok((shape, shards)));
    assert_eq!(shape.mix, Mix::None);
}
