//! What can't be opened says why, and each error has a text.
use cefrodil_map::{prometheus, Builder, ClearError, GetError, InsertError, Map, OpenError, RemoveError, Stats, UpdateError};
use std::collections::hash_map::RandomState;
use std::error::Error;
use std::time::Duration;

fn open(builder: Builder<u64, u64>) -> Result<usize, OpenError> {
    builder.open().map(|map| map.capacity())
}

#[test]
fn what_can_not_be_opened_says_why() {
    let builder = Map::<u64, u64>::builder;
    assert_eq!(open(builder(0)), Err(OpenError::Capacity));
    assert_eq!(open(builder(0).shards(2)), Err(OpenError::Capacity));
    assert_eq!(open(builder(usize::MAX)), Err(OpenError::Capacity));
    assert_eq!(open(builder((1 << 32) + 100)), Err(OpenError::Capacity));
    assert_eq!(open(builder(usize::MAX).shards(1)), Err(OpenError::Capacity));
    assert_eq!(open(builder(100).shards(0)), Err(OpenError::Shards));
    assert_eq!(open(builder(100).shards(3)), Err(OpenError::Shards));
    assert_eq!(open(builder(100).shards(512)), Err(OpenError::Shards));
    assert_eq!(open(builder(100).threads(1_024)), Err(OpenError::Threads));
    assert_eq!(open(builder(100).threads(usize::MAX)), Err(OpenError::Threads));
    assert_eq!(open(builder(100).threads(1_023)), Ok(100));
    assert_eq!(open(builder(100).shards(256)), Ok(110));
}

#[test]
fn there_is_room_for_what_was_asked_for() {
    for capacity in [1, 10, 127, 128, 255, 1_000, 30_000] {
        let map = Map::<u64, u64>::new(capacity).unwrap();
        assert!(map.capacity() >= capacity && map.capacity() <= 2 * capacity, "{} of {capacity}", map.capacity());
        let exact = Map::<u64, u64>::builder(capacity).shards(1).open().unwrap();
        assert_eq!(exact.capacity(), capacity);
    }
}

#[test]
fn each_error_has_its_text() {
    const BUSY: &str = "writes disturbed each lookup";
    const HELD: &str = "other threads held the shard's turn";
    const CONTENDED: &str = "other threads changed the key each time";
    const NO_MEMORY: &str = "no memory";
    const SPENT: &str = "the shard has made all its changes";
    let index = cefrodil::OpenError::Processor;
    let all: [(Box<dyn Error>, &str); 24] = [
        (Box::new(OpenError::Capacity), "the capacity must be at least 1, and at most 3774873 for each shard"),
        (Box::new(OpenError::Shards), "shards must be a power of two from 1 to 256"),
        (Box::new(OpenError::Threads), "at most 1023 threads can have a handle of their own"),
        (Box::new(OpenError::NoMemory), NO_MEMORY),
        (Box::new(OpenError::Index(index)), "the processor is older than x86-64-v2"),
        (Box::new(GetError::Busy), BUSY),
        (Box::new(GetError::Computing), "another thread computes the value"),
        (Box::new(InsertError::Held), HELD),
        (Box::new(InsertError::NoPlace), "there is no place for the key"),
        (Box::new(InsertError::AllRecent), "the shard is full, and each entry was used again"),
        (Box::new(InsertError::NoTimeToLive), "the map was opened without a time to live"),
        (Box::new(InsertError::TooHeavy), "the entry weighs more than the map may hold"),
        (Box::new(InsertError::TooDeep), "a listener's put within too many calls of listeners"),
        (Box::new(InsertError::Spent), SPENT),
        (Box::new(RemoveError::Busy), BUSY),
        (Box::new(RemoveError::Held), HELD),
        (Box::new(RemoveError::Contended), CONTENDED),
        (Box::new(RemoveError::Spent), SPENT),
        (Box::new(UpdateError::Busy), BUSY),
        (Box::new(UpdateError::Contended), CONTENDED),
        (Box::new(UpdateError::Insert(InsertError::NoPlace)), "there is no place for the key"),
        (Box::new(ClearError::Held), HELD),
        (Box::new(ClearError::NoMemory), NO_MEMORY),
        (Box::new(ClearError::Spent), SPENT),
    ];
    for (error, text) in all {
        assert_eq!(error.to_string(), text, "{error:?}");
    }
}

// An opening with the most entries of a shard would take much memory, and one with one more says so at once.
#[test]
fn a_shard_has_so_many_entries_at_most() {
    const MOST: usize = 3_774_873;
    let too_many = |capacity, shards| open(Map::builder(capacity).shards(shards).threads(0)) == Err(OpenError::Capacity);
    assert!(too_many(MOST + 1, 1) && too_many(4 * MOST, 4) && too_many(256 * MOST, 256));
}

#[test]
fn a_builder_shows_what_it_was_told() {
    let builder = Map::<u64, u64>::builder(10)
        .shards(2)
        .threads(3)
        .time_to_live(Duration::from_secs(4))
        .time_to_idle(Duration::from_secs(5));
    let expected = "Builder { capacity: 10, shards: Some(2), threads: 3, time_to_live: Some(4s), time_to_idle: Some(5s), .. }";
    assert_eq!(format!("{builder:?}"), expected);
    // A hasher that is chosen last changes nothing else.
    assert_eq!(format!("{:?}", builder.hasher(RandomState::new())), expected);
}

#[test]
fn each_number_is_printed_under_its_name() {
    let names = "hits_total misses_total expired_total collided_total busy_total added_total renewed_total evictions_total \
                 evictions_by_weight_total evictions_by_capacity_total removed_total ended_total loads_total load_failures_total \
                 load_seconds_total refusals_total given_up_total stalled_seconds waiting_objects waiting_weight pinned_objects pinned_weight \
                 entries capacity weight";
    let mut stats = Stats::default();
    (stats.hits, stats.misses, stats.expired, stats.collided, stats.busy) = (1, 2, 3, 4, 5);
    (stats.added, stats.renewed, stats.evicted, stats.evicted_by_weight, stats.evicted_by_capacity) = (6, 7, 8, 9, 10);
    (stats.removed, stats.ended, stats.loads, stats.load_failures) = (11, 12, 13, 14);
    (stats.load_time, stats.refused, stats.given_up) = (Duration::from_secs(15), 16, 17);
    (stats.stalled, stats.waiting, stats.waiting_weight) = (Duration::from_secs(18), 19, 20);
    (stats.pinned, stats.pinned_weight, stats.entries, stats.capacity, stats.weight) = (21, 22, 23, 24, 25);
    (stats.hits_of_last_minute, stats.misses_of_last_minute) = (3, 1);
    let text = prometheus(&[("names", stats), ("a\"b\\c\nd", Stats::default())]);
    let lines: Vec<&str> = text.lines().collect();
    for ((name, number), lines) in names.split(' ').zip(1..).zip(lines.chunks(4)) {
        let kind = if name.ends_with("_total") { "counter" } else { "gauge" };
        assert!(lines[0].starts_with(&format!("# HELP cefrodil_map_{name} ")));
        assert_eq!(lines[1], format!("# TYPE cefrodil_map_{name} {kind}"));
        assert_eq!(lines[2], format!("cefrodil_map_{name}{{cache=\"names\"}} {number}"));
        assert_eq!(lines[3], format!(r#"cefrodil_map_{name}{{cache="a\"b\\c\nd"}} 0"#));
    }
    assert_eq!(lines.len(), 26 * 4);
    assert_eq!(
        lines[25 * 4 + 2..],
        [r#"cefrodil_map_hit_rate{cache="names"} 0.75"#, r#"cefrodil_map_hit_rate{cache="a\"b\\c\nd"} 0"#]
    );
}
