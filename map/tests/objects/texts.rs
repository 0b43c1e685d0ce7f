//! What a map of objects says of itself, and where it may go.
use cefrodil_map::{AbsentError, IfError, InsertError, ObjectBuilder, ObjectMap, OpenError, Refused};
use std::cell::Cell;
use std::collections::hash_map::RandomState;
use std::error::Error;
use std::panic::UnwindSafe;
use std::time::Duration;

#[test]
fn a_map_may_go_anywhere() {
    fn anywhere<T: Clone + Send + Sync + UnwindSafe + 'static>() {}
    anywhere::<ObjectMap<String, Vec<Box<str>>>>();
}

#[test]
fn what_can_not_be_opened_says_why() {
    let open = |builder: ObjectBuilder<u64, u64>| builder.open().map(|map| map.capacity());
    assert_eq!(open(ObjectBuilder::new(0)), Err(OpenError::Capacity));
    assert_eq!(open(ObjectBuilder::new(100).shards(3)), Err(OpenError::Shards));
    assert_eq!(open(ObjectBuilder::new(100).threads(usize::MAX)), Err(OpenError::Threads));
    assert_eq!(open(ObjectBuilder::new(100).threads(1_023)), Ok(100));
}

#[test]
fn each_error_has_a_text() {
    let refused = Refused { why: InsertError::NoPlace, key: Cell::new(1), value: Cell::new(2) };
    assert_eq!(refused.to_string(), "there is no place for the key");
    assert_eq!(format!("{refused:?}"), "Refused { why: NoPlace, .. }");
    let all: [(Box<dyn Error>, &str); 11] = [
        (Box::new(AbsentError::Present { since: 1 }), "the key has a value"),
        (Box::new(AbsentError::Busy), "writes disturbed each lookup"),
        (Box::new(AbsentError::Contended), "other threads changed the key each time"),
        (Box::new(AbsentError::Insert(InsertError::NoPlace)), "there is no place for the key"),
        (Box::new(IfError::NotThere { at: 1 }), "the key is absent"),
        (Box::new(IfError::Changed { since: 1 }), "the key was put since"),
        (Box::new(IfError::Busy), "writes disturbed each lookup"),
        (Box::new(IfError::Held), "other threads held the shard's turn"),
        (Box::new(IfError::TooHeavy), "the entry weighs more than the map may hold"),
        (Box::new(IfError::TooDeep), "a listener's put within too many calls of listeners"),
        (Box::new(IfError::Spent), "the shard has made all its changes"),
    ];
    for (error, text) in all {
        assert_eq!(error.to_string(), text, "{error:?}");
    }
}

#[test]
fn a_map_shows_its_size_and_a_builder_what_it_was_told() {
    let map = ObjectBuilder::<u64, Cell<u64>>::new(10)
        .shards(2)
        .threads(3)
        .time_to_live(Duration::from_secs(4))
        .time_to_idle(Duration::from_secs(5));
    let expected =
        "ObjectBuilder { capacity: 10, shards: Some(2), threads: 3, time_to_live: Some(4s), time_to_idle: Some(5s), .. }";
    assert_eq!(format!("{map:?}"), expected);
    assert_eq!(format!("{:?}", map.hasher(RandomState::new())), expected);
    let map = ObjectMap::<u64, String>::new(100).unwrap();
    map.insert(1, "a".into()).unwrap();
    assert_eq!(format!("{:?}", map.clone()), "ObjectMap { len: 1, capacity: 100, .. }");
}
