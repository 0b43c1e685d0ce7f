//! The errors of openings and writes, and the parts of answers that `calls.rs` leaves open.
use cefrodil::{
    Cache, EvictError, Handle, Mix, OpenError, Policy, Put, PutError, PutIfAbsentError, PutIfError, Reply, Shape, Spent,
    TurnError, Value, Why,
};
use std::collections::HashSet;
use std::error::Error;

const SMALL: Shape = Shape {
    limit: 1 << 62,
    buckets: 4,
    items: 16,
    stripes: 1,
    depth: 2,
    tries: 2,
    mix: Mix::None,
    policy: Policy::ScanResistant,
};

// The error of each opening of this shape with so many handles. All give the same one.
fn opening_error<const WORDS: usize>(shape: &Shape, handles: usize) -> OpenError
where
    [u64; WORDS]: Value,
{
    let why = Cache::<WORDS>::open(shape, 1, handles).unwrap_err();
    assert_eq!(Cache::<WORDS>::open(shape, 4, handles).unwrap_err(), why);
    assert_eq!(Cache::<WORDS>::open_with(shape, 1, handles, &[]).unwrap_err(), why);
    assert_eq!(Cache::<WORDS>::open_with(shape, 4, handles, &[]).unwrap_err(), why);
    why
}

#[test]
fn each_fault_of_a_shape_has_its_error() {
    for (shape, why) in [
        (Shape { buckets: 3, ..SMALL }, OpenError::Buckets),
        (Shape { items: 17, ..SMALL }, OpenError::Items),
        (Shape { stripes: 3, ..SMALL }, OpenError::Stripes),
        (Shape { depth: 9, ..SMALL }, OpenError::Depth),
        (Shape { tries: 0, ..SMALL }, OpenError::Tries),
        (Shape { tries: 65, ..SMALL }, OpenError::Tries),
        (Shape { limit: 1 << 63, ..SMALL }, OpenError::Limit),
    ] {
        assert_eq!(opening_error::<1>(&shape, 1), why);
        assert_eq!(opening_error::<8>(&shape, usize::MAX), why);
    }
}

#[test]
fn the_archive_has_the_version_of_the_crate() {
    let parts: Vec<u32> = env!("CARGO_PKG_VERSION").split('.').map(|part| part.parse().expect("a number")).collect();
    assert_eq!(cefrodil::version(), 10_000 * parts[0] + 100 * parts[1] + parts[2]);
}

#[test]
fn every_other_count_of_handles_is_an_error() {
    for handles in [0, 1025, 1 << 32, (1 << 32) + 1, 1 << 40, usize::MAX / 16, usize::MAX] {
        assert_eq!(opening_error::<1>(&SMALL, handles), OpenError::Handles);
    }
}

#[test]
fn a_shape_for_items_has_every_field() -> Result<(), OpenError> {
    // Each of the shards has 1,000 items on average, and five times the root of that more.
    let expected = Shape {
        limit: 1 << 62,
        buckets: 512,
        items: 1160,
        stripes: 512,
        depth: 5,
        tries: 8,
        mix: Mix::Full,
        policy: Policy::ScanResistant,
    };
    assert_eq!(Shape::for_items(16_000, 16)?, expected);
    // One shard has all of them, and each slot but a tenth may be filled.
    assert_eq!(Shape::for_items(1000, 1)?, Shape { items: 1000, ..expected });
    let most = 3_774_873;
    assert_eq!(Shape::for_items(most, 1)?, Shape { buckets: 1 << 20, items: most, stripes: 8192, ..expected });
    assert_eq!(Shape::for_items(most + 1, 1), Err(OpenError::Items));
    Ok(())
}

#[test]
fn a_put_reports_moves_evictions_and_refusals() -> Result<(), Box<dyn Error>> {
    let mut handles = Cache::<1>::open(&SMALL, 1, 1)?;
    let mut writing = handles[0].hold()?;
    for key in [1 << 56, 0, 4, 8, 12, 16, 20, 24] {
        assert!(matches!(writing.put(key, &[1])?, Put::Stored { moves: 0, evicted: None, .. }));
    }
    assert_eq!(writing.put(28, &[28])?, Put::Stored { at: 9, moves: 1, evicted: None });
    // The same, and a key of other buckets is evicted.
    let mut handles = Cache::<1>::open(&Shape { items: 9, ..SMALL }, 1, 1)?;
    let mut writing = handles[0].hold()?;
    for key in [2, 1 << 56, 0, 4, 8, 12, 16, 20, 24] {
        assert!(matches!(writing.put(key, &[1])?, Put::Stored { moves: 0, evicted: None, .. }));
    }
    assert_eq!(writing.put(28, &[28])?, Put::Stored { at: 11, moves: 1, evicted: Some(2) });
    let mut handles = Cache::<1>::open(&Shape { items: 2, ..SMALL }, 1, 1)?;
    let mut writing = handles[0].hold()?;
    writing.put(0, &[10])?;
    writing.put(1, &[11])?;
    assert_eq!(writing.put(2, &[12])?, Put::Stored { at: 4, moves: 0, evicted: Some(0) });
    let mut handles = Cache::<1>::open(&Shape { depth: 0, ..SMALL }, 1, 1)?;
    let mut writing = handles[0].hold()?;
    for key in 0..8 {
        writing.put(4 * key, &[key])?;
    }
    assert_eq!(writing.put(32, &[32]), Err(PutError::NoPath));
    Ok(())
}

// A turn whose call is refused is given back: no call after it is held.
fn refused_by(handle: &mut Handle<1>) {
    assert_eq!(handle.try_put(0, &[7]), Err(TurnError::Call(PutError::Spent)));
    assert_eq!(handle.put_within(3, 0, &[7]), Err(TurnError::Call(PutError::Spent)));
    assert_eq!(handle.try_put_if(0, 1, &[7]), Err(TurnError::Call(PutIfError::Spent)));
    assert_eq!(handle.try_put_if_absent(0, &[7]), Err(TurnError::Call(PutIfAbsentError::Put(PutError::Spent))));
    assert_eq!(handle.try_remove(0), Err(TurnError::Call(Spent)));
    assert_eq!(handle.try_swap(0, &[7]), Err(TurnError::Call(PutError::Spent)));
    assert_eq!(handle.try_swap_if(0, 1, &[7]), Err(TurnError::Call(PutIfError::Spent)));
    assert_eq!(handle.try_take_if(0, 1), Err(TurnError::Call(PutIfError::Spent)));
    assert_eq!(handle.try_take(0), Err(TurnError::Call(Spent)));
    assert_eq!(handle.try_evict(0), Err(TurnError::Call(EvictError::Spent)));
}

#[test]
fn a_spent_cache_refuses_writes() -> Result<(), Box<dyn Error>> {
    let none = Shape { limit: 0, ..SMALL };
    let mut handles = Cache::<1>::open(&none, 1, 1)?;
    let mut writing = handles[0].hold()?;
    assert_eq!(writing.put(0, &[7]), Err(PutError::Spent));
    assert_eq!(writing.put_if(0, 1, &[7]), Err(PutIfError::Spent));
    assert_eq!(writing.put_if_absent(0, &[7]), Err(PutIfAbsentError::Put(PutError::Spent)));
    assert_eq!(writing.remove(0), Err(Spent));
    drop(writing);
    for shards in [1, 2] {
        let mut handles = Cache::<1>::open(&none, shards, 1)?;
        refused_by(&mut handles[0]);
        assert_eq!(handles[0].try_len(), Ok(0));
        assert_eq!(handles[0].try_put(0, &[7]), Err(TurnError::Call(PutError::Spent)));
    }
    Ok(())
}

#[test]
fn keys_are_mixed_as_the_shape_says() -> Result<(), Box<dyn Error>> {
    // Taken as they are, the nine keys share two buckets.
    for (mix, stored) in [(Mix::None, 8), (Mix::Full, 9)] {
        let mut handles = Cache::<1>::open(&Shape { buckets: 1024, depth: 0, mix, ..SMALL }, 1, 1)?;
        let mut writing = handles[0].hold()?;
        assert_eq!((0..9).filter(|key| writing.put(1024 * key, &[0]).is_ok()).count(), stored);
    }
    assert_eq!((Mix::default(), Policy::default()), (Mix::Full, Policy::ScanResistant));
    Ok(())
}

#[test]
fn a_cache_has_as_many_handles_as_were_opened() -> Result<(), Box<dyn Error>> {
    let mut handles = Cache::<1>::open(&SMALL, 1, 1024)?;
    handles[1023].try_put(7, &[70])?;
    assert_eq!(handles.len(), 1024);
    for handle in &mut handles {
        assert_eq!(handle.get(7).value(), Some([70]));
    }
    assert_eq!(Cache::<1>::open_with(&SMALL, 4, 1024, &[])?.handles.len(), 1024);
    Ok(())
}

#[test]
#[should_panic(expected = "as many replies as keys")]
fn more_replies_than_keys_panic() {
    let mut handles = Cache::<1>::open(&SMALL, 1, 1).expect("a cache");
    handles[0].get_many(&[1], &mut [Reply::Busy; 2]);
}

#[test]
fn a_turn_changes_only_the_put_that_it_names() -> Result<(), Box<dyn Error>> {
    let mut handles = Cache::<1>::open(&SMALL, 1, 1)?;
    let handle = &mut handles[0];
    handle.try_put(7, &[70])?;
    handle.try_put(7, &[71])?;
    for since in [0, 1, 3, u64::MAX] {
        assert_eq!(handle.try_put_if(7, since, &[72]), Err(TurnError::Call(PutIfError::Changed { since: 2 })));
    }
    assert_eq!(handle.try_put_if(2, 7, &[72]), Err(TurnError::Call(PutIfError::NotThere { at: 2 })));
    assert_eq!(handle.get(7), Reply::Found { value: [71], at: 2, since: 2 });
    assert_eq!(handle.try_put_if(7, 2, &[72])?, 3);
    assert_eq!(handle.get_or_turn(7), Reply::Found { value: [72], at: 3, since: 3 });
    assert_eq!(handle.get_or_turn(2), Reply::Absent { at: 3 });
    let mut reply = Reply::Busy;
    handle.get_or_turn_into(7, &mut reply);
    assert_eq!(reply, Reply::Found { value: [72], at: 3, since: 3 });
    handle.get_or_turn_into(2, &mut reply);
    assert_eq!(reply, Reply::Absent { at: 3 });
    Ok(())
}

#[test]
fn each_entry_that_is_left_is_named() -> Result<(), Box<dyn Error>> {
    let entries = [0, 4, 8, 12, 16, 20, 24, 28, 2, 28, 6].map(|key| (key, [key]));
    let mut opened = Cache::<1>::open_with(&Shape { buckets: 2, items: 8, ..SMALL }, 1, 1, &entries)?;
    assert_eq!(opened.left, [(8, Why::NoPath), (10, Why::NoPath)]);
    assert_eq!(opened.handles[0].get(28), Reply::Found { value: [28], at: 9, since: 9 });
    let opened = Cache::<1>::open_with(&Shape { items: 2, ..SMALL }, 1, 1, &entries[..4])?;
    assert_eq!(opened.left, [(2, Why::NoItem), (3, Why::NoItem)]);
    Ok(())
}

#[test]
fn a_reply_may_have_a_value() {
    assert_eq!(Reply::Found { value: [7, 8], at: 2, since: 1 }.value(), Some([7, 8]));
    assert_eq!(Reply::<2>::Absent { at: 2 }.value(), None);
    assert_eq!(Reply::<2>::Busy.value(), None);
    assert_eq!(Reply::<2>::default(), Reply::Busy);
}

#[test]
fn debug_names_the_type_alone() -> Result<(), Box<dyn Error>> {
    let mut opened = Cache::<1>::open_with(&SMALL, 1, 2, &[])?;
    assert_eq!(format!("{opened:?}"), "Opened { handles: [Handle { .. }, Handle { .. }], left: [] }");
    let [one, other] = &mut opened.handles[..] else { unreachable!() };
    let writing = one.hold()?;
    assert_eq!(format!("{writing:?} {:?}", other.hold()), "Writing { .. } Err(Held)");
    drop(writing);
    let handle = opened.handles.remove(1);
    let _writing = opened.handles.remove(0).into_writing()?;
    assert_eq!(format!("{:?}", handle.into_writing()), "Err(NotHeld { handle: Handle { .. } })");
    assert!(HashSet::from([SMALL]).contains(&SMALL));
    Ok(())
}
