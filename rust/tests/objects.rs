//! A program keeps objects behind the cache: the value of a key is the number of its object. Each object that it makes is in the cache, or was
//! returned to be dropped, and none twice.
use cefrodil::{
    BoundedError, Cache, Entry, Mix, Policy, Put, PutError, PutIfAbsentError, PutIfError, Reply, Shape, Take, TurnError,
};

const OBJECTS: u64 = 1_000;
const KEYS: u64 = 300;

fn key_of(object: u64) -> u64 {
    object * 7 % KEYS
}

fn each_once(mut returned: Vec<u64>) {
    returned.sort_unstable();
    assert_eq!(returned, (0..OBJECTS).collect::<Vec<_>>());
}

// Keeps the objects by the two calls of a handle, or of one that holds. Gives those that were returned.
macro_rules! keep {
    ($keeper:expr, $swap:ident, $take:ident) => {{
        let mut returned = Vec::new();
        for object in 0..OBJECTS {
            let swapped = $keeper.$swap(key_of(object), &[object]).expect("there is room, and nobody else has the turn");
            returned.extend(swapped.old.map(|old| old.value[0]));
        }
        for key in 0..KEYS {
            if let Take::Taken { old, .. } = $keeper.$take(key).expect("the limit is far, and nobody else has the turn") {
                returned.push(old.value[0]);
            }
        }
        returned
    }};
}

#[test]
fn no_object_is_lost() {
    for shards in [1, 4] {
        let mut handles = Cache::<1>::open(&Shape::for_items(100, shards).unwrap(), shards, 1).unwrap();
        each_once(keep!(handles[0], try_swap, try_take));
        each_once(keep!(handles[0].hold().unwrap(), swap, take));
    }
}

#[test]
fn an_object_takes_the_place_of_the_one_that_was_seen() {
    let shape = Shape::for_items(100, 1).unwrap();
    let mut handles = Cache::<1>::open(&shape, 1, 1).unwrap();
    let mut writing = handles[0].hold().unwrap();
    writing.put(7, &[70]).unwrap();
    assert_eq!(writing.swap_if(7, 2, &[71]), Err(PutIfError::Changed { since: 1 }));
    let replaced = writing.swap_if(7, 1, &[71]).unwrap();
    assert_eq!((replaced.at, replaced.old), (2, Entry { key: 7, value: [70], since: 1 }));
    assert_eq!(writing.take_if(7, 1), Err(PutIfError::Changed { since: 2 }));
    assert_eq!(writing.take(7), Ok(Take::Taken { at: 3, old: Entry { key: 7, value: [71], since: 2 } }));
    assert_eq!(writing.take(7), Ok(Take::NotThere { at: 3 }));
    assert_eq!(writing.take_if(7, 2), Err(PutIfError::NotThere { at: 3 }));
    assert_eq!(writing.swap_if_absent(7, &[72]).unwrap().old, None);
    assert_eq!(writing.swap_if_absent(7, &[73]), Err(PutIfAbsentError::Present { since: 4 }));
    let mut handles = Cache::<1>::open(&shape, 1, 1).unwrap();
    let handle = &mut handles[0];
    handle.try_put(7, &[70]).unwrap();
    assert_eq!(handle.try_swap_if(7, 2, &[71]), Err(TurnError::Call(PutIfError::Changed { since: 1 })));
    assert_eq!(handle.try_swap_if(7, 1, &[71]).unwrap().old, Entry { key: 7, value: [70], since: 1 });
    assert_eq!(handle.try_take_if(7, 1), Err(TurnError::Call(PutIfError::Changed { since: 2 })));
    let taken = handle.try_take_if(7, 2).unwrap();
    assert_eq!((taken.at, taken.old), (3, Entry { key: 7, value: [71], since: 2 }));
    assert_eq!(handle.get(7), Reply::Absent { at: 3 });
    assert_eq!(handle.try_swap_if_absent(7, &[72]).unwrap().put, Put::Stored { at: 4, moves: 0, evicted: None });
    assert_eq!(handle.try_swap_if_absent(7, &[73]), Err(TurnError::Call(PutIfAbsentError::Present { since: 4 })));
}

#[test]
fn another_entry_leaves_for_a_new_key_though_items_are_free() {
    let mut handles = Cache::<1>::open(&Shape::for_items(100, 1).unwrap(), 1, 2).unwrap();
    let meter = handles[0].meter();
    let (one, two) = handles.split_at_mut(1);
    let (handle, other) = (&mut one[0], &mut two[0]);
    // The first entry finds the shard empty.
    let first = handle.try_swap_bounded(7, 1, &[70]).unwrap();
    assert_eq!((first.put, first.old), (Put::Stored { at: 1, moves: 0, evicted: None }, None));
    // A key that is there drives none out.
    let renewed = handle.try_swap_bounded(7, 1, &[71]).unwrap();
    assert_eq!((renewed.put, renewed.old), (Put::Renewed { at: 2 }, Some(Entry { key: 7, value: [70], since: 1 })));
    let why = PutIfAbsentError::Present { since: 2 };
    let told = handle.try_swap_if_absent_bounded(7, 1, &[72]);
    assert_eq!(told, Err(TurnError::Call(BoundedError { why, evicted: None })));
    // The eviction is a change of its own.
    let evicting = handle.try_swap_bounded(8, 1, &[80]).unwrap();
    assert_eq!(evicting.put, Put::Stored { at: 4, moves: 0, evicted: Some(7) });
    assert_eq!(evicting.old, Some(Entry { key: 7, value: [71], since: 2 }));
    let absent = handle.try_swap_if_absent_bounded(9, 1, &[90]).unwrap();
    assert_eq!((absent.put.at(), absent.old), (6, Some(Entry { key: 8, value: [80], since: 4 })));
    assert_eq!(
        (handle.try_len(), handle.get(9), meter.counts().evictions),
        (Ok(1), Reply::Found { value: [90], at: 6, since: 6 }, 2)
    );
    let mut writing = other.hold().unwrap();
    assert_eq!(handle.try_swap_bounded(1, 1, &[1]), Err(TurnError::Held));
    assert_eq!(handle.try_swap_if_absent_bounded(1, 1, &[1]), Err(TurnError::Held));
    assert_eq!(writing.swap_bounded(1, 1, &[10]).unwrap().old, Some(Entry { key: 9, value: [90], since: 6 }));
    assert_eq!(writing.swap_if_absent_bounded(2, 1, &[20]).unwrap().old, Some(Entry { key: 1, value: [10], since: 8 }));
    assert_eq!(writing.len(), 1);
}

#[test]
fn a_key_leaves_for_a_new_one_though_items_are_free() {
    let mut handles = Cache::<1>::open(&Shape::for_items(100, 1).unwrap(), 1, 2).unwrap();
    let (one, two) = handles.split_at_mut(1);
    let (handle, other) = (&mut one[0], &mut two[0]);
    assert_eq!(handle.try_put_bounded(7, 2, &[70]), Ok(Put::Stored { at: 1, moves: 0, evicted: None }));
    assert_eq!(handle.try_put_bounded(8, 2, &[80]), Ok(Put::Stored { at: 2, moves: 0, evicted: None }));
    assert_eq!(handle.try_put_bounded(7, 1, &[71]), Ok(Put::Renewed { at: 3 }));
    let why = PutIfAbsentError::Present { since: 3 };
    assert_eq!(handle.try_put_if_absent_bounded(7, 1, &[72]), Err(TurnError::Call(BoundedError { why, evicted: None })));
    // Key 7 was put again, and then looked up, so key 8 leaves.
    assert_eq!(handle.try_put_if_absent_bounded(9, 2, &[90]), Ok(Put::Stored { at: 5, moves: 0, evicted: Some(8) }));
    assert_eq!((handle.try_len(), handle.meter().counts().evictions), (Ok(2), 1));
    let mut writing = other.hold().unwrap();
    assert_eq!(handle.try_put_bounded(1, 1, &[1]), Err(TurnError::Held));
    assert_eq!(handle.try_put_if_absent_bounded(1, 1, &[1]), Err(TurnError::Held));
    assert_eq!(writing.put_bounded(1, 3, &[10]), Ok(Put::Stored { at: 6, moves: 0, evicted: None }));
    assert_eq!(writing.put_if_absent_bounded(2, 4, &[20]).unwrap().at(), 7);
    assert_eq!(writing.len(), 4);
}

// Both buckets of nine keys are the same two, and no key may move. The first key lies elsewhere, and leaves first.
#[test]
fn what_left_is_told_though_the_put_failed() {
    let open = || {
        let shape = Shape {
            buckets: 1024,
            items: 16,
            stripes: 1,
            depth: 0,
            mix: Mix::None,
            policy: Policy::Clock,
            ..Shape::for_items(16, 1).unwrap()
        };
        let mut handle = Cache::<1>::open(&shape, 1, 1).unwrap().remove(0);
        handle.try_put(1, &[10]).unwrap();
        (1..9).for_each(|key| _ = handle.try_put(1024 * key, &[key]).unwrap());
        handle
    };
    let left = Some(Entry { key: 1, value: [10], since: 1 });
    let mut handle = open();
    let told = handle.try_swap_bounded(1024 * 9, 1, &[9]);
    assert_eq!(told, Err(TurnError::Call(BoundedError { why: PutError::NoPath, evicted: left })));
    assert_eq!((handle.try_len(), handle.meter().counts().evictions), (Ok(8), 1));
    let why = PutIfAbsentError::Put(PutError::NoPath);
    let told = open().try_swap_if_absent_bounded(1024 * 9, 1, &[9]).unwrap_err();
    assert_eq!((&told, told.to_string().as_str()), (&TurnError::Call(BoundedError { why, evicted: left }), "no path"));
    let told = open().try_put_bounded(1024 * 9, 1, &[9]);
    assert_eq!(told, Err(TurnError::Call(BoundedError { why: PutError::NoPath, evicted: Some(1) })));
    let told = open().try_put_if_absent_bounded(1024 * 9, 1, &[9]);
    assert_eq!(told, Err(TurnError::Call(BoundedError { why, evicted: Some(1) })));
}
