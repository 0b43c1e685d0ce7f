use cefrodil::{
    Cache, Entry, Handle, Mix, OpenError, Policy, Put, PutIfAbsentError, PutIfError, Removal, Reply, Shape, Take, TurnError,
    Value, Why,
};
use std::error::Error;
use std::thread;

type Tested = Result<(), Box<dyn Error>>;

// A cache of one shard with so many handles to look up, and one that may hold.
fn opened<const WORDS: usize>(items: u32, readers: usize) -> Result<(Handle<WORDS>, Vec<Handle<WORDS>>), OpenError>
where
    [u64; WORDS]: Value,
{
    let mut handles = Cache::<WORDS>::open(&Shape::for_items(items, 1)?, 1, 1 + readers)?;
    Ok((handles.remove(0), handles))
}

fn is_send<T: Send>(_: &T) {}

#[test]
fn each_call_answers() -> Tested {
    let (mut one, mut readers) = opened::<2>(100, 1)?;
    let mut writing = one.hold()?;
    assert_eq!(readers[0].get(1), Reply::Absent { at: 0 });
    assert_eq!(writing.put(1, &[2, 3])?, Put::Stored { at: 1, moves: 0, evicted: None });
    assert_eq!(writing.put(1, &[2, 4])?, Put::Renewed { at: 2 });
    assert_eq!(readers[0].get(1), Reply::Found { value: [2, 4], at: 2, since: 2 });
    assert_eq!(writing.put_if(1, 1, &[0, 0]), Err(PutIfError::Changed { since: 2 }));
    assert_eq!(writing.put_if(9, 1, &[0, 0]), Err(PutIfError::NotThere { at: 2 }));
    assert_eq!(writing.put_if(1, 2, &[2, 5])?, 3);
    assert_eq!(writing.put_if_absent(1, &[0, 0]), Err(PutIfAbsentError::Present { since: 3 }));
    assert_eq!(writing.remove(1)?, Removal::Removed { at: 4 });
    assert_eq!(writing.remove(1)?, Removal::NotThere { at: 4 });
    assert_eq!(writing.put_if_absent(1, &[6, 7])?, Put::Stored { at: 5, moves: 0, evicted: None });
    is_send(&writing);
    is_send(&readers[0]);
    Ok(())
}

#[test]
fn a_holder_looks_up_counts_and_lists() -> Tested {
    let (mut one, mut readers) = opened::<2>(100, 1)?;
    let mut writing = one.hold()?;
    assert!(writing.is_empty() && writing.capacity() == 100 && writing.moment() == 0 && writing.entries()?.is_empty());
    for key in 0..60 {
        writing.put(key, &[key, 2 * key])?;
    }
    writing.remove(7)?;
    assert_eq!((writing.len(), writing.moment()), (59, 61));
    assert!(!writing.is_empty());
    assert_eq!(writing.get(7), Reply::Absent { at: 61 });
    assert_eq!(writing.get(8), Reply::Found { value: [8, 16], at: 61, since: 9 });
    let mut entries = writing.entries()?;
    entries.sort_unstable();
    let expected: Vec<_> = (0..60).filter(|key| *key != 7).map(|key| (key, [key, 2 * key])).collect();
    assert_eq!(entries, expected);
    assert_eq!(readers[0].get(8), writing.get(8));
    assert_eq!(readers[0].capacity(), 100);
    Ok(())
}

#[test]
fn a_list_has_stamps() -> Tested {
    let (mut one, mut readers) = opened::<2>(100, 1)?;
    let mut writing = one.hold()?;
    assert!(writing.stamped_entries()?.is_empty());
    for n in 0..60 {
        writing.put(n % 40, &[n, 2 * n])?;
    }
    let entries = writing.stamped_entries()?;
    assert_eq!(entries.len(), 40);
    for Entry { key, value, since } in entries {
        assert_eq!(readers[0].get(key), Reply::Found { value, at: 60, since });
        assert_eq!(since, if key < 20 { key + 41 } else { key + 1 });
    }
    Ok(())
}

#[test]
fn a_handle_lists_stamps() -> Tested {
    for shards in [1, 8] {
        let mut handles = Cache::<1>::open(&Shape::for_items(500, shards)?, shards, 1)?;
        assert_eq!(handles[0].try_stamped_entries(), Ok(Vec::new()));
        handles[0].try_put(7, &[70])?;
        handles[0].try_put(7, &[71])?;
        assert_eq!(handles[0].try_stamped_entries(), Ok(vec![Entry { key: 7, value: [71], since: 2 }]));
    }
    Ok(())
}

#[test]
fn a_handle_counts_keys_and_changes() -> Tested {
    for shards in [1, 8] {
        let mut handles = Cache::<1>::open(&Shape::for_items(500, shards)?, shards, 1)?;
        for key in 0..300 {
            assert_eq!((handles[0].try_len(), handles[0].try_moment()), (Ok(key as usize), Ok(key)));
            handles[0].try_put(key, &[key])?;
        }
        handles[0].try_put(7, &[8])?;
        handles[0].try_remove(9)?;
        assert_eq!((handles[0].try_len(), handles[0].try_moment()), (Ok(299), Ok(302)));
    }
    Ok(())
}

#[test]
fn a_handle_lists() -> Tested {
    for shards in [1, 8] {
        let shape = Shape::for_items(500, shards)?;
        let mut handles = Cache::<2>::open(&shape, shards, 1)?;
        assert_eq!(handles[0].capacity(), (shards * shape.items) as usize);
        assert_eq!(handles[0].try_entries(), Ok(Vec::new()));
        let expected: Vec<_> = (0..50).map(|key| (key, [key, 3])).collect();
        for (key, value) in &expected {
            handles[0].try_put(*key, value)?;
        }
        let mut entries = handles[0].try_entries()?;
        entries.sort_unstable();
        assert_eq!(entries, expected);
    }
    Ok(())
}

#[test]
fn many_keys_are_looked_up() -> Tested {
    let (mut writing, mut readers) = opened::<3>(100, 1)?;
    for key in 0..50 {
        writing.try_put(2 * key, &[key; 3])?;
    }
    // More than one call of the archive takes.
    let keys: Vec<u64> = (0..77).collect();
    let mut replies = [Reply::Busy; 77];
    readers[0].get_many(&keys, &mut replies);
    for (key, reply) in (0..77).zip(replies) {
        let expected = if key % 2 == 0 {
            Reply::Found { value: [key / 2; 3], at: 50, since: key / 2 + 1 }
        } else {
            Reply::Absent { at: 50 }
        };
        assert_eq!(reply, expected);
    }
    readers[0].get_many(&[], &mut []);
    writing.hold()?.get_many(&[9, 8], &mut replies[..2]);
    assert_eq!(replies[..2], [Reply::Absent { at: 50 }, Reply::Found { value: [4; 3], at: 50, since: 5 }]);
    Ok(())
}

#[test]
#[should_panic(expected = "as many replies as keys")]
fn replies_are_missing() {
    let (mut handle, _) = opened::<1>(100, 0).expect("a cache");
    handle.get_many(&[1, 2], &mut [Reply::Busy]);
}

#[test]
fn entries_are_loaded() -> Tested {
    let shape = Shape {
        buckets: 2,
        items: 8,
        stripes: 1,
        depth: 2,
        tries: 2,
        limit: 1 << 62,
        mix: Mix::None,
        policy: Policy::ScanResistant,
    };
    let entries: Vec<(u64, [u64; 2])> = [0, 4, 8, 12, 16, 20, 24, 28, 2].iter().map(|key| (*key, [*key, key + 1])).collect();
    let mut opened = Cache::<2>::open_with(&shape, 1, 2, &entries)?;
    assert_eq!(opened.left, [(8, Why::NoPath)]);
    assert_eq!(opened.handles[1].get(28), Reply::Found { value: [28, 29], at: 8, since: 8 });
    assert_eq!(opened.handles[0].get(2), Reply::Absent { at: 8 });
    assert_eq!(opened.handles[0].try_put(28, &[0, 0])?, Put::Renewed { at: 9 });
    let opened = Cache::<2>::open_with(&Shape { limit: 10, buckets: 4, ..shape }, 1, 1, &entries[..3])?;
    assert_eq!(opened.left, [(2, Why::Spent)]);
    assert_eq!(opened.handles.len(), 1);
    assert!(Cache::<2>::open_with(&shape, 1, 1, &[])?.left.is_empty());
    assert_eq!(Cache::<2>::open_with(&shape, 1, 0, &entries).err(), Some(OpenError::Handles));
    assert_eq!(Cache::<2>::open_with(&Shape { items: 0, ..shape }, 1, 0, &entries).err(), Some(OpenError::Items));
    Ok(())
}

#[test]
fn openings_are_refused() -> Result<(), OpenError> {
    let shape = Shape::for_items(500, 8)?;
    assert_eq!(Shape::for_items(500, 3), Err(OpenError::Shards));
    assert_eq!(Shape::for_items(0, 8), Err(OpenError::Items));
    assert_eq!(Cache::<1>::open(&shape, 3, 0).err(), Some(OpenError::Shards));
    Ok(())
}

#[test]
fn threads_read_whole_values() -> Tested {
    let (mut one, readers) = opened::<4>(64, 3)?;
    let mut writing = one.hold()?;
    thread::scope(|threads| {
        for mut reader in readers {
            threads.spawn(move || {
                let mut last = 0;
                for n in 0..200_000u64 {
                    if let Reply::Found { value, at, since } = reader.get(n % 64) {
                        assert!(value[0] % 64 == n % 64 && value == [value[0]; 4]);
                        assert!(last <= at && since <= at);
                        last = at;
                    }
                }
            });
        }
        for n in 0..200_000u64 {
            let _ = writing.put(n % 64, &[n; 4]);
        }
    });
    Ok(())
}

#[test]
fn threads_take_turns() -> Tested {
    let mut handles = Cache::<1>::open(&Shape::for_items(10, 1)?, 1, 3)?;
    handles[0].try_put(7, &[0])?;
    thread::scope(|threads| {
        for handle in &mut handles {
            threads.spawn(|| {
                for _ in 0..5000 {
                    add_one(handle);
                }
            });
        }
    });
    assert!(matches!(handles[0].get_or_turn(7), Reply::Found { value: [15_000], .. }));
    assert!(matches!(handles[0].try_remove(7)?, Removal::Removed { .. }));
    Ok(())
}

#[test]
fn a_cache_that_was_opened_with_entries_is_written() -> Tested {
    let mut opened = Cache::<2>::open_with(&Shape::for_items(100, 1)?, 1, 3, &[(7, [70, 71])])?;
    let [one, two, three] = &mut opened.handles[..] else { unreachable!() };
    assert_eq!(one.get(7), Reply::Found { value: [70, 71], at: 1, since: 1 });
    assert_eq!(one.try_put(8, &[80, 81])?, Put::Stored { at: 2, moves: 0, evicted: None });
    assert_eq!(two.try_len(), Ok(2));
    assert_eq!(three.get(8), Reply::Found { value: [80, 81], at: 2, since: 2 });
    // One holds, and then all try again.
    let mut writing = two.hold()?;
    assert!(matches!(writing.put(9, &[90, 91])?, Put::Stored { at: 3, .. }));
    drop(writing);
    assert_eq!(three.try_take(9)?, Take::Taken { at: 4, old: Entry { key: 9, value: [90, 91], since: 3 } });
    assert_eq!(one.get(9), Reply::Absent { at: 4 });
    Ok(())
}

#[test]
fn each_call_by_shards_answers() -> Tested {
    let mut handles = Cache::<2>::open(&Shape::for_items(500, 8)?, 8, 2)?;
    let (one, others) = handles.split_first_mut().ok_or("no handle")?;
    is_send(one);
    assert_eq!(one.get(1), Reply::Absent { at: 0 });
    assert_eq!(one.try_put(1, &[2, 3])?, Put::Stored { at: 1, moves: 0, evicted: None });
    assert_eq!(others[0].put_within(10, 1, &[2, 4])?, Put::Renewed { at: 2 });
    assert_eq!(one.get(1), Reply::Found { value: [2, 4], at: 2, since: 2 });
    assert_eq!(one.get_or_turn(1), Reply::Found { value: [2, 4], at: 2, since: 2 });
    assert_eq!(one.try_put_if(1, 1, &[0, 0]), Err(TurnError::Call(PutIfError::Changed { since: 2 })));
    assert_eq!(one.try_put_if(1, 2, &[2, 5])?, 3);
    let mut replies = [Reply::Busy; 2];
    one.get_many(&[9, 1], &mut replies);
    assert!(matches!(replies, [Reply::Absent { .. }, Reply::Found { value: [2, 5], at: 3, since: 3 }]));
    assert_eq!(others[0].try_remove(1)?, Removal::Removed { at: 4 });
    assert_eq!(others[0].try_remove(1)?, Removal::NotThere { at: 4 });
    Ok(())
}

#[test]
fn threads_write_to_shards() -> Tested {
    let mut handles = Cache::<1>::open(&Shape::for_items(1000, 16)?, 16, 4)?;
    handles[0].put_within(1, 7, &[0])?;
    let mut last = handles.pop().ok_or("no handle")?;
    let threads: Vec<_> = handles
        .into_iter()
        .map(|mut handle| {
            thread::spawn(move || {
                for n in 0..5000 {
                    add_one(&mut handle);
                    let _ = handle.put_within(20, 1000 + n % 500, &[n]);
                }
            })
        })
        .collect();
    for thread in threads {
        thread.join().map_err(|_| "a thread panicked")?;
    }
    while last.get_or_turn(7) == Reply::Busy {}
    assert!(matches!(last.get(7), Reply::Found { value: [15_000], .. }));
    Ok(())
}

#[test]
fn entries_are_loaded_into_shards() -> Tested {
    let entries: Vec<(u64, [u64; 2])> = (0..500).map(|key| (key, [key, key + 1])).collect();
    let opened = Cache::<2>::open_with(&Shape::for_items(500, 8)?, 8, 3, &entries)?;
    assert_eq!((opened.handles.len(), opened.left), (3, vec![]));
    for mut handle in opened.handles {
        for (key, value) in &entries {
            assert_eq!(handle.get(*key).value(), Some(*value));
        }
    }
    Ok(())
}

// Keys are not mixed, so their bits 48 and up choose the shard. Each shard has two items.
#[test]
fn entries_that_find_no_place_in_their_shard_are_left() -> Tested {
    const OTHER: u64 = 1 << 48;
    let small = Shape {
        buckets: 4,
        items: 2,
        stripes: 1,
        depth: 2,
        tries: 2,
        limit: 1 << 62,
        mix: Mix::None,
        policy: Policy::ScanResistant,
    };
    let entries = [(1, [11]), (2, [12]), (3, [13]), (OTHER, [21]), (1, [14]), (4, [15])];
    let mut opened = Cache::<1>::open_with(&small, 2, 2, &entries)?;
    assert_eq!(opened.left, [(2, Why::NoItem), (5, Why::NoItem)]);
    for handle in &mut opened.handles {
        assert_eq!(handle.get(1), Reply::Found { value: [14], at: 3, since: 3 });
        assert_eq!(handle.get(OTHER), Reply::Found { value: [21], at: 1, since: 1 });
        assert_eq!(handle.get(3), Reply::Absent { at: 3 });
    }
    let spent = Cache::<1>::open_with(&Shape { limit: 10, items: 16, ..small }, 2, 1, &entries[..4])?;
    assert_eq!(spent.left, [(2, Why::Spent)]);
    assert_eq!(Cache::<1>::open_with(&small, 3, 0, &entries).err(), Some(OpenError::Shards));
    assert_eq!(Cache::<1>::open_with(&Shape { items: 0, ..small }, 2, 0, &entries).err(), Some(OpenError::Items));
    assert_eq!(Cache::<1>::open_with(&small, 2, 0, &entries).err(), Some(OpenError::Handles));
    assert_eq!(Cache::<1>::open_with(&small, 2, 1, &[])?.left, []);
    Ok(())
}

// Puts one more, if nobody has put since.
fn add_one(handle: &mut Handle<1>) {
    loop {
        if let Reply::Found { value: [count], since, .. } = handle.get(7) {
            match handle.try_put_if(7, since, &[count + 1]) {
                Ok(_) => return,
                Err(TurnError::Held | TurnError::Call(PutIfError::Changed { .. })) => {}
                Err(why) => panic!("{why}"),
            }
        }
        thread::yield_now();
    }
}

// A value of `WORDS` different words is put and found.
fn serves<const WORDS: usize>() -> Result<(), Box<dyn Error>>
where
    [u64; WORDS]: Value,
{
    let (mut one, mut readers) = opened::<WORDS>(100, 1)?;
    let mut writing = one.hold()?;
    let value = std::array::from_fn(|n| n as u64 + 70);
    assert_eq!(readers[0].get(7), Reply::Absent { at: 0 });
    assert!(matches!(writing.put(7, &value)?, Put::Stored { at: 1, .. }));
    assert_eq!(readers[0].get(7), Reply::Found { value, at: 1, since: 1 });
    assert_eq!(writing.get(7), Reply::Found { value, at: 1, since: 1 });
    let mut reply = Reply::Busy;
    readers[0].get_or_turn_into(7, &mut reply);
    assert_eq!(reply, Reply::Found { value, at: 1, since: 1 });
    Ok(())
}

#[test]
fn values_of_each_width_are_found() -> Tested {
    serves::<1>()?;
    serves::<2>()?;
    serves::<3>()?;
    serves::<4>()?;
    serves::<5>()?;
    serves::<6>()?;
    serves::<7>()?;
    serves::<8>()
}
