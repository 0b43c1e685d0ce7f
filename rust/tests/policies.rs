//! Which key gives way, by each policy. A cache keeps its policy, whichever of its handles makes a call.
use cefrodil::{Cache, Handle, OpenError, Policy, Put, Shape};
use std::error::Error;

type Tested = Result<(), Box<dyn Error>>;

// Key 2 is used once, before key 6 is put. Here are the keys that give way to keys 5 to 11, one to each. With CLOCK the hand comes round to
// key 2.
const GIVE_WAY: [(Policy, [u64; 7]); 2] =
    [(Policy::ScanResistant, [1, 3, 4, 5, 6, 7, 8]), (Policy::Clock, [1, 3, 4, 2, 5, 6, 7])];

fn shape_of(policy: Policy) -> Result<Shape, OpenError> {
    Ok(Shape { policy, ..Shape::for_items(4, 1)? })
}

// Puts a key by one of the two handles, which may hold meanwhile.
fn put(handles: &mut Vec<Handle<1>>, key: u64) -> Result<Put, Box<dyn Error>> {
    Ok(match key % 4 {
        0 => handles[0].try_put(key, &[key])?,
        1 => handles[1].try_put(key, &[key])?,
        2 => handles[0].hold()?.put(key, &[key])?,
        _ => {
            let mut writing = handles.remove(1).into_writing()?;
            let put = writing.put(key, &[key])?;
            handles.push(writing.into_handle());
            put
        }
    })
}

// The keys that give way to those from this one on, to 11.
fn evicted_from(first: u64, handles: &mut Vec<Handle<1>>) -> Result<Vec<u64>, Box<dyn Error>> {
    let mut all = Vec::new();
    for key in first..=11 {
        if key == 6 {
            assert_eq!(handles[1].get(2).value(), Some([2]));
        }
        if let Put::Stored { evicted: Some(evicted), .. } = put(handles, key)? {
            all.push(evicted);
        }
    }
    Ok(all)
}

#[test]
fn a_key_that_was_used_stays_while_new_keys_come_and_go_unless_clock_is_asked_for() -> Tested {
    for (policy, expected) in GIVE_WAY {
        let mut handles = Cache::<1>::open(&shape_of(policy)?, 1, 1)?;
        let mut later = handles[0].more(1)?;
        handles.append(&mut later);
        assert_eq!(evicted_from(1, &mut handles)?, expected, "{policy:?}");
    }
    Ok(())
}

#[test]
fn a_cache_with_the_entries_of_another_goes_by_its_own_shape() -> Tested {
    for (policy, expected) in GIVE_WAY {
        let mut full = Cache::<1>::open(&Shape::for_items(4, 1)?, 1, 1)?;
        for key in 1..=4 {
            full[0].try_put(key, &[key])?;
        }
        let mut entries = full[0].try_entries()?;
        entries.sort_unstable();
        let mut opened = Cache::<1>::open_with(&shape_of(policy)?, 1, 2, &entries)?;
        assert_eq!(opened.left, []);
        assert_eq!(evicted_from(5, &mut opened.handles)?, expected, "{policy:?}");
    }
    Ok(())
}

#[test]
fn the_one_key_of_a_small_cache_gives_way_by_each_policy() -> Tested {
    for (policy, _) in GIVE_WAY {
        let mut handles = Cache::<1>::open(&Shape { items: 1, ..shape_of(policy)? }, 1, 1)?;
        handles[0].try_put(1, &[1])?;
        for key in 2..9 {
            assert_eq!(handles[0].get(key - 1).value(), Some([key - 1]));
            assert_eq!(handles[0].try_put(key, &[key])?, Put::Stored { at: 2 * key - 1, moves: 0, evicted: Some(key - 1) });
        }
    }
    Ok(())
}
