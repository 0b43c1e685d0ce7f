//! A list of a cache that is full has all its entries.
use cefrodil::{Cache, Shape};
use std::error::Error;

type Tested = Result<(), Box<dyn Error>>;

/// The keys of a list, in order.
fn keys<T>(list: Vec<T>, key: impl Fn(&T) -> u64) -> Vec<u64> {
    let mut keys: Vec<u64> = list.iter().map(key).collect();
    keys.sort_unstable();
    keys
}

#[test]
fn a_list_of_a_full_cache_has_each_entry() -> Tested {
    for items in [1, 64, 1_000] {
        let expected: Vec<u64> = (0..u64::from(items)).collect();
        let mut handles = Cache::<2>::open(&Shape::for_items(items, 1)?, 1, 1)?;
        let mut writing = handles[0].hold()?;
        for key in &expected {
            writing.put(*key, &[0; 2])?;
        }
        assert_eq!((writing.len(), writing.capacity()), (items as usize, items as usize));
        assert_eq!(keys(writing.entries()?, |(key, _)| *key), expected);
        drop(writing);
        assert_eq!(keys(handles[0].try_entries()?, |(key, _)| *key), expected);
    }
    Ok(())
}

#[test]
fn a_list_with_stamps_of_a_full_cache_has_each_entry() -> Tested {
    for items in [1, 64, 1_000] {
        let expected: Vec<u64> = (0..u64::from(items)).collect();
        let mut handles = Cache::<2>::open(&Shape::for_items(items, 1)?, 1, 1)?;
        for key in &expected {
            handles[0].try_put(*key, &[0; 2])?;
        }
        assert_eq!(keys(handles[0].hold()?.stamped_entries()?, |entry| entry.key), expected);
        assert_eq!(keys(handles[0].try_stamped_entries()?, |entry| entry.key), expected);
    }
    Ok(())
}

#[test]
fn a_list_of_full_shards_has_each_entry() -> Tested {
    let mut handles = Cache::<1>::open(&Shape::for_items(200, 4)?, 4, 1)?;
    // So many keys that each shard is full.
    for key in 0..5_000 {
        handles[0].try_put(key, &[key])?;
    }
    let most = handles[0].capacity();
    assert_eq!((handles[0].try_len()?, handles[0].try_entries()?.len()), (most, most));
    assert_eq!(handles[0].hold()?.entries()?.len(), most);
    Ok(())
}
