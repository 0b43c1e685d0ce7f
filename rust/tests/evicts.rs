//! Keys that are evicted without a put.
use cefrodil::{Cache, Entry, Evict, EvictError, Handle, Mix, Policy, Reply, Shape, TurnError};
use std::error::Error;

type Tested = Result<(), Box<dyn Error>>;

// The keys of a full cache in the order in which they give way. Key 2 was used, which CLOCK's hand forgets before it evicts.
const GIVE_WAY: [(Policy, [u64; 4]); 2] = [(Policy::ScanResistant, [1, 3, 4, 2]), (Policy::Clock, [1, 2, 3, 4])];

fn full(policy: Policy) -> Result<Vec<Handle<2>>, Box<dyn Error>> {
    let mut handles = Cache::<2>::open(&Shape { policy, ..Shape::for_items(4, 1)? }, 1, 2)?;
    for key in 1..=4 {
        handles[0].try_put(key, &[10 * key, key])?;
    }
    assert_eq!(handles[1].get(2), Reply::Found { value: [20, 2], at: 4, since: 2 });
    Ok(handles)
}

fn evicted(key: u64, at: u64) -> Evict<2> {
    Evict::Evicted { at, old: Entry { key, value: [10 * key, key], since: key } }
}

#[test]
fn a_full_cache_is_emptied_in_the_order_of_its_policy() -> Tested {
    for (policy, order) in GIVE_WAY {
        let mut handles = full(policy)?;
        for (key, at) in order.into_iter().zip(5..) {
            assert_eq!(handles[0].try_evict(9)?, evicted(key, at), "{policy:?}");
            assert_eq!(handles[1].get(key), Reply::Absent { at });
        }
        assert_eq!((handles[0].try_evict(1)?, handles[0].try_len()?), (Evict::Empty { at: 8 }, 0));
    }
    Ok(())
}

#[test]
fn a_handle_that_holds_evicts_and_others_are_held() -> Tested {
    for (policy, order) in GIVE_WAY {
        let mut handles = full(policy)?;
        let [one, other] = &mut handles[..] else { unreachable!() };
        let mut writing = one.hold()?;
        assert_eq!(writing.evict(0)?, evicted(order[0], 5));
        assert_eq!(other.try_evict(0), Err(TurnError::Held));
        assert_eq!((writing.evict(0)?, writing.len()), (evicted(order[1], 6), 2));
    }
    Ok(())
}

// Keys that are not mixed are in the second shard if they have this bit.
#[test]
fn the_shard_of_the_named_key_gives_one_up() -> Tested {
    const BIT: u64 = 1 << 48;
    let shape = Shape { mix: Mix::None, ..Shape::for_items(20, 2)? };
    let mut handles = Cache::<1>::open(&shape, 2, 1)?;
    for key in [1, BIT + 1, 2] {
        handles[0].try_put(key, &[key])?;
    }
    let entry = |key, since| Entry { key, value: [key], since };
    assert_eq!(handles[0].try_evict(BIT)?, Evict::Evicted { at: 2, old: entry(BIT + 1, 1) });
    assert_eq!(handles[0].try_evict(BIT + 7)?, Evict::Empty { at: 2 });
    assert_eq!(handles[0].hold()?.evict(BIT + 7)?, Evict::Empty { at: 2 });
    assert_eq!(handles[0].try_stamped_entries()?.len(), 2);
    assert_eq!(handles[0].try_evict(7)?, Evict::Evicted { at: 3, old: entry(1, 1) });
    Ok(())
}

// Without moves a put needs four version changes within the limit, and makes two. An eviction makes two.
#[test]
fn at_the_limit_nothing_is_evicted() -> Tested {
    for policy in [Policy::ScanResistant, Policy::Clock] {
        let shape = Shape { depth: 0, limit: 6, policy, ..Shape::for_items(20, 1)? };
        let mut handles = Cache::<1>::open(&shape, 1, 1)?;
        handles[0].try_put(1, &[10])?;
        handles[0].try_put(2, &[20])?;
        assert_eq!(handles[0].try_evict(0)?, Evict::Evicted { at: 3, old: Entry { key: 1, value: [10], since: 1 } });
        assert_eq!(handles[0].try_evict(0), Err(TurnError::Call(EvictError::Spent)));
        assert_eq!(handles[0].get(2), Reply::Found { value: [20], at: 3, since: 2 });
    }
    Ok(())
}
