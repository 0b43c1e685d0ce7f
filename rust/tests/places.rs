//! A look at each place of the table shows each entry once.
use cefrodil::{Cache, Entry, Handle, Held, Mix, Shape};
use std::error::Error;

type Tested = Result<(), Box<dyn Error>>;

// Keys that are not mixed are in the second shard if they have this bit.
const BIT: u64 = 1 << 48;

fn round(handle: &mut Handle<2>, near: u64, items: u32) -> Result<Vec<Entry<2>>, Held> {
    (0..items).filter_map(|item| handle.try_entry_at(near, item).transpose()).collect()
}

#[test]
fn a_round_of_each_shard_shows_all_entries() -> Tested {
    let shape = Shape { mix: Mix::None, ..Shape::for_items(40, 2)? };
    let mut handles = Cache::<2>::open(&shape, 2, 2)?;
    for key in [1, BIT + 1, 2, 3, BIT + 2] {
        handles[0].try_put(key, &[key, 10 * key])?;
    }
    handles[0].try_remove(2)?;
    let entry = |key, since| Entry { key, value: [key, 10 * key], since };
    let mut shown = [round(&mut handles[1], 77, shape.items)?, round(&mut handles[1], BIT + 77, shape.items)?];
    shown.iter_mut().for_each(|shard| shard.sort_by_key(|entry| entry.key));
    assert_eq!(shown, [vec![entry(1, 1), entry(3, 3)], vec![entry(BIT + 1, 1), entry(BIT + 2, 2)]]);
    assert_eq!((handles[0].try_entry_at(0, shape.items)?, handles[0].try_entry_at(0, u32::MAX)?), (None, None));
    Ok(())
}

#[test]
fn a_handle_that_holds_looks_at_places_and_others_are_held() -> Tested {
    let shape = Shape::for_items(20, 1)?;
    let mut handles = Cache::<2>::open(&shape, 1, 2)?;
    handles[0].try_put(7, &[70, 71])?;
    let [one, other] = &mut handles[..] else { unreachable!() };
    let mut writing = one.hold()?;
    let shown: Vec<_> = (0..shape.items).filter_map(|item| writing.entry_at(0, item)).collect();
    assert_eq!(shown, [Entry { key: 7, value: [70, 71], since: 1 }]);
    assert_eq!(other.try_entry_at(0, 0), Err(Held));
    Ok(())
}
