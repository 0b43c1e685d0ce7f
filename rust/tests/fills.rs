//! A fill whose value was read before its key was changed in the store is refused, and the cache does not return to the old value.
use cefrodil::{
    Cache, FillError, Filler, Handle, Mix, Policy, PutError, PutIfError, Removal, Reply, Shape, Spent, Ticket, Tickets, TurnError,
};
use std::error::Error;

type Tested = Result<(), Box<dyn Error>>;

fn filler(changes: usize) -> Result<(Filler<1>, Tickets, Handle<1>), Box<dyn Error>> {
    let mut handles = Cache::<1>::open(&Shape::for_items(100, 1)?, 1, 2)?;
    let filler = Filler::new(handles.remove(0).into_writing()?, changes);
    let tickets = filler.tickets();
    Ok((filler, tickets, handles.remove(0)))
}

#[test]
fn a_lost_update_is_refused() -> Tested {
    let (mut filler, tickets, mut reader) = filler(10)?;
    let mut store = 10;
    // One thread misses the key and reads the store. Another changes the store and removes the key.
    assert_eq!(reader.get(1), Reply::Absent { at: 0 });
    let (ticket, read) = (tickets.take(), store);
    store += 1;
    assert_eq!(filler.remove(1)?, Removal::NotThere { at: 0 });
    assert_eq!(filler.fill(1, ticket, &[read]), Err(FillError::Stale));
    assert_eq!(reader.get(1), Reply::Absent { at: 0 });
    // Who reads the store now has its value put. Who read it as well does not put it again.
    filler.fill(1, tickets.clone().take(), &[store])?;
    assert_eq!(reader.get(1), Reply::Found { value: [11], at: 1, since: 1 });
    assert_eq!(filler.fill(1, tickets.take(), &[store]), Err(FillError::Present { since: 1 }));
    Ok(())
}

#[test]
fn a_put_that_has_gone_again_is_a_change() -> Tested {
    let (mut filler, tickets, mut reader) = filler(10)?;
    let ticket = tickets.take();
    filler.put(1, &[11])?;
    assert_eq!(reader.get(1).value(), Some([11]));
    filler.writing().remove(1)?;
    assert_eq!(filler.fill(1, ticket, &[10]), Err(FillError::Stale));
    filler.fill(2, ticket, &[20])?;
    // What the holder does by itself is no change of the store.
    filler.writing().remove(2)?;
    filler.fill(2, ticket, &[20])?;
    assert_eq!(reader.get(2).value(), Some([20]));
    assert_eq!(filler.into_writing().len(), 1);
    Ok(())
}

// The store has changed though the cache had no place for the new value. An older one must not come into the cache.
#[test]
fn a_put_that_finds_no_place_is_a_change() -> Tested {
    let shape = Shape { buckets: 2, items: 8, stripes: 1, ..Shape::for_items(8, 1)? };
    let mut filler = Filler::new(Cache::<1>::open(&shape, 1, 1)?.remove(0).into_writing()?, 100);
    let tickets = filler.tickets();
    let (ticket, old, new) = (tickets.take(), [10], [11]);
    let refused = (0..20).find(|key| filler.put(*key, &new) == Err(PutError::NoPath)).ok_or("each key has a place")?;
    (0..20).try_for_each(|key| filler.writing().remove(key).map(drop))?;
    assert_eq!(filler.fill(refused, ticket, &old), Err(FillError::Stale));
    filler.fill(refused, tickets.take(), &new)?;
    Ok(())
}

// `known` changes are known. A fill that is older than all of them is refused, whatever its key is.
fn knows(changes: usize, known: u64) -> Tested {
    let (mut filler, tickets, _reader) = filler(changes)?;
    let oldest = tickets.take();
    for n in 0..known {
        filler.remove(50 + n)?;
        assert!((50..=50 + n).all(|changed| filler.fill(changed, oldest, &[1]) == Err(FillError::Stale)));
        filler.fill(n, oldest, &[1])?;
    }
    let newer = tickets.take();
    assert_ne!(newer, oldest);
    filler.remove(7)?;
    assert_eq!(filler.fill(30, oldest, &[1]), Err(FillError::Stale));
    filler.fill(30, newer, &[1])?;
    assert_eq!(filler.fill(7, newer, &[1]), Err(FillError::Stale));
    filler.fill(7, tickets.take(), &[1])?;
    Ok(())
}

#[test]
fn so_many_changes_are_known() -> Tested {
    knows(3, 3)?;
    knows(1, 1)?;
    knows(0, 1)
}

#[test]
fn a_ticket_of_another_filler_is_stale() -> Tested {
    let (mut one, tickets, _reader) = filler(10)?;
    let (mut other, _, _) = filler(10)?;
    one.remove(1)?;
    let ticket: Ticket = tickets.take();
    assert_eq!(other.fill(2, ticket, &[1]), Err(FillError::Stale));
    Ok(())
}

#[test]
fn a_fill_that_is_refused_says_why() -> Tested {
    let shape =
        Shape { limit: 0, buckets: 4, items: 16, stripes: 1, depth: 2, tries: 2, mix: Mix::None, policy: Policy::ScanResistant };
    let mut filler = Filler::new(Cache::<1>::open(&shape, 1, 1)?.remove(0).into_writing()?, 1);
    let ticket = filler.tickets().take();
    assert_eq!(filler.fill(1, ticket, &[1]), Err(FillError::Put(PutError::Spent)));
    assert_eq!((filler.put(1, &[1]), filler.remove(1)), (Err(PutError::Spent), Err(Spent)));
    assert_eq!(FillError::Stale.to_string(), "the store may have changed since the value was read");
    assert_eq!(FillError::Present { since: 2 }.to_string(), "present since 2");
    assert_eq!(FillError::Put(PutError::NoPath).to_string(), "no path");
    assert_eq!(format!("{filler:?}"), "Filler { .. }");
    Ok(())
}

// If many threads write, a fill needs no filler: a thread that misses a key first puts a mark, and then its value in place of that mark alone.
#[test]
fn a_mark_is_filled_once() -> Tested {
    const MARK: [u64; 1] = [u64::MAX];
    let mut handles = Cache::<1>::open(&Shape::for_items(100, 1)?, 1, 2)?;
    let (mut one, mut two) = (handles.remove(0), handles.remove(0));
    let mut store = 10;
    let mark = one.try_put_if_absent(1, &MARK)?.at();
    let read = store;
    store += 1;
    two.try_remove(1)?;
    assert!(matches!(one.try_put_if(1, mark, &[read]), Err(TurnError::Call(PutIfError::NotThere { .. }))));
    let mark = two.try_put_if_absent(1, &MARK)?.at();
    assert_eq!(one.get(1).value(), Some(MARK));
    two.try_put_if(1, mark, &[store])?;
    assert_eq!(one.get(1).value(), Some([11]));
    Ok(())
}
