//! The addresses of items that lie in no chunk of small ones, so that all items can be found.
use crate::item::Item;
use crate::memory::may_fail;
use std::sync::{Mutex, MutexGuard, PoisonError};

/// What has no place.
pub const NONE: u32 = u32::MAX;

static PLACES: Mutex<Places> = Mutex::new(Places { all: Vec::new(), free: Vec::new() });

/// Each place has the address of an item, or 0 if it is free.
struct Places {
    all: Vec<usize>,
    /// The free places. Its capacity is that of `all` at least, so that it never grows when an item is freed.
    free: Vec<u32>,
}

fn places() -> MutexGuard<'static, Places> {
    PLACES.lock().unwrap_or_else(PoisonError::into_inner)
}

/// Gives the item a place. `None`: there is no memory for one.
pub fn take(item: &Item) -> Option<u32> {
    let (mut places, address) = (places(), item as *const Item as usize);
    if let Some(place) = places.free.pop() {
        places.all[place as usize] = address;
        return Some(place);
    }
    let (place, more) = (u32::try_from(places.all.len()).ok()?, places.all.len().max(1));
    if places.all.len() == places.all.capacity() {
        // In this order: if the second one is refused, the next call asks for it again.
        may_fail(|| places.free.try_reserve_exact(2 * more).and_then(|()| places.all.try_reserve_exact(more))).ok()?;
    }
    places.all.push(address);
    Some(place)
}

pub fn give_back(place: u32) {
    let mut places = places();
    places.all[place as usize] = 0;
    places.free.push(place);
}

/// Calls `each` with the items at so many places, from this one on. None of them is freed meanwhile, and `each` must not free one. Returns whether
/// there are places behind these.
pub fn look(first: usize, count: usize, mut each: impl FnMut(&Item)) -> bool {
    let places = places();
    for address in places.all.iter().skip(first).take(count).filter(|address| **address != 0) {
        // SAFETY: an item gives its place back before it is freed, which takes the lock. Of a complete item only atomic fields change.
        each(unsafe { &*(*address as *const Item) });
    }
    first + count < places.all.len()
}
