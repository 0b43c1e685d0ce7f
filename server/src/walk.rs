//! Looks at all items, in the order in which they lie in memory.
use crate::item::Item;
use crate::places;
use crate::slabs;

/// How many items that lie in no chunk are looked at together.
const PART: usize = 64;

/// A walk begins at position 0. Up to this one, positions are the numbers of chunks; from it on they are places.
const PLACES: usize = 1 << 62;

/// Calls `each` with the items of one chunk, or with some that lie in none. None of them is freed meanwhile, and `each` must not free one. Not all of
/// them are in the index. Returns where the walk goes on. `None`: these were the last.
pub fn look(position: usize, mut each: impl FnMut(&Item)) -> Option<usize> {
    match position.checked_sub(PLACES) {
        None if slabs::look_in(position, &mut each) => Some(position + 1),
        None => Some(PLACES),
        Some(first) => places::look(first, PART, each).then_some(position + PART),
    }
}
