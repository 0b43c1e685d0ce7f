//! Entries that have ended leave while calls put, a few with each put.
use crate::bound::SHARD;
use crate::core::Core;
use crate::handle::Index;
use crate::words::MOST;
use cefrodil::Entry;
use std::sync::atomic::{AtomicU32, Ordering::Relaxed};

/// So many places of its shard a put looks at.
const PLACES: u32 = 2;

/// Where puts look next, in each shard.
pub(crate) struct Cursors {
    // For so many entries each shard has places.
    items: u32,
    shards: Box<[Cursor]>,
}

/// It has a cache line of its own. Relaxed: any place will do.
#[repr(align(64))]
struct Cursor(AtomicU32);

impl Cursors {
    /// Of so many shards, a power of two, which have room for so many entries together.
    pub fn new(room: usize, shards: u32) -> Cursors {
        Cursors { items: room as u32 / shards, shards: (0..shards).map(|_| Cursor(AtomicU32::new(0))).collect() }
    }

    fn next(&self, hash: u64) -> impl Iterator<Item = u32> {
        let shard = (hash >> SHARD) as usize & (self.shards.len() - 1);
        let (first, items) = (self.shards[shard].0.fetch_add(PLACES, Relaxed), self.items);
        (0..PLACES).map(move |place| first.wrapping_add(place) % items)
    }
}

impl<H: Index + 'static, V> Core<H, V> {
    /// Whether entries of this map may end by their time.
    #[inline]
    pub fn has_times(&self) -> bool {
        self.cursors.is_some()
    }

    /// Before a put of a key with this hash: shows `take` the entries of the next places of its shard. The key's own is not shown: the put replaces it. If
    /// other threads have the turn, there are none.
    pub fn look_for_ended(&self, hash: u64, take: impl FnMut(Entry<MOST>)) {
        let places = self.cursors.iter().flat_map(|cursors| cursors.next(hash));
        let entries = places.filter_map(|item| self.slots.call(|handle| handle.entry_at(hash, item)));
        entries.filter(|entry| entry.key != hash).for_each(take);
    }
}
