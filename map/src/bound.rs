//! The bound on the number of entries, which may be less than there is room for, and evictions that no put of the index makes.
use crate::core::Core;
use crate::error::{CapacityError, RemoveError};
use crate::handle::{Bounded, Index};
use crate::map::Inserted;
use crate::stats::Kind;
use cefrodil::{BoundedError, EvictError, Put, TurnError};
use std::iter::repeat;
use std::sync::atomic::{fence, AtomicBool, AtomicUsize, Ordering::Relaxed, Ordering::SeqCst};

/// How many entries a map holds at most.
pub(crate) struct Bound {
    // Relaxed. A put that sees an older one leaves entries to the next put of a new key.
    most: AtomicUsize,
    // For how many entries the map was opened.
    room: usize,
    // Whether there were so many entries, and none has left since but for another one. Relaxed, as `most`.
    is_full: AtomicBool,
    shards: u32,
    // The shard that evicts next, if it is not that of a key. Relaxed: a guess.
    next: AtomicUsize,
}

/// An entry that was evicted. A `Map` has no use for it.
#[cfg_attr(not(feature = "objects"), allow(dead_code))]
pub(crate) struct Evicted {
    /// A hash of its shard.
    pub near: u64,
    /// The moment of the eviction.
    pub at: u64,
    /// The first word of its value in the index.
    pub word: u64,
}

/// The index takes a key's shard from the bits from this one on.
pub(crate) const SHARD: u32 = 48;

impl Bound {
    /// Of a map with so many shards. It is the room, so it bounds nothing.
    pub fn new(room: usize, shards: u32) -> Bound {
        Bound { most: AtomicUsize::new(room), room, is_full: AtomicBool::new(false), shards, next: AtomicUsize::new(0) }
    }

    pub fn most(&self) -> usize {
        self.most.load(Relaxed)
    }

    /// Changes it. Puts of new keys find out whether the map is full.
    pub fn set(&self, most: usize) {
        self.most.store(most, Relaxed);
        self.is_full.store(false, Relaxed);
    }

    /// Whether an entry is to leave for a new key.
    #[inline]
    pub fn is_full(&self) -> bool {
        self.is_full.load(Relaxed)
    }

    // Whether puts make room.
    fn is_below_room(&self) -> bool {
        self.most() < self.room
    }

    // A hash of each shard: first this one, or one of the next shard.
    fn shards_from(&self, hash: Option<u64>) -> impl Iterator<Item = u64> {
        let first = hash.unwrap_or_else(|| (self.next.fetch_add(1, Relaxed) as u64) << SHARD);
        (0..u64::from(self.shards)).map(move |shard| first.wrapping_add(shard << SHARD))
    }
}

impl<H: Index + 'static, V> Core<H, V> {
    /// Evicts an entry in the first of the shards of these hashes that has one and whose turn it gets: it tries each once, and then all again, so often.
    /// Counts it by its cause: `Evicted` is none. `None`: they are empty.
    pub fn evict<I: Iterator<Item = u64>>(
        &self,
        shards: impl Fn() -> I,
        tries: u32,
        cause: Kind,
    ) -> Result<Option<Evicted>, RemoveError> {
        let evicted = self.slots.within(tries, || self.evict_once(shards())).unwrap_or(Err(RemoveError::Held))?;
        if evicted.is_some() {
            self.count_left(Kind::Evicted, cause);
        }
        Ok(evicted)
    }

    // `None`: other threads had the turn of a shard, and those before it and after it are empty.
    fn evict_once(&self, shards: impl Iterator<Item = u64>) -> Option<Result<Option<Evicted>, RemoveError>> {
        let mut is_held = false;
        for near in shards {
            match self.slots.call(|handle| handle.evict(near)) {
                Ok(None) => {}
                Ok(Some((at, word))) => return Some(Ok(Some(Evicted { near, at, word }))),
                // Or lookups used all entries meanwhile. The next try may be quicker than they are.
                Err(TurnError::Held | TurnError::Call(EvictError::AllRecent)) => is_held = true,
                Err(TurnError::Call(_)) => return Some(Err(RemoveError::Spent)),
            }
        }
        (!is_held).then_some(Ok(None))
    }

    /// Counts an entry that has left, but not by a put of the index. So there is room for a new one.
    pub fn count_left(&self, whole: Kind, part: Kind) {
        self.slots.count_left(whole, part);
        if self.bound.is_below_room() {
            // Of this fence and that of a call that has just noted that the map is full, one is first. So that call sees the count, or this one the note.
            fence(SeqCst);
            if self.bound.is_full() {
                self.bound.is_full.store(false, Relaxed);
            }
        }
    }

    /// Counts what left for the bound by this put of the index, which did what `done` says. If the put failed, calls `lost` with what left.
    pub fn bounded<P, L, E>(
        &self,
        put: Bounded<P, L, E>,
        done: impl FnOnce(&P) -> Put,
        lost: impl FnOnce(L),
    ) -> Result<P, TurnError<E>> {
        if let Ok(Put::Stored { evicted: Some(_), .. }) = put.as_ref().map(done) {
            self.slots.count(Kind::EvictedByCapacity);
        }
        put.map_err(|why| match why {
            TurnError::Held => TurnError::Held,
            TurnError::Call(BoundedError { why, evicted }) => {
                evicted.inspect(|_| self.count_left(Kind::Evicted, Kind::EvictedByCapacity)).map(lost);
                TurnError::Call(why)
            }
        })
    }

    /// After a put under this hash that did this, and was counted: if there are too many entries then, evicts others. Returns what the put did with that.
    #[inline]
    pub fn keep_bound(&self, did: Inserted, hash: u64, tries: u32, left: impl FnMut(Evicted)) -> Inserted {
        if did == Inserted::New && self.bound.is_below_room() && self.evict_above(hash, tries, left) {
            Inserted::Evicted
        } else {
            did
        }
    }

    // If other threads have turns that it needs, a later put does this. Returns whether it evicted some.
    #[inline(never)]
    fn evict_above(&self, hash: u64, tries: u32, left: impl FnMut(Evicted)) -> bool {
        // Of threads that put at the same time, the last one sees what all have counted.
        fence(SeqCst);
        // The new key's shard comes last.
        let next = hash.wrapping_add(1 << SHARD);
        self.slots.entries() >= self.bound.most() && self.evict_to_bound(repeat(Some(next)), tries, left).0
    }

    /// Changes the bound, and evicts what is too much.
    pub fn set_capacity(&self, most: usize, left: impl FnMut(Evicted)) -> Result<(), CapacityError> {
        if !(1..=self.bound.room).contains(&most) {
            return Err(self.refused(CapacityError::Range));
        }
        self.bound.set(most);
        // So each shard keeps its part. Without memory for a list, each loses the same number.
        let hashes = self.list(self.tries, Index::keys).unwrap_or_default();
        let excess = hashes.len().saturating_sub(most);
        let spread = (0..excess).map(|number| Some(hashes[number * hashes.len() / excess])).chain(repeat(None));
        self.evict_to_bound(spread, self.tries, left).1.map_err(|why| self.refused(CapacityError::Evict(why)))
    }

    // Evicts until the entries are within the bound: each in the shard of the next hash, if there is one, or in a later shard. It looks before each
    // eviction, since other threads may evict the same excess. Notes whether the map is full then. Returns whether it evicted some, and why no more.
    fn evict_to_bound(
        &self,
        mut hashes: impl Iterator<Item = Option<u64>>,
        tries: u32,
        mut left: impl FnMut(Evicted),
    ) -> (bool, Result<(), RemoveError>) {
        let (mut has_evicted, mut last) = (false, Ok(Some(())));
        while last == Ok(Some(())) && self.slots.entries() > self.bound.most() {
            let hash = hashes.next().flatten();
            let evicted = self.evict(|| self.bound.shards_from(hash), tries, Kind::EvictedByCapacity);
            last = evicted.map(|evicted| evicted.map(&mut left));
            has_evicted |= last == Ok(Some(()));
        }
        // Not if there are more: then the next put of a new key evicts them.
        let is_full = || self.bound.is_below_room() && self.slots.entries() == self.bound.most();
        self.bound.is_full.store(is_full(), Relaxed);
        fence(SeqCst);
        // An entry may have left, or the bound may have changed, before others could see the store.
        if self.bound.is_full() && !is_full() {
            self.bound.is_full.store(false, Relaxed);
        }
        (has_evicted, last.map(drop))
    }
}
