//! Objects that give way without a put of the index: to a bound, or when the program asks for it.
use super::builder::Reason;
use super::inner::ObjectInner;
use super::object::Held;
use super::weights::Weights;
use crate::bound::Evicted;
use crate::error::{InsertError, RemoveError};
use crate::stats::Kind;
use cefrodil::Reply;

impl<O: Held, S> ObjectInner<O, S> {
    /// Evicts the object that would give way next in a shard with many objects, so that each keeps its share. If other threads are only about to
    /// put these, another shard evicts. Calls `see` with the object before it is retired, and with the moment. `None`: there is none.
    pub fn evict<R>(&self, tries: u32, cause: Kind, see: impl FnOnce(&O, u64) -> R) -> Result<Option<R>, RemoveError> {
        let shards = || self.weights.iter().flat_map(Weights::fullest_first);
        Ok(self.core.evict(shards, tries, cause)?.map(|evicted| self.end_eviction(evicted, see)))
    }

    /// Ends an eviction: the object is retired.
    pub fn end_eviction<R>(&self, Evicted { near, at, word }: Evicted, see: impl FnOnce(&O, u64) -> R) -> R {
        let left = self.leaving(near, word);
        let seen = see(left.object(), at);
        left.tell(Reason::Evicted);
        seen
    }

    /// Whether objects must give way to the bound on weights.
    #[inline]
    pub fn is_too_heavy(&self) -> bool {
        self.weights.as_ref().is_some_and(Weights::is_over)
    }

    /// Changes what objects may weigh together, and evicts what is too much.
    pub fn set_most_weight(&self, most: u64) -> Result<(), RemoveError> {
        self.weights.iter().for_each(|weights| weights.set_most(most));
        self.evict_to_bound(self.core.tries).map(drop).map_err(|why| self.core.refused(why))
    }

    /// Makes room for an object whose weight was counted, and which is about to be put under this hash. If it replaces another one, that is about to
    /// leave, and `evict_to_bound` comes after the put. Returns whether objects were evicted.
    #[inline(never)]
    pub fn make_room(&self, hash: u64, tries: u32) -> Result<bool, InsertError> {
        if let Reply::Found { .. } = self.core.slots.call(|handle| handle.get_or_turn(hash)) {
            return Ok(false);
        }
        self.evict_to_bound(tries).map_err(|why| match why {
            RemoveError::Spent => InsertError::Spent,
            _ => InsertError::Held,
        })
    }

    /// Evicts objects until the others weigh no more than they may. Returns whether it evicted some.
    #[inline(never)]
    pub fn evict_to_bound(&self, tries: u32) -> Result<bool, RemoveError> {
        let mut has_evicted = false;
        // If there is none, other threads are about to put what weighs too much. They come here, too, after their puts.
        while self.is_too_heavy() && self.evict(tries, Kind::EvictedByWeight, |_, _| ())?.is_some() {
            has_evicted = true;
        }
        Ok(has_evicted)
    }
}
