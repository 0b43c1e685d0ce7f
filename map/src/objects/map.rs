//! The map of objects.
use super::builder::ObjectBuilder;
use super::inner::ObjectInner;
use super::object::Object;
use super::weights::Weights;
use crate::error::{CapacityError, OpenError, RemoveError};
use crate::stats::Stats;
use std::borrow::Borrow;
use std::collections::hash_map::RandomState;
use std::fmt::{self, Debug, Formatter};
use std::hash::{BuildHasher, Hash};
use std::panic::{RefUnwindSafe, UnwindSafe};
use std::sync::Arc;

/// A bounded cache from keys `K` to values `V` of any type, for any number of threads. A clone is the same map. It needs the feature
/// `objects`.
///
/// The map owns its keys and values. Each pair is an object on the heap, so a lookup follows a pointer, and a put allocates. A
/// [`Map`](crate::Map) keeps small values that are `Copy` in its table instead.
///
/// A full map evicts an entry for each new key: one that is new and was not used, or else roughly one that was not used lately. If other threads disturb a call, it tries again, a bounded number of times. If all tries failed, a write returns an error and has changed nothing of its key, and a put gives its key and value back.
///
/// Keys are compared. Of two keys with the same 64-bit hash the map holds the one that was put last. A lookup of the other is a miss, and a
/// removal of the other removes nothing.
///
/// # When objects are freed
///
/// An object that leaves the map is freed when no call can use it any more. The destructors of keys and values run in calls that write, in
/// any thread, and in the drop of the last clone. They never run in a lookup. Objects wait for a write that frees them, or for
/// [`free_unused`](ObjectMap::free_unused): fewer than 64 for each thread, and all that left while a closure ran. So the map's memory has no bound while a
/// closure sleeps: [`pin`](ObjectMap::pin) a value for anything that may block. What was pinned when it left the map is freed with its last pin.
/// [`stats`](ObjectMap::stats) says how many wait. A panic in a destructor of what has left the map ends there.
pub struct ObjectMap<K, V, S = RandomState> {
    pub(crate) inner: Arc<ObjectInner<Object<K, V>, S>>,
}

impl<K, V> ObjectMap<K, V>
where
    K: Hash + Eq + Send + Sync + 'static,
    V: Send + Sync + 'static,
{
    /// Opens a map for at least this many entries, with the defaults of [`ObjectBuilder`].
    ///
    /// # Errors
    ///
    /// [`OpenError`].
    pub fn new(capacity: usize) -> Result<ObjectMap<K, V>, OpenError> {
        ObjectBuilder::new(capacity).open()
    }

    /// Chooses how to open a map for at least this many entries.
    pub fn builder(capacity: usize) -> ObjectBuilder<K, V> {
        ObjectBuilder::new(capacity)
    }
}

impl<K, V, S> ObjectMap<K, V, S> {
    /// As [`Map::capacity`](crate::Map::capacity).
    #[must_use]
    pub fn capacity(&self) -> usize {
        self.inner.core.bound.most()
    }

    /// As [`Map::set_capacity`](crate::Map::set_capacity). The listener hears of each object that gives way.
    ///
    /// # Errors
    ///
    /// [`CapacityError`].
    pub fn set_capacity(&self, most: usize) -> Result<(), CapacityError> {
        self.inner.core.set_capacity(most, |evicted| self.inner.end_eviction(evicted, |_, _| ()))
    }

    /// How many entries the map has, expired ones included. While other threads write it is an estimate.
    #[must_use]
    pub fn len(&self) -> usize {
        self.inner.core.slots.entries()
    }

    /// Whether [`len`](Self::len) is 0.
    #[must_use]
    pub fn is_empty(&self) -> bool {
        self.len() == 0
    }

    /// What the calls of all threads came to.
    #[must_use]
    pub fn stats(&self) -> Stats {
        self.inner.stats()
    }

    /// As [`Map::hit_rate_of_last_minute`](crate::Map::hit_rate_of_last_minute).
    #[must_use]
    pub fn hit_rate_of_last_minute(&self) -> f64 {
        self.inner.core.stats(0).hit_rate_of_last_minute()
    }

    /// The sum of what the entries weigh, by the weigher of [`ObjectBuilder::max_weight`]; 0 without one. It counts what is about to be put.
    #[must_use]
    pub fn weight(&self) -> u64 {
        self.inner.weights.as_ref().map_or(0, Weights::sum)
    }

    /// Changes the bound on what the entries weigh, and evicts until they weigh no more. Without a weigher there is no bound.
    ///
    /// # Errors
    ///
    /// [`RemoveError`]: the next put evicts what is too much.
    pub fn set_most_weight(&self, most: u64) -> Result<(), RemoveError> {
        self.inner.set_most_weight(most)
    }

    /// Frees the objects that have left the map and that no call uses. Returns how many still wait. A program whose objects are large calls
    /// this after it has removed some.
    pub fn free_unused(&self) -> usize {
        self.inner.free(self.inner.epochs.free_now());
        self.inner.epochs.waiting()
    }
}

impl<K, V, S: BuildHasher> ObjectMap<K, V, S> {
    /// The hash by which the map knows the key, for [`remove_stamped`](Self::remove_stamped) and for logs.
    #[must_use]
    pub fn hash_of<Q: Hash + ?Sized>(&self, key: &Q) -> u64
    where
        K: Borrow<Q>,
    {
        self.inner.hash(key)
    }
}

// A call that panics leaves the map usable.
impl<K, V, S> UnwindSafe for ObjectMap<K, V, S> {}
impl<K, V, S> RefUnwindSafe for ObjectMap<K, V, S> {}

impl<K, V, S> Clone for ObjectMap<K, V, S> {
    fn clone(&self) -> ObjectMap<K, V, S> {
        ObjectMap { inner: Arc::clone(&self.inner) }
    }
}

impl<K, V, S> Debug for ObjectMap<K, V, S> {
    fn fmt(&self, text: &mut Formatter) -> fmt::Result {
        text.debug_struct("ObjectMap").field("len", &self.len()).field("capacity", &self.capacity()).finish_non_exhaustive()
    }
}
