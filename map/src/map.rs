//! The map and its plain calls.
use crate::error::{CapacityError, GetError, InsertError, OpenError, RemoveError};
use crate::handle::MANY;
use crate::inner::Inner;
use crate::key::Key;
use crate::print::Print;
use crate::stats::Stats;
use crate::Builder;
use cefrodil::Put;
use std::borrow::Borrow;
use std::collections::hash_map::RandomState;
use std::fmt::{self, Debug, Formatter};
use std::hash::BuildHasher;
use std::sync::Arc;
use std::time::Duration;

/// A bounded cache from keys `K` to copies of `V`, for any number of threads.
///
/// The map keeps and compares no keys. Two keys that write the same are one key to it, so keys have a trait of their own, [`Key`]: std's `Hash` may
/// write less than tells keys apart. std's types have it, and [`key!`](crate::key) gives it to a struct. For other keys take an `ObjectMap`, of the
/// feature `objects`: it compares keys.
///
/// A clone is the same map. Each call borrows its key, and `K` may be unsized: `Map<str, u64>` works. A value has at most 56 bytes, 48 in
/// a map with a time to live, or 40 in one with a time to idle; a larger one doesn't compile:
///
/// ```compile_fail,E0080
/// let _ = cefrodil_map::Map::<u64, [u8; 57]>::new(100);
/// ```
///
/// A key that is a tuple with a borrowed string can't be looked up by reference: by the rules of [`Borrow`], a `Map<(String, u64), V>`
/// takes no `(&str, u64)`. Make a `String` for each call, or take an id as the key.
///
/// A full map evicts an entry for each new key, one that was not used lately. That is rough: in a map that has just become full, a key in
/// use may go, too. So an entry may be gone at any time.
///
/// If other threads disturb a call, it tries again, a bounded number of times: at first it spins, then it yields, then it sleeps. If all
/// tries failed, a write returns an error and has changed nothing, and [`get`] and [`contains_key`] report a miss. The forms with `try_`
/// try once.
///
/// Once a write of a key has returned, no later lookup finds an older value of the key. That includes values that [`get_or_insert_with`]
/// was computing when the write came.
///
/// A forked child makes no call of a map that its parent opened. It may drop the map, which frees little, and open its own.
///
/// [`get`]: Map::get
/// [`contains_key`]: Map::contains_key
/// [`get_or_insert_with`]: Map::get_or_insert_with
pub struct Map<K: ?Sized, V, S = RandomState> {
    pub(crate) inner: Arc<Inner<K, V, S>>,
}

/// What a successful `insert` did.
#[derive(Clone, Copy, Debug, PartialEq, Eq, Hash)]
#[non_exhaustive]
pub enum Inserted {
    /// The key is new.
    New,
    /// The key was there, perhaps with an expired value. It was overwritten.
    Renewed,
    /// The key is new, and the entry of another key was evicted for it.
    Evicted,
}

impl Inserted {
    pub(crate) fn of(put: Put) -> Inserted {
        match put {
            Put::Stored { evicted: None, .. } => Inserted::New,
            Put::Stored { evicted: Some(_), .. } => Inserted::Evicted,
            _ => Inserted::Renewed,
        }
    }
}

// The bounds are those of the calls: so the compiler says of a type that is no key what to do.
impl<K: ?Sized, V> Map<K, V> {
    /// Opens a map for at least this many entries, with the defaults of [`Builder`].
    ///
    /// # Errors
    ///
    /// [`OpenError`].
    pub fn new(capacity: usize) -> Result<Map<K, V>, OpenError>
    where
        K: Key,
        V: Copy + Send + Sync + 'static,
    {
        Builder::new(capacity).open()
    }

    /// Chooses how to open a map for at least this many entries.
    pub fn builder(capacity: usize) -> Builder<K, V>
    where
        K: Key,
        V: Copy + Send + Sync + 'static,
    {
        Builder::new(capacity)
    }
}

impl<K: Key + ?Sized, V: Copy + Send + Sync + 'static, S: BuildHasher> Map<K, V, S> {
    /// The key's value. A value that is found counts as used lately.
    ///
    /// `None`: the key is absent, expired or evicted, or writes disturbed the lookup for a tenth of a second, which `busy` of
    /// [`stats`](Map::stats) counts. [`try_get`](Map::try_get) tells the last from the others, but it tries once.
    #[inline]
    #[must_use]
    pub fn get<Q: Key + ?Sized>(&self, key: &Q) -> Option<V>
    where
        K: Borrow<Q>,
    {
        self.inner.get(self.inner.print_now(key), self.inner.core.looks(), |told| told.unwrap_or(None))
    }

    /// The key's value, by one lookup. `None`: the key is absent, expired or evicted.
    ///
    /// # Errors
    ///
    /// [`GetError::Busy`].
    pub fn try_get<Q: Key + ?Sized>(&self, key: &Q) -> Result<Option<V>, GetError>
    where
        K: Borrow<Q>,
    {
        self.inner.get(self.inner.print_now(key), 1, |told| told)
    }

    /// The values of these keys, in their order: each as by [`get`](Map::get), with fewer calls of the index.
    ///
    /// ```
    /// let ages = cefrodil_map::Map::<str, u64>::new(100)?;
    /// ages.insert("ann", 41)?;
    /// assert_eq!(ages.get_many(["ann", "bob"]), [Some(41), None]);
    /// # Ok::<(), Box<dyn std::error::Error>>(())
    /// ```
    #[must_use]
    pub fn get_many<'a, Q: Key + ?Sized + 'a>(&self, keys: impl IntoIterator<Item = &'a Q>) -> Vec<Option<V>>
    where
        K: Borrow<Q>,
    {
        let mut keys = keys.into_iter().fuse();
        let mut values = Vec::with_capacity(keys.size_hint().0);
        let mut prints = [Print::default(); MANY];
        loop {
            // The array is asked first, so no key is taken that has no place.
            let count = prints.iter_mut().zip(&mut keys).map(|(print, key)| *print = self.inner.print_now(key)).count();
            self.inner.get_many(&prints[..count], &mut values);
            if count < MANY {
                return values;
            }
        }
    }

    /// The key's value, which doesn't count as used: it is evicted as if nobody had looked. [`stats`](Map::stats) doesn't count the call. It takes
    /// the turn at the key's shard, as a write does.
    ///
    /// # Errors
    ///
    /// [`GetError::Busy`]: other threads had the turn at each try.
    pub fn peek<Q: Key + ?Sized>(&self, key: &Q) -> Result<Option<V>, GetError>
    where
        K: Borrow<Q>,
    {
        self.inner.peek(self.inner.print_now(key), self.inner.core.tries)
    }

    /// Whether the key has a value, which then counts as used lately.
    #[must_use]
    pub fn contains_key<Q: Key + ?Sized>(&self, key: &Q) -> bool
    where
        K: Borrow<Q>,
    {
        self.get(key).is_some()
    }

    /// Puts the value. Its time to live is that of the map, if it has one, and begins now, also over a value that was there.
    ///
    /// Don't renew an entry by `get` and `insert`: a removal in between would be undone. Use [`modify_for`](Map::modify_for).
    ///
    /// # Errors
    ///
    /// [`InsertError`]: nothing was changed. An older value of the key stays: if it must not, [`remove`](Map::remove) it.
    pub fn insert<Q: Key + ?Sized>(&self, key: &Q, value: V) -> Result<Inserted, InsertError>
    where
        K: Borrow<Q>,
    {
        self.inner.insert(key, value, self.inner.core.life, self.inner.core.tries)
    }

    /// Like [`insert`](Map::insert), with a single try.
    ///
    /// # Errors
    ///
    /// [`InsertError`]: nothing was changed.
    pub fn try_insert<Q: Key + ?Sized>(&self, key: &Q, value: V) -> Result<Inserted, InsertError>
    where
        K: Borrow<Q>,
    {
        self.inner.insert(key, value, self.inner.core.life, 1)
    }

    /// Like [`insert`](Map::insert), with a time to live of its own. One that is too long to be counted never ends, and `Duration::ZERO` is
    /// over at once.
    ///
    /// # Errors
    ///
    /// [`InsertError`]: nothing was changed. [`InsertError::NoTimeToLive`] if the map was opened without one.
    pub fn insert_for<Q: Key + ?Sized>(&self, key: &Q, value: V, life: Duration) -> Result<Inserted, InsertError>
    where
        K: Borrow<Q>,
    {
        match self.inner.core.life {
            Some(_) => self.inner.insert(key, value, Some(life), self.inner.core.tries),
            None => Err(self.inner.core.refused(InsertError::NoTimeToLive)),
        }
    }

    /// Removes the key's value and returns it. Once this has returned, no later lookup finds that value, nor one that
    /// [`get_or_insert_with`](Map::get_or_insert_with) began to compute before this call. So it invalidates a key whose source has changed.
    /// `Ok(None)`: it is gone too.
    ///
    /// Where a removal must take effect (a logout), call again until it is `Ok`. Until then refuse the key by a set of your own that each
    /// lookup checks.
    ///
    /// # Errors
    ///
    /// [`RemoveError`]: the value may still be there.
    pub fn remove<Q: Key + ?Sized>(&self, key: &Q) -> Result<Option<V>, RemoveError>
    where
        K: Borrow<Q>,
    {
        self.inner.remove(key, self.inner.core.tries)
    }

    /// Like [`remove`](Map::remove), with a single try.
    ///
    /// # Errors
    ///
    /// [`RemoveError`]: the value may still be there.
    pub fn try_remove<Q: Key + ?Sized>(&self, key: &Q) -> Result<Option<V>, RemoveError>
    where
        K: Borrow<Q>,
    {
        self.inner.remove(key, 1)
    }
}

impl<K: ?Sized, V, S> Map<K, V, S> {
    /// The most entries that the map holds: what was asked for, or up to a tenth more, or what [`set_capacity`](Map::set_capacity) has chosen. Shards fill
    /// unevenly, so it may evict before it has so many.
    #[must_use]
    pub fn capacity(&self) -> usize {
        self.inner.core.bound.most()
    }

    /// Changes how many entries the map holds at most, and evicts until it has no more: those that would give way to new keys in a full map. `most` is at
    /// most the room with which the map was opened: its first capacity at least. The memory stays the same.
    ///
    /// In a full map another entry of the same shard leaves for a new key. While several threads put, the map may have some entries more. Then a later put
    /// of a new key evicts these.
    ///
    /// ```
    /// let squares = cefrodil_map::Map::<u64, u64>::new(1_000)?;
    /// (0..1_000).try_for_each(|number| squares.insert(&number, number * number).map(drop))?;
    /// squares.set_capacity(300)?;
    /// assert_eq!((squares.len(), squares.capacity()), (300, 300));
    /// squares.insert(&1_000, 1_000_000)?;
    /// assert_eq!((squares.len(), squares.stats().evicted_by_capacity), (300, 701));
    /// # Ok::<(), Box<dyn std::error::Error>>(())
    /// ```
    ///
    /// # Errors
    ///
    /// [`CapacityError`].
    pub fn set_capacity(&self, most: usize) -> Result<(), CapacityError> {
        self.inner.core.set_capacity(most, drop)
    }

    /// How many entries the map has, expired ones included. While other threads write it is an estimate.
    #[must_use]
    pub fn len(&self) -> usize {
        self.inner.core.slots.entries()
    }

    /// Whether [`len`](Map::len) is 0.
    #[must_use]
    pub fn is_empty(&self) -> bool {
        self.len() == 0
    }

    /// What the calls of all threads came to.
    #[must_use]
    pub fn stats(&self) -> Stats {
        self.inner.core.stats(0)
    }

    /// Which part of the lookups of about the last minute found a value, as [`Stats::hit_rate`]: of those since the sums of lookups that were noted last
    /// before a minute ago. Calls of this and of [`stats`](Map::stats) note the sums, as do those that compute values, list all entries or invalidate them:
    /// at most once in five seconds. So a program that calls this every minute gets the rate of the last one to two minutes.
    #[must_use]
    pub fn hit_rate_of_last_minute(&self) -> f64 {
        self.stats().hit_rate_of_last_minute()
    }
}

impl<K: ?Sized, V, S> Clone for Map<K, V, S> {
    fn clone(&self) -> Map<K, V, S> {
        Map { inner: Arc::clone(&self.inner) }
    }
}

impl<K: ?Sized, V, S> Debug for Map<K, V, S> {
    fn fmt(&self, text: &mut Formatter) -> fmt::Result {
        text.debug_struct("Map").field("len", &self.len()).field("capacity", &self.capacity()).finish_non_exhaustive()
    }
}
