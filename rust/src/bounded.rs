//! Puts into a shard that is to hold at most so many keys: another one leaves for a new one, though items are free.
use crate::error::{PutError, PutIfAbsentError, TurnError};
use crate::handle::Handle;
use crate::raw::{self, RawReply};
use crate::reply::{self, Entry, Put, Swapped, Told};
use crate::writing::Writing;
use std::error::Error;
use std::fmt::{self, Debug, Display, Formatter};

/// Why a bounded put failed, and what left all the same: a key, or an [`Entry`](crate::Entry).
#[derive(Clone, Copy, Debug, PartialEq, Eq, Hash)]
pub struct BoundedError<T, E = PutError> {
    /// Why the key was not put.
    pub why: E,
    /// What was evicted to keep to the bound, before the put failed. `None`: nothing was changed.
    pub evicted: Option<T>,
}

impl<T, E: Display> Display for BoundedError<T, E> {
    fn fmt(&self, text: &mut Formatter) -> fmt::Result {
        self.why.fmt(text)
    }
}

impl<T: Debug, E: Error> Error for BoundedError<T, E> {}

// The entry with this value, which a bounded put has evicted.
fn evicted<const WORDS: usize>(value: [u64; WORDS]) -> impl FnOnce(&RawReply) -> Entry<WORDS> {
    move |reply| Entry { key: reply.evicted, value, since: reply.since }
}

// The answer of a bounded put. `evicted` is what it evicted, if it did, and `of` makes an answer of what was told.
fn bounded<T, L, E>(
    told: Told,
    evicted: impl FnOnce(&RawReply) -> L,
    of: impl FnOnce(Told) -> Result<T, E>,
) -> Result<T, BoundedError<L, E>> {
    let left = (told.1.put == raw::PUT_EVICTED).then(|| evicted(&told.1));
    of(told).map_err(|why| BoundedError { why, evicted: left })
}

impl<const WORDS: usize> Handle<WORDS> {
    /// Like [`try_put`](Handle::try_put), with [`Writing::put_bounded`](crate::Writing::put_bounded).
    ///
    /// # Errors
    ///
    /// [`TurnError`]: the key was not put. [`BoundedError::evicted`] is the key that has left all the same.
    pub fn try_put_bounded(&mut self, key: u64, most: u32, value: &[u64; WORDS]) -> Result<Put, TurnError<BoundedError<u64>>> {
        let told = self.0.put_bounded(key, most, value);
        reply::turn(told, |told| bounded(told, |reply| reply.evicted, Put::of))
    }

    /// Like [`try_put`](Handle::try_put), with [`Writing::put_if_absent_bounded`](crate::Writing::put_if_absent_bounded).
    ///
    /// # Errors
    ///
    /// [`TurnError`]: the key was not put. [`BoundedError::evicted`] is the key that has left all the same.
    pub fn try_put_if_absent_bounded(
        &mut self,
        key: u64,
        most: u32,
        value: &[u64; WORDS],
    ) -> Result<Put, TurnError<BoundedError<u64, PutIfAbsentError>>> {
        let told = self.0.put_if_absent_bounded(key, most, value);
        reply::turn(told, |told| bounded(told, |reply| reply.evicted, |told| reply::if_absent(told, Put::of)))
    }

    /// Like [`try_put`](Handle::try_put), with [`Writing::swap_bounded`](crate::Writing::swap_bounded).
    ///
    /// # Errors
    ///
    /// [`TurnError`]: the key was not put. [`BoundedError::evicted`] says what has left all the same.
    pub fn try_swap_bounded(
        &mut self,
        key: u64,
        most: u32,
        value: &[u64; WORDS],
    ) -> Result<Swapped<WORDS>, TurnError<BoundedError<Entry<WORDS>>>> {
        let mut old = [0; WORDS];
        let told = self.0.swap_bounded(key, most, value, &mut old);
        reply::turn(told, |told| bounded(told, evicted(old), |told| Swapped::of(key, old, told)))
    }

    /// Like [`try_put`](Handle::try_put), with [`Writing::swap_if_absent_bounded`](crate::Writing::swap_if_absent_bounded).
    ///
    /// # Errors
    ///
    /// [`TurnError`]: the key was not put. [`BoundedError::evicted`] says what has left all the same.
    pub fn try_swap_if_absent_bounded(
        &mut self,
        key: u64,
        most: u32,
        value: &[u64; WORDS],
    ) -> Result<Swapped<WORDS>, TurnError<BoundedError<Entry<WORDS>, PutIfAbsentError>>> {
        let mut old = [0; WORDS];
        let told = self.0.swap_if_absent_bounded(key, most, value, &mut old);
        let swapped = |told| reply::if_absent(told, |told| Swapped::of(key, old, told));
        reply::turn(told, |told| bounded(told, evicted(old), swapped))
    }
}

impl<const WORDS: usize> Writing<'_, WORDS> {
    /// Puts the key in a shard that is to hold at most `most` keys. If the key is new and its shard holds as many, and one at least, another key
    /// of the shard is evicted first, though items are free.
    ///
    /// # Errors
    ///
    /// [`BoundedError`]: the key was not put. Its `evicted` is the key that has left all the same.
    ///
    /// # Examples
    ///
    /// ```
    /// use cefrodil::{Cache, Put, Shape};
    ///
    /// let mut handles = Cache::<1>::open(&Shape::for_items(10, 1)?, 1, 1)?;
    /// let mut writing = handles[0].hold()?;
    /// writing.put_bounded(7, 1, &[70])?;
    /// assert!(matches!(writing.put_bounded(8, 1, &[80])?, Put::Stored { evicted: Some(7), .. }));
    /// # Ok::<(), Box<dyn std::error::Error>>(())
    /// ```
    pub fn put_bounded(&mut self, key: u64, most: u32, value: &[u64; WORDS]) -> Result<Put, BoundedError<u64>> {
        bounded(self.handle().put_bounded(key, most, value), |reply| reply.evicted, Put::of)
    }

    /// The same only if the key is absent, as [`put_if_absent`](Writing::put_if_absent).
    ///
    /// # Errors
    ///
    /// [`BoundedError`]: the key was not put. Its `evicted` is the key that has left all the same.
    pub fn put_if_absent_bounded(
        &mut self,
        key: u64,
        most: u32,
        value: &[u64; WORDS],
    ) -> Result<Put, BoundedError<u64, PutIfAbsentError>> {
        let told = self.handle().put_if_absent_bounded(key, most, value);
        bounded(told, |reply| reply.evicted, |told| reply::if_absent(told, Put::of))
    }

    /// Puts the key as [`swap`](Writing::swap) does, in a shard that is to hold at most `most` keys. If the key is new and its shard holds as many,
    /// and one at least, another entry of the shard is evicted first, though items are free.
    ///
    /// # Errors
    ///
    /// [`BoundedError`]: the key was not put. Its `evicted` says what has left all the same.
    ///
    /// # Examples
    ///
    /// ```
    /// use cefrodil::{Cache, Entry, Shape};
    ///
    /// let mut handles = Cache::<1>::open(&Shape::for_items(10, 1)?, 1, 1)?;
    /// let mut writing = handles[0].hold()?;
    /// assert_eq!(writing.swap_bounded(7, 1, &[70])?.old, None);
    /// assert_eq!(writing.swap_bounded(7, 1, &[71])?.old, Some(Entry { key: 7, value: [70], since: 1 }));
    /// assert_eq!(writing.swap_bounded(8, 1, &[80])?.old, Some(Entry { key: 7, value: [71], since: 2 }));
    /// assert_eq!(writing.len(), 1);
    /// # Ok::<(), Box<dyn std::error::Error>>(())
    /// ```
    pub fn swap_bounded(
        &mut self,
        key: u64,
        most: u32,
        value: &[u64; WORDS],
    ) -> Result<Swapped<WORDS>, BoundedError<Entry<WORDS>>> {
        let mut old = [0; WORDS];
        let told = self.handle().swap_bounded(key, most, value, &mut old);
        bounded(told, evicted(old), |told| Swapped::of(key, old, told))
    }

    /// The same only if the key is absent, as [`swap_if_absent`](Writing::swap_if_absent).
    ///
    /// # Errors
    ///
    /// [`BoundedError`]: the key was not put. Its `evicted` says what has left all the same.
    pub fn swap_if_absent_bounded(
        &mut self,
        key: u64,
        most: u32,
        value: &[u64; WORDS],
    ) -> Result<Swapped<WORDS>, BoundedError<Entry<WORDS>, PutIfAbsentError>> {
        let mut old = [0; WORDS];
        let told = self.handle().swap_if_absent_bounded(key, most, value, &mut old);
        bounded(told, evicted(old), |told| reply::if_absent(told, |told| Swapped::of(key, old, told)))
    }
}
