//! A thread's handle of a cache.
use crate::counts::Meter;
use crate::error::{EvictError, Held, ListError, MoreError, PutError, PutIfAbsentError, PutIfError, Spent, TurnError};
use crate::lists;
use crate::open_handle::{openings, OpenHandle};
use crate::raw;
use crate::reply::{self, Entry, Evict, Put, Removal, Replaced, Reply, Swapped, Take};
use std::fmt::{self, Debug, Formatter};

/// A thread's handle of a cache. It looks up without a lock, and each of its writes tries once for the turn of the key's shard. To write
/// without trying, [`hold`](Handle::hold) the turns. Dropping it closes it, and the last one frees the cache.
///
/// It may move to another thread. Each call takes `&mut self`, so two threads that share it make none:
///
/// ```compile_fail,E0596
/// fn two_threads_share(handle: &cefrodil::Handle<1>) {
///     let _ = handle.get(7);
/// }
/// ```
/// ```compile_fail,E0596
/// fn two_threads_share(handle: &cefrodil::Handle<1>) {
///     let _ = handle.capacity();
/// }
/// ```
pub struct Handle<const WORDS: usize>(pub(crate) OpenHandle);

impl<const WORDS: usize> Debug for Handle<WORDS> {
    fn fmt(&self, text: &mut Formatter) -> fmt::Result {
        text.debug_struct("Handle").finish_non_exhaustive()
    }
}

impl<const WORDS: usize> Handle<WORDS> {
    /// Reads what the calls by all handles of this cache came to.
    #[must_use]
    pub fn meter(&self) -> Meter {
        self.0.meter()
    }

    /// Opens `count` more handles of the cache. It has 64 to spare, or as many as make 1024 in all. One that was opened is used up, also after it
    /// is dropped. The [`Meter`] counts their calls, too.
    ///
    /// # Errors
    ///
    /// [`MoreError`]: no handle was opened.
    ///
    /// # Examples
    ///
    /// ```
    /// use cefrodil::{Cache, Shape};
    ///
    /// let mut handles = Cache::<1>::open(&Shape::for_items(100, 1)?, 1, 1)?;
    /// handles[0].try_put(7, &[70])?;
    /// let more = handles[0].more(2)?;
    /// handles.extend(more);
    /// assert_eq!(handles[2].get(7).value(), Some([70]));
    /// # Ok::<(), Box<dyn std::error::Error>>(())
    /// ```
    pub fn more(&mut self, count: usize) -> Result<Vec<Handle<WORDS>>, MoreError> {
        openings::more(&mut self.0, count)
    }

    /// Looks the key up. A hit marks the key as recently used.
    #[inline]
    #[must_use]
    pub fn get(&mut self, key: u64) -> Reply<WORDS> {
        Reply::by(|value| self.0.get(key, value))
    }

    /// Looks the keys up. Equivalent to calling [`get`](Handle::get) for each key in order: each reply has a moment of its own.
    ///
    /// # Panics
    ///
    /// If there are not as many replies as keys.
    pub fn get_many(&mut self, keys: &[u64], replies: &mut [Reply<WORDS>]) {
        reply::many(&mut self.0, keys, replies);
    }

    /// Loads the words that a lookup of the key will read, so that a lookup which follows waits less for them. It pays in caches that are
    /// larger than the processor's. No answer depends on it.
    ///
    /// # Examples
    ///
    /// The words of the next key are loaded while the program works with this one:
    ///
    /// ```
    /// # use cefrodil::{Cache, Shape};
    /// # let mut handles = Cache::<1>::open(&Shape::for_items(100, 1)?, 1, 1)?;
    /// # handles[0].try_put(8, &[80])?;
    /// let (keys, mut sum) = ([7, 8, 9], 0);
    /// for (n, &key) in keys.iter().enumerate() {
    ///     if let Some(&next) = keys.get(n + 1) {
    ///         handles[0].prefetch(next);
    ///     }
    ///     sum += handles[0].get(key).value().map_or(0, |value| value[0]);
    /// }
    /// assert_eq!(sum, 80);
    /// # Ok::<(), Box<dyn std::error::Error>>(())
    /// ```
    #[inline]
    pub fn prefetch(&mut self, key: u64) {
        self.0.prefetch(key);
    }

    /// Like [`get`](Handle::get). If that is busy, tries once for the turn. With the turn nothing disturbs it, so it is not busy. `Busy` if
    /// the try does not win either.
    #[inline]
    #[must_use]
    pub fn get_or_turn(&mut self, key: u64) -> Reply<WORDS> {
        Reply::by(|value| self.0.get_or_turn(key, value))
    }

    /// Like [`get_or_turn`](Handle::get_or_turn), but writes the answer to `reply`. That saves a copy.
    #[inline]
    pub fn get_or_turn_into(&mut self, key: u64, reply: &mut Reply<WORDS>) {
        reply.set(|value| self.0.get_or_turn(key, value));
    }

    /// Tries once for the turn, and with it looks the key up as [`get`](Handle::get) does, but marks nothing: it doesn't count as a use of the
    /// key.
    ///
    /// # Errors
    ///
    /// [`Held`]: the try did not win.
    pub fn try_peek(&mut self, key: u64) -> Result<Reply<WORDS>, Held> {
        let mut value = [0; WORDS];
        match self.0.peek(key, &mut value) {
            (raw::HELD, _) => Err(Held),
            told => Ok(Reply::of(told, value)),
        }
    }

    /// Tries once for the turn of the key's shard, and with it puts the key with this value, as [`Writing::put`](crate::Writing::put) does.
    ///
    /// # Errors
    ///
    /// [`TurnError`]: no key and no value was changed.
    pub fn try_put(&mut self, key: u64, value: &[u64; WORDS]) -> Result<Put, TurnError<PutError>> {
        reply::turn(self.0.put(key, value), Put::of)
    }

    /// Like [`try_put`](Handle::try_put), with up to `tries` tries, at least one, one after the other without a pause. `Held` if
    /// none of them won.
    ///
    /// # Errors
    ///
    /// [`TurnError`]: no key and no value was changed.
    pub fn put_within(&mut self, tries: u32, key: u64, value: &[u64; WORDS]) -> Result<Put, TurnError<PutError>> {
        reply::turn(self.0.put_within(tries, key, value), Put::of)
    }

    /// Puts the entries in order, each in a turn of its own, as by [`try_put`](Handle::try_put). One that is held does not stop the later
    /// ones.
    ///
    /// # Panics
    ///
    /// If there are not as many answers as entries.
    pub fn try_put_many(&mut self, entries: &[(u64, [u64; WORDS])], answers: &mut [Result<Put, TurnError<PutError>>]) {
        reply::put_many(&mut self.0, entries, answers, |told| reply::turn(told, Put::of));
    }

    /// Like [`try_put`](Handle::try_put), with [`Writing::put_if`](crate::Writing::put_if).
    ///
    /// # Errors
    ///
    /// [`TurnError`]: nothing was changed.
    pub fn try_put_if(&mut self, key: u64, since: u64, value: &[u64; WORDS]) -> Result<u64, TurnError<PutIfError>> {
        reply::turn(self.0.put_if(key, since, value), reply::put_if)
    }

    /// Like [`try_put`](Handle::try_put), with [`Writing::put_if_absent`](crate::Writing::put_if_absent).
    ///
    /// # Errors
    ///
    /// [`TurnError`]: nothing was changed.
    pub fn try_put_if_absent(&mut self, key: u64, value: &[u64; WORDS]) -> Result<Put, TurnError<PutIfAbsentError>> {
        reply::turn(self.0.put_if_absent(key, value), |told| reply::if_absent(told, Put::of))
    }

    /// Like [`try_put`](Handle::try_put), with [`Writing::remove`](crate::Writing::remove).
    ///
    /// # Errors
    ///
    /// [`TurnError`]: nothing was changed.
    pub fn try_remove(&mut self, key: u64) -> Result<Removal, TurnError<Spent>> {
        reply::turn(self.0.remove(key), Removal::of)
    }

    /// Like [`try_put`](Handle::try_put), with [`Writing::swap`](crate::Writing::swap).
    ///
    /// # Errors
    ///
    /// [`TurnError`]: no key and no value was changed.
    pub fn try_swap(&mut self, key: u64, value: &[u64; WORDS]) -> Result<Swapped<WORDS>, TurnError<PutError>> {
        let mut old = [0; WORDS];
        let told = self.0.swap(key, value, &mut old);
        reply::turn(told, |told| Swapped::of(key, old, told))
    }

    /// Like [`try_put`](Handle::try_put), with [`Writing::swap_if`](crate::Writing::swap_if).
    ///
    /// # Errors
    ///
    /// [`TurnError`]: nothing was changed.
    pub fn try_swap_if(&mut self, key: u64, since: u64, value: &[u64; WORDS]) -> Result<Replaced<WORDS>, TurnError<PutIfError>> {
        let mut old = [0; WORDS];
        let told = self.0.swap_if(key, since, value, &mut old);
        reply::turn(told, |told| Replaced::of(key, old, told))
    }

    /// Like [`try_put`](Handle::try_put), with [`Writing::swap_if_absent`](crate::Writing::swap_if_absent).
    ///
    /// # Errors
    ///
    /// [`TurnError`]: no key and no value was changed.
    pub fn try_swap_if_absent(&mut self, key: u64, value: &[u64; WORDS]) -> Result<Swapped<WORDS>, TurnError<PutIfAbsentError>> {
        let mut old = [0; WORDS];
        let told = self.0.swap_if_absent(key, value, &mut old);
        reply::turn(told, |told| reply::if_absent(told, |told| Swapped::of(key, old, told)))
    }

    /// Like [`try_put`](Handle::try_put), with [`Writing::take`](crate::Writing::take).
    ///
    /// # Errors
    ///
    /// [`TurnError`]: nothing was changed.
    pub fn try_take(&mut self, key: u64) -> Result<Take<WORDS>, TurnError<Spent>> {
        let mut old = [0; WORDS];
        let told = self.0.take(key, &mut old);
        reply::turn(told, |told| Take::of(key, old, told))
    }

    /// Like [`try_put`](Handle::try_put), with [`Writing::take_if`](crate::Writing::take_if).
    ///
    /// # Errors
    ///
    /// [`TurnError`]: nothing was changed.
    pub fn try_take_if(&mut self, key: u64, since: u64) -> Result<Replaced<WORDS>, TurnError<PutIfError>> {
        let mut old = [0; WORDS];
        let told = self.0.take_if(key, since, &mut old);
        reply::turn(told, |told| Replaced::of(key, old, told))
    }

    /// Like [`try_put`](Handle::try_put), with [`Writing::evict`](crate::Writing::evict).
    ///
    /// # Errors
    ///
    /// [`TurnError`]: no key and no value was changed.
    pub fn try_evict(&mut self, near: u64) -> Result<Evict<WORDS>, TurnError<EvictError>> {
        let mut old = [0; WORDS];
        let told = self.0.evict(near, &mut old);
        reply::turn(told, |told| Evict::of(old, told))
    }

    /// Tries once for the turn of the shard of `near`, and with it calls [`Writing::entry_at`](crate::Writing::entry_at).
    ///
    /// # Errors
    ///
    /// [`Held`]: the try did not win.
    pub fn try_entry_at(&mut self, near: u64, item: u32) -> Result<Option<Entry<WORDS>>, Held> {
        let mut value = [0; WORDS];
        match self.0.entry_at(near, item, &mut value) {
            (raw::HELD, _) => Err(Held),
            told => Ok(Entry::shown(value, told)),
        }
    }

    /// The number of keys in the cache. Each shard is counted in a turn of its own, so with several it adds up numbers of several moments.
    ///
    /// # Errors
    ///
    /// [`Held`]: a try for a turn did not win.
    pub fn try_len(&mut self) -> Result<usize, Held> {
        match self.0.len() {
            (raw::HELD, _) => Err(Held),
            told => Ok(reply::number(told) as usize),
        }
    }

    /// The number of changes made to all shards, at one moment. For that the call takes every turn, as by [`hold`](Handle::hold), and gives it back.
    ///
    /// # Errors
    ///
    /// [`Held`]: a try for a turn did not win.
    ///
    /// ```
    /// use cefrodil::{Cache, Shape};
    ///
    /// let mut handles = Cache::<1>::open(&Shape::for_items(100, 4)?, 4, 1)?;
    /// handles[0].try_put(1, &[10])?;
    /// handles[0].try_put(2, &[20])?;
    /// assert_eq!((handles[0].try_len()?, handles[0].try_moment()?), (2, 2));
    /// # Ok::<(), Box<dyn std::error::Error>>(())
    /// ```
    pub fn try_moment(&mut self) -> Result<u64, Held> {
        Ok(self.hold()?.moment())
    }

    /// The number of keys that the cache holds at most: the `items` of its shape, in all shards together.
    #[must_use]
    pub fn capacity(&mut self) -> usize {
        reply::number(self.0.capacity()) as usize
    }

    /// Lists each key with its value, as [`Cache::open_with`](crate::Cache::open_with) takes them. Each shard is listed in a turn of its own,
    /// so at a moment of its own. The call takes room for [`capacity`](Handle::capacity) entries, so that one turn is enough.
    ///
    /// # Errors
    ///
    /// [`TurnError::Held`]: a try for a turn did not win. `Call` with [`ListError::NoMemory`]. Nothing was listed.
    pub fn try_entries(&mut self) -> Result<Vec<(u64, [u64; WORDS])>, TurnError<ListError>> {
        let most = self.capacity();
        lists::entries(&mut self.0, most)
    }

    /// Lists each entry with the moment of its key's last put, as [`Writing::stamped_entries`](crate::Writing::stamped_entries) does. It
    /// [holds](Handle::hold) for that.
    ///
    /// # Errors
    ///
    /// [`TurnError::Held`]: a try for a turn did not win. `Call` with [`ListError::NoMemory`]. Nothing was listed.
    pub fn try_stamped_entries(&mut self) -> Result<Vec<Entry<WORDS>>, TurnError<ListError>> {
        self.hold()?.stamped_entries().map_err(TurnError::Call)
    }
}
