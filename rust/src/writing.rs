//! A handle that holds the turns of all shards.
use crate::counts::Meter;
use crate::error::{EvictError, ListError, MoreError, PutError, PutIfAbsentError, PutIfError, Spent};
use crate::handle::Handle;
use crate::lists;
use crate::open_handle::{openings, OpenHandle};
use crate::reply::{self, Entry, Evict, Put, Removal, Replaced, Reply, Swapped, Take};
use std::fmt::{self, Debug, Formatter};

/// A handle that holds the turns of all shards: nobody else writes, and other handles look up as before. Its writes are never held, its
/// lookups are never busy, and each list and number is that of one moment, of all shards. Dropping it gives the turns back.
///
/// [`Handle::hold`](crate::Handle::hold) borrows its handle. For a program that writes from one place for its whole life,
/// [`Handle::into_writing`](crate::Handle::into_writing) takes the handle over.
///
/// It may move to another thread. Each call takes `&mut self`, so two threads that share it make none:
///
/// ```compile_fail,E0596
/// fn two_threads_share(writing: &cefrodil::Writing<1>) {
///     let _ = writing.put(7, &[70]);
/// }
/// ```
#[must_use = "dropping it gives the turns back"]
pub struct Writing<'a, const WORDS: usize>(pub(crate) Holder<'a>);

/// The handle that holds.
pub(crate) enum Holder<'a> {
    Lent(&'a mut OpenHandle),
    Own(OpenHandle),
}

impl<const WORDS: usize> Debug for Writing<'_, WORDS> {
    fn fmt(&self, text: &mut Formatter) -> fmt::Result {
        text.debug_struct("Writing").finish_non_exhaustive()
    }
}

impl<const WORDS: usize> Drop for Writing<'_, WORDS> {
    fn drop(&mut self) {
        self.handle().release();
    }
}

impl<const WORDS: usize> Writing<'_, WORDS> {
    #[inline]
    pub(crate) fn handle(&mut self) -> &mut OpenHandle {
        match &mut self.0 {
            Holder::Lent(handle) => handle,
            Holder::Own(handle) => handle,
        }
    }

    /// Puts the key with this value. A new key evicts another one of its shard if that has as many keys as items.
    ///
    /// # Errors
    ///
    /// [`PutError`]: no key and no value was changed. After `AllRecent` only recency bits were.
    pub fn put(&mut self, key: u64, value: &[u64; WORDS]) -> Result<Put, PutError> {
        Put::of(self.handle().put(key, value))
    }

    /// Overwrites the key's value if its last put was at the moment `since`, as a lookup of the key returned it. Returns the
    /// moment of the new put.
    ///
    /// # Errors
    ///
    /// The first variant of [`PutIfError`] that applies, in their order. Nothing was changed.
    ///
    /// # Examples
    ///
    /// ```
    /// use cefrodil::{Cache, PutIfError, Shape};
    ///
    /// let mut handles = Cache::<1>::open(&Shape::for_items(100, 1)?, 1, 1)?;
    /// let mut writing = handles[0].hold()?;
    /// writing.put(7, &[70])?;
    /// assert_eq!(writing.put_if(7, 1, &[71])?, 2);
    /// assert_eq!(writing.put_if(7, 1, &[72]), Err(PutIfError::Changed { since: 2 }));
    /// # Ok::<(), Box<dyn std::error::Error>>(())
    /// ```
    pub fn put_if(&mut self, key: u64, since: u64, value: &[u64; WORDS]) -> Result<u64, PutIfError> {
        reply::put_if(self.handle().put_if(key, since, value))
    }

    /// Puts the entries in order, each as [`put`](Writing::put) does.
    ///
    /// # Panics
    ///
    /// If there are not as many answers as entries.
    ///
    /// ```
    /// use cefrodil::{Cache, PutError, Shape};
    ///
    /// let mut handles = Cache::<1>::open(&Shape::for_items(100, 1)?, 1, 1)?;
    /// let mut writing = handles[0].hold()?;
    /// let mut answers = [Err(PutError::Spent); 2];
    /// writing.put_many(&[(7, [70]), (8, [80])], &mut answers);
    /// assert_eq!(answers.map(|put| put.map(|put| put.at())), [Ok(1), Ok(2)]);
    /// # Ok::<(), Box<dyn std::error::Error>>(())
    /// ```
    pub fn put_many(&mut self, entries: &[(u64, [u64; WORDS])], answers: &mut [Result<Put, PutError>]) {
        reply::put_many(self.handle(), entries, answers, Put::of);
    }

    /// Puts the key only if it is absent. Never returns [`Put::Renewed`].
    ///
    /// # Errors
    ///
    /// [`PutIfAbsentError`]: nothing was changed. A key that is there counts as used.
    ///
    /// ```
    /// use cefrodil::{Cache, PutIfAbsentError, Shape};
    ///
    /// let mut handles = Cache::<1>::open(&Shape::for_items(100, 1)?, 1, 1)?;
    /// let mut writing = handles[0].hold()?;
    /// writing.put_if_absent(7, &[70])?;
    /// assert_eq!(writing.put_if_absent(7, &[71]), Err(PutIfAbsentError::Present { since: 1 }));
    /// # Ok::<(), Box<dyn std::error::Error>>(())
    /// ```
    pub fn put_if_absent(&mut self, key: u64, value: &[u64; WORDS]) -> Result<Put, PutIfAbsentError> {
        reply::if_absent(self.handle().put_if_absent(key, value), Put::of)
    }

    /// Removes the key.
    ///
    /// # Errors
    ///
    /// [`Spent`]: nothing was changed.
    pub fn remove(&mut self, key: u64) -> Result<Removal, Spent> {
        Removal::of(self.handle().remove(key))
    }

    /// Puts the key as [`put`](Writing::put) does, and returns the entry that gives way: the key's earlier one, or that of the key that
    /// was evicted. So a program that keeps objects behind the cache knows which to drop.
    ///
    /// # Errors
    ///
    /// [`PutError`]: no key and no value was changed.
    ///
    /// # Examples
    ///
    /// ```
    /// use cefrodil::{Cache, Entry, Shape};
    ///
    /// let mut handles = Cache::<1>::open(&Shape { items: 1, ..Shape::for_items(10, 1)? }, 1, 1)?;
    /// let mut writing = handles[0].hold()?;
    /// assert_eq!(writing.swap(7, &[70])?.old, None);
    /// assert_eq!(writing.swap(7, &[71])?.old, Some(Entry { key: 7, value: [70], since: 1 }));
    /// assert_eq!(writing.swap(8, &[80])?.old, Some(Entry { key: 7, value: [71], since: 2 }));
    /// # Ok::<(), Box<dyn std::error::Error>>(())
    /// ```
    pub fn swap(&mut self, key: u64, value: &[u64; WORDS]) -> Result<Swapped<WORDS>, PutError> {
        let mut old = [0; WORDS];
        let told = self.handle().swap(key, value, &mut old);
        Swapped::of(key, old, told)
    }

    /// Overwrites the key's value as [`put_if`](Writing::put_if) does, and returns the earlier entry.
    ///
    /// # Errors
    ///
    /// The first variant of [`PutIfError`] that applies, in their order. Nothing was changed.
    pub fn swap_if(&mut self, key: u64, since: u64, value: &[u64; WORDS]) -> Result<Replaced<WORDS>, PutIfError> {
        let mut old = [0; WORDS];
        let told = self.handle().swap_if(key, since, value, &mut old);
        Replaced::of(key, old, told)
    }

    /// Puts the key only if it is absent, as [`put_if_absent`](Writing::put_if_absent) does, and returns the entry that gives way: that of the key
    /// that is evicted.
    ///
    /// # Errors
    ///
    /// [`PutIfAbsentError`]: no key and no value was changed.
    ///
    /// ```
    /// use cefrodil::{Cache, Entry, PutIfAbsentError, Shape};
    ///
    /// let mut handles = Cache::<1>::open(&Shape { items: 1, ..Shape::for_items(10, 1)? }, 1, 1)?;
    /// let mut writing = handles[0].hold()?;
    /// assert_eq!(writing.swap_if_absent(7, &[70])?.old, None);
    /// assert_eq!(writing.swap_if_absent(7, &[71]), Err(PutIfAbsentError::Present { since: 1 }));
    /// assert_eq!(writing.swap_if_absent(8, &[80])?.old, Some(Entry { key: 7, value: [70], since: 1 }));
    /// # Ok::<(), Box<dyn std::error::Error>>(())
    /// ```
    pub fn swap_if_absent(&mut self, key: u64, value: &[u64; WORDS]) -> Result<Swapped<WORDS>, PutIfAbsentError> {
        let mut old = [0; WORDS];
        let told = self.handle().swap_if_absent(key, value, &mut old);
        reply::if_absent(told, |told| Swapped::of(key, old, told))
    }

    /// Removes the key as [`remove`](Writing::remove) does, and returns its entry.
    ///
    /// # Errors
    ///
    /// [`Spent`]: nothing was changed.
    pub fn take(&mut self, key: u64) -> Result<Take<WORDS>, Spent> {
        let mut old = [0; WORDS];
        let told = self.handle().take(key, &mut old);
        Take::of(key, old, told)
    }

    /// Removes the key as [`take`](Writing::take) does, if its last put was at the moment `since`, as a lookup of the key returned it.
    /// So a program that found an entry too old removes that one, and no later one.
    ///
    /// # Errors
    ///
    /// [`PutIfError`]: nothing was changed.
    pub fn take_if(&mut self, key: u64, since: u64) -> Result<Replaced<WORDS>, PutIfError> {
        let mut old = [0; WORDS];
        let told = self.handle().take_if(key, since, &mut old);
        Replaced::of(key, old, told)
    }

    /// Evicts a key without a put: the one that would give way to a new key if the shard were full. The shard is that of the key `near`,
    /// which need not be there; with one shard any key will do. So a program drops what it keeps behind the cache, or keeps room for the
    /// next puts.
    ///
    /// # Errors
    ///
    /// [`EvictError`]: no key and no value was changed. After `AllRecent` only recency bits were.
    ///
    /// # Examples
    ///
    /// ```
    /// use cefrodil::{Cache, Entry, Evict, Shape};
    ///
    /// let mut handles = Cache::<1>::open(&Shape::for_items(100, 1)?, 1, 1)?;
    /// let mut writing = handles[0].hold()?;
    /// writing.put(7, &[70])?;
    /// writing.put(8, &[80])?;
    /// assert_eq!(writing.get(7).value(), Some([70]));
    /// assert_eq!(writing.evict(0)?, Evict::Evicted { at: 3, old: Entry { key: 8, value: [80], since: 2 } });
    /// assert_eq!(writing.evict(0)?, Evict::Evicted { at: 4, old: Entry { key: 7, value: [70], since: 1 } });
    /// assert_eq!(writing.evict(0)?, Evict::Empty { at: 4 });
    /// # Ok::<(), Box<dyn std::error::Error>>(())
    /// ```
    pub fn evict(&mut self, near: u64) -> Result<Evict<WORDS>, EvictError> {
        let mut old = [0; WORDS];
        let told = self.handle().evict(near, &mut old);
        Evict::of(old, told)
    }

    /// The entry that lies at a place of the table: in this item, from 0, of the shard of the key `near`. It is no use of the entry's key. `None`
    /// if the item has none, or a shard has fewer items. An entry stays in its item until its key is removed or evicted, so a program goes
    /// round all entries of a shard, a few at a time.
    ///
    /// # Examples
    ///
    /// ```
    /// use cefrodil::{Cache, Entry, Shape};
    ///
    /// let shape = Shape::for_items(100, 1)?;
    /// let mut handles = Cache::<1>::open(&shape, 1, 1)?;
    /// let mut writing = handles[0].hold()?;
    /// writing.put(7, &[70])?;
    /// let there: Vec<_> = (0..shape.items).filter_map(|item| writing.entry_at(0, item)).collect();
    /// assert_eq!(there, [Entry { key: 7, value: [70], since: 1 }]);
    /// # Ok::<(), Box<dyn std::error::Error>>(())
    /// ```
    #[must_use]
    pub fn entry_at(&mut self, near: u64, item: u32) -> Option<Entry<WORDS>> {
        let mut value = [0; WORDS];
        let told = self.handle().entry_at(near, item, &mut value);
        Entry::shown(value, told)
    }

    /// Looks the key up. Never [`Reply::Busy`]. A hit marks the key as recently used.
    #[inline]
    #[must_use]
    pub fn get(&mut self, key: u64) -> Reply<WORDS> {
        Reply::by(|value| self.handle().get(key, value))
    }

    /// Looks the keys up. Equivalent to calling [`get`](Writing::get) for each key in order.
    ///
    /// # Panics
    ///
    /// If there are not as many replies as keys.
    pub fn get_many(&mut self, keys: &[u64], replies: &mut [Reply<WORDS>]) {
        reply::many(self.handle(), keys, replies);
    }

    /// Looks the key up as [`get`](Writing::get) does, but marks nothing: it doesn't count as a use of the key.
    #[must_use]
    pub fn peek(&mut self, key: u64) -> Reply<WORDS> {
        let mut value = [0; WORDS];
        let told = self.handle().peek(key, &mut value);
        Reply::of(told, value)
    }

    /// The number of changes made to all shards. With one shard, that is the `at` of a lookup made now.
    #[must_use]
    pub fn moment(&mut self) -> u64 {
        reply::number(self.handle().moment())
    }

    /// The number of keys in the cache. It is kept, not counted, so this is quick at every size.
    #[must_use]
    pub fn len(&mut self) -> usize {
        reply::number(self.handle().len()) as usize
    }

    /// Whether no key is in the cache.
    #[must_use]
    pub fn is_empty(&mut self) -> bool {
        self.len() == 0
    }

    /// Loads the words that a lookup of the key will read, as [`Handle::prefetch`](crate::Handle::prefetch) does.
    #[inline]
    pub fn prefetch(&mut self, key: u64) {
        self.handle().prefetch(key);
    }

    /// The number of keys that the cache holds at most: the `items` of its shape, in all shards together.
    #[must_use]
    pub fn capacity(&mut self) -> usize {
        reply::number(self.handle().capacity()) as usize
    }

    /// Lists each key with its value, as [`Cache::open_with`](crate::Cache::open_with) takes them. The cache stays open. The library takes memory for the list, too.
    ///
    /// # Errors
    ///
    /// [`ListError::NoMemory`]: nothing was listed.
    ///
    /// # Examples
    ///
    /// A larger cache takes over the entries:
    ///
    /// ```
    /// use cefrodil::{Cache, Reply, Shape};
    ///
    /// let mut handles = Cache::<1>::open(&Shape::for_items(100, 1)?, 1, 1)?;
    /// let mut small = handles[0].hold()?;
    /// small.put(7, &[70])?;
    /// assert_eq!((small.len(), small.moment()), (1, 1));
    /// let mut large = Cache::<1>::open_with(&Shape::for_items(1000, 1)?, 1, 1, &small.entries()?)?;
    /// assert!(large.left.is_empty());
    /// assert_eq!(large.handles[0].get(7), Reply::Found { value: [70], at: 1, since: 1 });
    /// # Ok::<(), Box<dyn std::error::Error>>(())
    /// ```
    pub fn entries(&mut self) -> Result<Vec<(u64, [u64; WORDS])>, ListError> {
        let most = self.len();
        lists::without_turn(lists::entries(self.handle(), most))
    }

    /// Lists each entry with the moment of its key's last put, as its shard counts. A lookup of the key would return the same `since`, so
    /// pass it to [`put_if`](Writing::put_if). The call takes memory as [`entries`](Writing::entries) does.
    ///
    /// # Errors
    ///
    /// [`ListError::NoMemory`]: nothing was listed.
    ///
    /// # Examples
    ///
    /// Removes each key of a cache of one shard that has had no put since a moment:
    ///
    /// ```
    /// use cefrodil::{Cache, Entry, Shape};
    ///
    /// let mut handles = Cache::<1>::open(&Shape::for_items(100, 1)?, 1, 1)?;
    /// let mut writing = handles[0].hold()?;
    /// writing.put(7, &[70])?;
    /// let moment = writing.moment();
    /// writing.put(8, &[80])?;
    /// for entry in writing.stamped_entries()? {
    ///     if entry.since <= moment {
    ///         writing.remove(entry.key)?;
    ///     }
    /// }
    /// assert_eq!(writing.stamped_entries()?, [Entry { key: 8, value: [80], since: 2 }]);
    /// # Ok::<(), Box<dyn std::error::Error>>(())
    /// ```
    pub fn stamped_entries(&mut self) -> Result<Vec<Entry<WORDS>>, ListError> {
        let most = self.len();
        lists::without_turn(lists::stamped_entries(self.handle(), most))
    }

    /// Opens more handles of the cache, as [`Handle::more`] does.
    ///
    /// # Errors
    ///
    /// [`MoreError`]: no handle was opened.
    pub fn more(&mut self, count: usize) -> Result<Vec<Handle<WORDS>>, MoreError> {
        openings::more(self.handle(), count)
    }

    /// Reads what the calls by all handles of this cache came to.
    #[must_use]
    pub fn meter(&self) -> Meter {
        match &self.0 {
            Holder::Lent(handle) => handle.meter(),
            Holder::Own(handle) => handle.meter(),
        }
    }
}
