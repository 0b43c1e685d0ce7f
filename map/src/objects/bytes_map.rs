//! The map of bytes.
use super::builder::{Hears, Listener, Reason};
use super::bytes::{Any, Block, Bytes, Head};
use super::error::{AbsentError, IfError};
use super::inner::ObjectInner;
use super::look::Look;
use super::put::Put;
use crate::error::{GetError, InsertError, OpenError, RemoveError};
use crate::settings::Settings;
use crate::stats::{Kind, Stats};
use crate::wait::TRIES;
use cefrodil::Reply;
use std::collections::hash_map::RandomState;
use std::fmt::{self, Debug, Formatter};
use std::hash::BuildHasher;
use std::sync::Arc;

/// A bounded cache of keys and values that are bytes, for any number of threads: an [`ObjectMap`](crate::ObjectMap) whose objects are one block
/// each. It needs the feature `objects`. Each [`Block`] begins with a head of the program's own.
///
/// What an `ObjectMap` says of its writes, of keys with the same hash and of when objects are freed is true of this map, too. A block that
/// is refused is dropped. Nothing expires.
pub struct BytesMap<H: Head, S = RandomState> {
    pub(crate) inner: Arc<ObjectInner<Bytes<H>, S>>,
}

/// Chooses how a map of bytes is opened. Each choice is as in [`ObjectBuilder`](crate::ObjectBuilder), but
/// with named shards the map may hold many more entries than were asked for: as many as its tables have room for.
#[must_use = "a builder opens nothing before `open`"]
pub struct BytesBuilder<H, S = RandomState> {
    settings: Settings<S>,
    hears: Hears<Bytes<H>>,
}

impl<H: Head> BytesMap<H> {
    /// Chooses how to open a map for at least this many entries.
    pub fn builder(capacity: usize) -> BytesBuilder<H> {
        // The sum of what they weigh has no bound, and `evict` knows how many each shard has.
        let hears = Hears { weigher: Some((u64::MAX, Box::new(|_| 0))), ..Hears::nothing() };
        BytesBuilder { settings: Settings::new(capacity), hears }
    }
}

impl<H: Head, S> BytesBuilder<H, S> {
    /// How many shards.
    pub fn shards(mut self, shards: u32) -> Self {
        self.settings.shards = Some(shards);
        self
    }

    /// How many threads have a handle of their own.
    pub fn threads(mut self, threads: usize) -> Self {
        self.settings.threads = threads;
        self
    }

    /// What hashes the keys.
    pub fn hasher<T>(self, hasher: T) -> BytesBuilder<H, T> {
        BytesBuilder { settings: self.settings.hasher(hasher), hears: self.hears }
    }

    /// Who hears of what leaves the map.
    pub fn listener(mut self, listener: impl Fn(&Bytes<H>, Reason) + Send + Sync + 'static) -> Self {
        self.hears.listener = Some(Listener(Box::new(listener)));
        self
    }

    /// Who hears of what is freed.
    pub fn freed(mut self, freed: impl Fn(&Bytes<H>) + Send + Sync + 'static) -> Self {
        self.hears.freed = Some(Box::new(freed));
        self
    }
}

impl<H: Head, S: BuildHasher> BytesBuilder<H, S> {
    /// Opens the map.
    ///
    /// # Errors
    ///
    /// The first [`OpenError`] that applies.
    pub fn open(self) -> Result<BytesMap<H, S>, OpenError> {
        let (shape, shards) = self.settings.shape()?;
        let inner = ObjectInner::open(self.settings, (&shape, shards), TRIES, self.hears)?;
        Ok(BytesMap { inner: Arc::new(inner) })
    }
}

impl<H: Head, S> BytesMap<H, S> {
    /// As [`ObjectMap::capacity`](crate::ObjectMap::capacity).
    #[must_use]
    pub fn capacity(&self) -> usize {
        self.inner.core.bound.most()
    }

    /// As [`ObjectMap::len`](crate::ObjectMap::len).
    #[must_use]
    pub fn len(&self) -> usize {
        self.inner.core.slots.entries()
    }

    /// Whether [`len`](Self::len) is 0.
    #[must_use]
    pub fn is_empty(&self) -> bool {
        self.len() == 0
    }

    /// As [`ObjectMap::stats`](crate::ObjectMap::stats).
    #[must_use]
    pub fn stats(&self) -> Stats {
        self.inner.stats()
    }

    /// As [`ObjectMap::free_unused`](crate::ObjectMap::free_unused).
    pub fn free_unused(&self) -> usize {
        self.inner.free(self.inner.epochs.free_now());
        self.inner.epochs.waiting()
    }

    /// Looks up what has this hash, whatever its key is, for a program that tidies up: what is found does not count as used, nor is the lookup counted.
    /// It tries once for the turn of the hash's shard, as a write does, and is busy if that did not win.
    pub fn peek_hash<R>(&self, hash: u64, look: impl FnOnce(Result<Look<&Bytes<H>>, GetError>) -> R) -> R {
        let pinned = self.inner.pin();
        let reply = self.inner.core.slots.call(|handle| handle.try_peek(hash)).unwrap_or(Reply::Busy);
        look(pinned.state_or_look(hash, &Any, reply, 1).map(|state| state.object()).ok_or(GetError::Busy))
    }

    /// Evicts the block that would give way to a new key next, in a shard with many blocks. Calls `see` with the block, which stays until `see`
    /// returns, and with the moment of the eviction. Then the listener hears of the block. `None`: the map is empty.
    ///
    /// # Errors
    ///
    /// [`RemoveError`]: nothing was evicted.
    pub fn evict<R>(&self, see: impl FnOnce(&Bytes<H>, u64) -> R) -> Result<Option<R>, RemoveError> {
        self.inner.evict(self.inner.core.tries, Kind::Evicted, see)
    }

    /// As [`ObjectMap::remove_stamped`](crate::ObjectMap::remove_stamped). The listener hears this reason.
    ///
    /// # Errors
    ///
    /// [`IfError`]: this call removed nothing.
    pub fn remove_stamped(&self, hash: u64, since: u64, reason: Reason) -> Result<u64, IfError> {
        self.inner.remove_stamped(hash, since, reason)
    }
}

impl<H: Head, S: BuildHasher> BytesMap<H, S> {
    /// As [`ObjectMap::hash_of`](crate::ObjectMap::hash_of).
    #[must_use]
    pub fn hash_of(&self, key: &[u8]) -> u64 {
        self.inner.hash(key)
    }

    /// Looks the key up, and calls `look` with what was found. For one key it takes less than [`look_many`](Self::look_many).
    pub fn look<R>(&self, key: &[u8], look: impl FnOnce(Result<Look<&Bytes<H>>, GetError>) -> R) -> R {
        let pinned = self.inner.pin();
        let state = pinned.look(self.hash_of(key), key, self.inner.core.looks());
        self.inner.count(&state);
        look(state.map(|state| state.object()).ok_or(GetError::Busy))
    }

    /// As [`ObjectMap::look_many`](crate::ObjectMap::look_many).
    pub fn look_many(&self, keys: &[&[u8]], look: impl FnMut(usize, Result<Look<&Bytes<H>>, GetError>)) {
        self.inner.look_many(keys, look);
    }

    /// Puts the block, whatever its key has.
    ///
    /// # Errors
    ///
    /// [`InsertError`]: nothing was changed.
    pub fn put(&self, block: Block<H>) -> Result<Put, InsertError> {
        let hash = self.hash_of(block.key());
        self.inner.put(hash, block, self.inner.core.tries).map_err(|(_, why)| self.inner.core.refused(why))
    }

    /// Puts the block if its key is absent.
    ///
    /// # Errors
    ///
    /// [`AbsentError`]: nothing was changed.
    pub fn put_if_absent(&self, block: Block<H>) -> Result<Put, AbsentError> {
        let hash = self.hash_of(block.key());
        self.inner.put_new(hash, block, |block| block.key()).map_err(|(_, why)| self.inner.core.refused(why))
    }

    /// Puts the block if its key was put last at the moment `since`, as a lookup of this key returned it.
    ///
    /// # Errors
    ///
    /// [`IfError`]: nothing was changed.
    pub fn replace_if(&self, since: u64, block: Block<H>) -> Result<Put, IfError> {
        let hash = self.hash_of(block.key());
        self.inner.replace(hash, since, block).map_err(|(_, why)| self.inner.core.refused(why))
    }

    /// As [`ObjectMap::remove_if`](crate::ObjectMap::remove_if).
    ///
    /// # Errors
    ///
    /// [`IfError`]: this call removed nothing.
    pub fn remove_if(&self, key: &[u8], since: u64) -> Result<u64, IfError> {
        self.inner.remove_if(key, since)
    }
}

impl<H: Head, S> Debug for BytesMap<H, S> {
    fn fmt(&self, text: &mut Formatter) -> fmt::Result {
        text.debug_struct("BytesMap").field("len", &self.len()).field("capacity", &self.capacity()).finish_non_exhaustive()
    }
}

impl<H, S> Debug for BytesBuilder<H, S> {
    fn fmt(&self, text: &mut Formatter) -> fmt::Result {
        self.settings.fmt("BytesBuilder", text)
    }
}
