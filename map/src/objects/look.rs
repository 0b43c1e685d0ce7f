//! Lookups of objects.
use super::inner::ObjectInner;
use super::map::ObjectMap;
use super::object::{Held, Keyed};
use super::pinned::State;
use crate::error::GetError;
use crate::handle::MANY;
use crate::stats::Kind;
use cefrodil::{Reply, TurnError};
use std::borrow::Borrow;
use std::hash::{BuildHasher, Hash};
use std::time::Duration;

/// What a lookup or a removal found. `at` and `since` count the changes of the key's shard: never compare those of two keys.
#[derive(Clone, Copy, Debug, PartialEq, Eq, Hash)]
#[non_exhaustive]
pub enum Look<R> {
    /// The key has a value, and this came of it.
    Found {
        /// What the closure made of the value.
        result: R,
        /// The moment when that was true; of a removal, the moment of the removal.
        at: u64,
        /// The moment of the key's last put: the token for [`replace_if`](ObjectMap::replace_if) and [`remove_if`](ObjectMap::remove_if).
        since: u64,
    },
    /// The key's value has expired, but it is still in the map.
    Expired {
        /// As in `Found`.
        at: u64,
        /// As in `Found`.
        since: u64,
    },
    /// The key is absent.
    Absent {
        /// The moment when that was true.
        at: u64,
    },
}

impl<R> Look<R> {
    /// What came of the value, if the key was found.
    #[must_use]
    pub fn found(self) -> Option<R> {
        match self {
            Look::Found { result, .. } => Some(result),
            Look::Expired { .. } | Look::Absent { .. } => None,
        }
    }

    /// With what `change` makes of what came of the value.
    pub(crate) fn map<T>(self, change: impl FnOnce(R) -> T) -> Look<T> {
        match self {
            Look::Found { result, at, since } => Look::Found { result: change(result), at, since },
            Look::Expired { at, since } => Look::Expired { at, since },
            Look::Absent { at } => Look::Absent { at },
        }
    }
}

impl<K, V, S> ObjectMap<K, V, S>
where
    K: Hash + Eq + Send + Sync + 'static,
    V: Send + Sync + 'static,
    S: BuildHasher,
{
    /// A clone of the key's value. A value that is found counts as used lately. If a clone costs much, take [`get_with`](Self::get_with), or
    /// an `Arc` as the value.
    ///
    /// `None`: the key is absent, expired or evicted, or writes disturbed the lookup for a tenth of a second, which `busy` of
    /// [`stats`](Self::stats) counts.
    #[inline]
    #[must_use]
    pub fn get<Q: Hash + Eq + ?Sized>(&self, key: &Q) -> Option<V>
    where
        K: Borrow<Q>,
        V: Clone,
    {
        self.get_with(key, V::clone)
    }

    /// A clone of the key's value, by one lookup. `None`: the key is absent, expired or evicted.
    ///
    /// # Errors
    ///
    /// [`GetError::Busy`].
    pub fn try_get<Q: Hash + Eq + ?Sized>(&self, key: &Q) -> Result<Option<V>, GetError>
    where
        K: Borrow<Q>,
        V: Clone,
    {
        self.inner.get(self.inner.hash(key), key, 1)
    }

    /// Calls `look` with the key's value, and returns what it returns. `None`: as [`get`](Self::get).
    ///
    /// While `look` runs, no object that leaves the map is freed, in any thread: so be quick, and [`pin`](Self::pin) the value for anything that may
    /// block. `look` may call the map.
    #[inline]
    pub fn get_with<Q: Hash + Eq + ?Sized, R>(&self, key: &Q, look: impl FnOnce(&V) -> R) -> Option<R>
    where
        K: Borrow<Q>,
    {
        self.inner.find_with(key, |object| look(&object.value))
    }

    /// A clone of the key's value, which doesn't count as used: it is evicted as if nobody had looked. [`stats`](Self::stats) doesn't count the
    /// call. It takes the turn at the key's shard, as a write does.
    ///
    /// # Errors
    ///
    /// [`GetError::Busy`]: other threads had the turn at each try.
    pub fn peek<Q: Hash + Eq + ?Sized>(&self, key: &Q) -> Result<Option<V>, GetError>
    where
        K: Borrow<Q>,
        V: Clone,
    {
        self.peek_with(key, V::clone)
    }

    /// Like [`peek`](Self::peek). Calls `look` with the key's value, and returns what it returns.
    ///
    /// # Errors
    ///
    /// As [`peek`](Self::peek).
    pub fn peek_with<Q: Hash + Eq + ?Sized, R>(&self, key: &Q, look: impl FnOnce(&V) -> R) -> Result<Option<R>, GetError>
    where
        K: Borrow<Q>,
    {
        let inner = &self.inner;
        let pinned = inner.pin();
        let state = pinned.peek(inner.hash(key), key, inner.core.tries).ok_or(GetError::Busy)?;
        Ok(state.value().map(look).found())
    }

    /// Whether the key has a value, which then counts as used lately.
    #[must_use]
    pub fn contains_key<Q: Hash + Eq + ?Sized>(&self, key: &Q) -> bool
    where
        K: Borrow<Q>,
    {
        self.get_with(key, |_| ()).is_some()
    }

    /// Like [`get_with`](Self::get_with), with the moments of the answer. So it gives the token for a write that must not overwrite a later
    /// one.
    ///
    /// # Errors
    ///
    /// [`GetError::Busy`], after a tenth of a second.
    pub fn look<Q: Hash + Eq + ?Sized, R>(&self, key: &Q, look: impl FnOnce(&V) -> R) -> Result<Look<R>, GetError>
    where
        K: Borrow<Q>,
    {
        self.inner.look(self.inner.hash(key), key, self.inner.core.looks(), |object| look(&object.value))
    }

    /// Clones of the values of these keys, in their order: each as by [`get`](Self::get), with fewer calls of the index.
    #[must_use]
    pub fn get_many<'a, Q: Hash + Eq + ?Sized + 'a>(&self, keys: impl IntoIterator<Item = &'a Q>) -> Vec<Option<V>>
    where
        K: Borrow<Q>,
        V: Clone,
    {
        let keys: Vec<&Q> = keys.into_iter().collect();
        let mut values = vec![None; keys.len()];
        self.get_many_with(&keys, |index, value| values[index] = Some(value.clone()));
        values
    }

    /// Looks the keys up in order, and calls `look` with the index and the value of each that is found. Up to 32 keys are looked up before
    /// `look` gets the first of them. No object that leaves the map is freed before the call ends.
    pub fn get_many_with<Q: Hash + Eq + ?Sized>(&self, keys: &[&Q], mut look: impl FnMut(usize, &V))
    where
        K: Borrow<Q>,
    {
        self.look_many(keys, |index, found| {
            if let Ok(Look::Found { result, .. }) = found {
                look(index, result);
            }
        });
    }

    /// Like [`look`](Self::look) of each key in order. `look` gets the index of each key and what was found.
    pub fn look_many<Q: Hash + Eq + ?Sized>(&self, keys: &[&Q], mut look: impl FnMut(usize, Result<Look<&V>, GetError>))
    where
        K: Borrow<Q>,
    {
        self.inner.look_many(keys, |index, found| look(index, found.map(|look| look.map(|object| &object.value))));
    }

    /// Begins the value's time to live anew with `life`, in place: no token changes, and nothing is copied. A removal that comes between is
    /// not undone. `false`: the key has no value, or other threads disturbed each try. If the value expires meanwhile, it may go all the same.
    pub fn touch<Q: Hash + Eq + ?Sized>(&self, key: &Q, life: Duration) -> bool
    where
        K: Borrow<Q>,
    {
        self.inner.touch(key, life)
    }
}

impl<O: Held, S: BuildHasher> ObjectInner<O, S> {
    /// Like `look`, without the moments, so that they are not copied.
    #[inline]
    pub fn find_with<Q: Hash + ?Sized, R>(&self, key: &Q, look: impl FnOnce(&O) -> R) -> Option<R>
    where
        O: Keyed<Q>,
    {
        let hash = self.hash(key);
        let pinned = self.pin();
        let state = pinned.look(hash, key, self.core.looks());
        self.count(&state);
        match state {
            Some(State::Live(seen)) => Some(look(seen.object)),
            _ => None,
        }
    }

    pub fn look_many<Q: Hash + ?Sized>(&self, keys: &[&Q], mut look: impl FnMut(usize, Result<Look<&O>, GetError>))
    where
        O: Keyed<Q>,
    {
        let pinned = self.pin();
        for (chunk, keys) in keys.chunks(MANY).enumerate() {
            let mut hashes = [0; MANY];
            hashes.iter_mut().zip(keys).for_each(|(hash, key)| *hash = self.hash(*key));
            let mut replies = [Reply::Busy; MANY];
            self.core.slots.call(|handle| handle.get_many(&hashes[..keys.len()], &mut replies[..keys.len()]));
            for (index, ((key, hash), reply)) in keys.iter().zip(hashes).zip(replies).enumerate() {
                let state = pinned.state_or_look(hash, *key, reply, self.core.looks());
                self.count(&state);
                look(chunk * MANY + index, state.map(State::object).ok_or(GetError::Busy));
            }
        }
    }

    // The lock keeps the deadline still while another call makes an object that keeps it. No code of the caller runs under it.
    fn touch<Q: Hash + ?Sized>(&self, key: &Q, life: Duration) -> bool
    where
        O: Keyed<Q>,
    {
        let hash = self.hash(key);
        let pinned = self.pin();
        for _ in 0..self.core.tries {
            let Some(State::Live(seen)) = pinned.look(hash, key, self.core.looks()) else { return false };
            let touched = self.core.slots.in_turn(self.core.tries, || {
                self.core.in_lock(hash, |handle| match handle.get_or_turn(hash) {
                    Reply::Found { since, .. } if since == seen.since => {
                        seen.object.set_deadline(self.deadline(Some(life)));
                        Ok(true)
                    }
                    Reply::Found { .. } | Reply::Absent { .. } => Ok(false),
                    Reply::Busy => Err(TurnError::<()>::Held),
                })
            });
            match touched {
                Ok(true) => return true,
                Ok(false) => {}
                Err(_) => return false,
            }
        }
        false
    }
}

impl<O: Held, S> ObjectInner<O, S> {
    /// A lookup that is counted.
    pub fn look<Q: ?Sized, R>(&self, hash: u64, key: &Q, tries: u32, look: impl FnOnce(&O) -> R) -> Result<Look<R>, GetError>
    where
        O: Keyed<Q>,
    {
        let pinned = self.pin();
        let state = pinned.look(hash, key, tries);
        self.count(&state);
        Ok(state.ok_or(GetError::Busy)?.object().map(look))
    }

    /// Counts a lookup.
    #[inline]
    pub fn count(&self, state: &Option<State<O>>) {
        match state {
            Some(State::Live(_)) => self.core.slots.count(Kind::Hit),
            None => self.core.slots.count(Kind::Busy),
            Some(State::Expired(_)) => self.core.slots.count_for(Kind::Miss, Kind::Expired),
            Some(State::Other(_)) => self.core.slots.count_for(Kind::Miss, Kind::Collided),
            Some(State::Absent { .. }) => self.core.slots.count(Kind::Miss),
        }
    }
}
