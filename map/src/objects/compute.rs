//! A value that is computed where the map has none.
use super::inner::ObjectInner;
use super::map::ObjectMap;
use super::object::{Held, Object};
use super::pinned::Over;
use super::put::Fail;
use crate::error::{GetError, UpdateError};
use crate::flight::Leader;
use crate::print::Print;
use crate::published::Published;
use crate::wait::LOOKS;
use std::borrow::Borrow;
use std::convert::Infallible;
use std::hash::{BuildHasher, Hash};
use std::sync::Arc;

impl<K, V, S> ObjectMap<K, V, S>
where
    K: Hash + Eq + Send + Sync + 'static,
    V: Clone + Send + Sync + 'static,
    S: BuildHasher,
{
    /// The key's value, or else the value that `make` makes, of which a clone is put. Threads that want the same key meanwhile wait, and
    /// then look it up again. If they don't find it, one of them calls its own `make`.
    ///
    /// - If the key is written or removed while `make` runs, the map keeps that, and the value that was made isn't put: it may be older.
    ///   The call returns the value that was written, or if there is none, the one that was made. Calls that begin after the write don't wait
    ///   for this one.
    /// - If the value finds no place, the call returns it all the same. `refused` of [`stats`](Self::stats) counts this.
    /// - If `make` calls this for the same key, or one with the same hash, the inner call only returns its value.
    /// - If threads would wait for each other for ever, since the `make` of each wants the value that the next one computes, one of them calls its own
    ///   `make` instead, for itself alone: that value isn't put.
    pub fn get_or_insert_with<Q>(&self, key: &Q, make: impl FnOnce() -> V) -> V
    where
        K: Borrow<Q>,
        Q: Hash + Eq + ToOwned<Owned = K> + ?Sized,
    {
        let Ok(value) = self.get_or_try_insert_with(key, || Ok::<V, Infallible>(make()));
        value
    }

    /// Like [`get_or_insert_with`](Self::get_or_insert_with), with a `make` that may fail. Then nothing is put, and one of the threads that
    /// wait calls its own.
    ///
    /// # Errors
    ///
    /// That of `make`.
    pub fn get_or_try_insert_with<Q, E>(&self, key: &Q, make: impl FnOnce() -> Result<V, E>) -> Result<V, E>
    where
        K: Borrow<Q>,
        Q: Hash + Eq + ToOwned<Owned = K> + ?Sized,
    {
        let inner = &self.inner;
        let hash = inner.hash(key);
        let found = inner.get(hash, key, inner.core.looks()).unwrap_or(None);
        inner.core.find_or_lead(
            Print::of_hash(hash),
            found,
            |_| inner.find(hash, key, inner.core.looks()),
            |leader| inner.compute(hash, key, leader, inner.core.tries, make),
        )
    }

    /// Like [`get_or_insert_with`](Self::get_or_insert_with), but each of its lookups and its put tries once. It doesn't wait until
    /// another thread has computed the value.
    ///
    /// # Errors
    ///
    /// [`GetError`]: `make` was not called.
    pub fn try_get_or_insert_with<Q>(&self, key: &Q, make: impl FnOnce() -> V) -> Result<V, GetError>
    where
        K: Borrow<Q>,
        Q: Hash + Eq + ToOwned<Owned = K> + ?Sized,
    {
        let inner = &self.inner;
        let hash = inner.hash(key);
        if let Some(value) = inner.get(hash, key, 1)? {
            return Ok(value);
        }
        inner.core.try_to_lead(Print::of_hash(hash), |leader| {
            let Ok(value) = inner.compute(hash, key, leader, 1, || Ok::<V, Infallible>(make()));
            value
        })
    }
}

impl<K: Eq, V: Clone, S> ObjectInner<Object<K, V>, S> {
    /// A lookup that is counted.
    pub fn get<Q: Eq + ?Sized>(&self, hash: u64, key: &Q, tries: u32) -> Result<Option<V>, GetError>
    where
        K: Borrow<Q>,
    {
        Ok(self.look(hash, key, tries, |object| object.value.clone())?.found())
    }

    /// A lookup that isn't.
    pub fn find<Q: Eq + ?Sized>(&self, hash: u64, key: &Q, tries: u32) -> Option<V>
    where
        K: Borrow<Q>,
    {
        self.pin().look(hash, key, tries)?.value().found().cloned()
    }

    /// Makes the value as the leader of a flight, or for the caller alone.
    pub fn compute<Q, E>(
        &self,
        hash: u64,
        key: &Q,
        leader: Option<&Leader<()>>,
        tries: u32,
        make: impl FnOnce() -> Result<V, E>,
    ) -> Result<V, E>
    where
        K: Borrow<Q>,
        Q: Eq + ToOwned<Owned = K> + ?Sized,
    {
        let Some(leader) = leader else { return self.core.load(make) };
        // After the begin of the flight: an invalidation has detached it, or ended this generation.
        let generation = self.core.generation.now();
        // An earlier flight may have ended since this thread looked the key up.
        if let Some(value) = self.find(hash, key, tries.min(LOOKS)) {
            return Ok(value);
        }
        let value = self.core.load(make)?;
        let object = self.object(key.to_owned(), value.clone(), None, generation);
        Ok(self.fill(hash, object, value, leader, tries).value())
    }

    /// Puts the object where its key has none, unless a write has detached the flight. The value is that of the object.
    /// The lock under which flights are detached is held for the put alone, while no code of the caller runs.
    pub fn fill(&self, hash: u64, mut object: Arc<Object<K, V>>, value: V, leader: &Leader<()>, tries: u32) -> Published<V> {
        let mut why = UpdateError::Contended;
        for _ in 0..tries {
            let pinned = self.pin();
            let over = match pinned.place(hash, &object.key, tries) {
                Some((Some(seen), _)) => return Published::Other(seen.object.value.clone()),
                Some((None, Over::Absent)) => Over::AbsentIn(object.generation()),
                Some((None, over)) => over,
                None => {
                    why = UpdateError::Busy;
                    break;
                }
            };
            drop(pinned);
            if !self.is_of_this_generation(&object) {
                return Published::Outdated(value);
            }
            let put = |word| leader.put(|| self.put_word(hash, word, over, tries)).unwrap_or(Err(Fail::Detached));
            match self.offer(hash, object, tries, put) {
                Ok(_) => return Published::Put(value),
                Err((object, Fail::Detached)) => {
                    let written = self.find(hash, &object.key, tries);
                    return written.map_or(Published::Outdated(value), Published::Other);
                }
                Err((_, Fail::Insert(fail, _))) => {
                    why = fail.into();
                    break;
                }
                Err((back, _)) => object = back,
            }
        }
        Published::Refused { value, why: self.core.refused(why) }
    }
}
