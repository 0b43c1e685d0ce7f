//! A value that is computed where the map has none.
use crate::error::GetError;
use crate::flight::Leader;
use crate::inner::{Found, Inner};
use crate::key::Key;
use crate::map::Map;
use crate::print::Print;
use crate::published::Published;
use crate::wait::LOOKS;
use std::borrow::Borrow;
use std::convert::Infallible;
use std::hash::BuildHasher;
use std::time::Duration;

impl<K: Key + ?Sized, V: Copy + Send + Sync + 'static, S: BuildHasher> Map<K, V, S> {
    /// The key's value, or else the value that `make` makes, which is put. Threads that want the same key meanwhile wait, and get the same
    /// value. If `make` panics, or the key has another value by then, they look it up again. If they don't find it, one of them calls its own.
    ///
    /// - If the key is written or removed while `make` runs, the map keeps that, and the value that was made isn't put: it may be older.
    ///   The call returns it, or the value that was written. So may a call that waits, if it began before the write returned. Calls that begin
    ///   after the write don't wait for this one.
    /// - If the value finds no place, the call returns it all the same. `refused` of [`stats`](Map::stats) counts this.
    /// - If `make` calls this for the same key, the inner call only returns its value.
    /// - If threads would wait for each other for ever, since the `make` of each wants the value that the next one computes, one of them calls its own
    ///   `make` instead, for itself alone: that value isn't put.
    pub fn get_or_insert_with<Q: Key + ?Sized>(&self, key: &Q, make: impl FnOnce() -> V) -> V
    where
        K: Borrow<Q>,
    {
        let Ok(value) = self.get_or_try_insert_with(key, || Ok::<V, Infallible>(make()));
        value
    }

    /// Like [`get_or_insert_with`](Map::get_or_insert_with), with a `make` that may fail. Then nothing is put, and one of the threads that
    /// wait calls its own.
    ///
    /// # Errors
    ///
    /// That of `make`.
    pub fn get_or_try_insert_with<Q: Key + ?Sized, E>(&self, key: &Q, make: impl FnOnce() -> Result<V, E>) -> Result<V, E>
    where
        K: Borrow<Q>,
    {
        let inner = &self.inner;
        let print = inner.print(key);
        let found = inner.get(print.dated(inner.core.generation.now()), inner.core.looks(), |told| told.unwrap_or(None));
        inner.core.find_or_lead(
            print,
            found,
            |handed_on| handed_on.or_else(|| inner.find(print, inner.core.looks())),
            |leader| inner.compute(print, leader, inner.core.tries, make),
        )
    }

    /// Like [`get_or_insert_with`](Map::get_or_insert_with), but each of its lookups and its put tries once. It doesn't wait until
    /// another thread has computed the value.
    ///
    /// # Errors
    ///
    /// [`GetError`]: `make` was not called.
    pub fn try_get_or_insert_with<Q: Key + ?Sized>(&self, key: &Q, make: impl FnOnce() -> V) -> Result<V, GetError>
    where
        K: Borrow<Q>,
    {
        let inner = &self.inner;
        let print = inner.print(key);
        if let Some(value) = inner.get(print.dated(inner.core.generation.now()), 1, |told| told)? {
            return Ok(value);
        }
        inner.core.try_to_lead(print, |leader| {
            let Ok(value) = inner.compute(print, leader, 1, || Ok::<V, Infallible>(make()));
            value
        })
    }
}

impl<K: Key + ?Sized, V: Copy, S: BuildHasher> Inner<K, V, S> {
    /// A lookup that isn't counted, in the generation of now.
    pub fn find(&self, print: Print, tries: u32) -> Option<V> {
        match self.look(print.dated(self.core.generation.now()), tries)? {
            Found::Live(entry, _) => Some(entry.value),
            Found::Expired(_) | Found::Other(_) | Found::Absent => None,
        }
    }

    /// Makes the value as the leader of a flight, or for the caller alone.
    pub fn compute<E>(
        &self,
        print: Print,
        leader: Option<&Leader<V>>,
        tries: u32,
        make: impl FnOnce() -> Result<V, E>,
    ) -> Result<V, E> {
        let Some(leader) = leader else { return self.core.load(make) };
        // After the begin of the flight: an invalidation has detached it, or ended this generation.
        let generation = self.core.generation.now();
        // An earlier flight may have ended since this thread looked the key up. What is found is not for those that wait: it may have been
        // removed before their calls began.
        if let Some(value) = self.find(print, tries.min(LOOKS)) {
            return Ok(value);
        }
        let value = self.core.load(make)?;
        Ok(leader.end(value, || self.fill(print, generation, value, None, tries)).value())
    }

    /// Puts the value where the key has none, unless the generation that it was computed in has ended. `life`: a time to live of its own.
    pub fn fill(&self, print: Print, generation: u64, value: V, life: Option<Duration>, tries: u32) -> Published<V> {
        let mut other = None;
        let put = self.change(print, tries, life, |present| {
            other = present;
            (present.is_none() && self.core.generation.now() == generation).then_some(value)
        });
        match put {
            Ok(Some(_)) => Published::Put(value),
            Ok(None) => other.map_or(Published::Outdated(value), Published::Other),
            Err(why) => Published::Refused { value, why: self.core.refused(why) },
        }
    }
}
