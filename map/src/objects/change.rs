//! Puts that depend on the value that is there.
use super::inner::ObjectInner;
use super::map::ObjectMap;
use super::object::{Held, Object};
use super::pinned::Over;
use super::put::{Fail, Put};
use crate::error::UpdateError;
use crate::generation::NONE;
use std::borrow::Borrow;
use std::hash::{BuildHasher, Hash};
use std::time::Duration;

impl<K, V, S> ObjectMap<K, V, S>
where
    K: Hash + Eq + Send + Sync + 'static,
    V: Send + Sync + 'static,
    S: BuildHasher,
{
    /// Puts what `change` makes of the key's value. No other write of the key comes between: if another thread is first, `change` is called
    /// again with what is there then. A value that is there keeps its deadline. The entry counts as used lately.
    ///
    /// `change` may run several times. It may use other keys of the map. It must not write its own key: then another write always comes
    /// between, and the call ends with [`UpdateError::Contended`]. If the entry is evicted, `change` begins anew with `None`.
    ///
    /// # Errors
    ///
    /// [`UpdateError`]: this call changed nothing.
    pub fn update(&self, key: K, change: impl FnMut(Option<&V>) -> V) -> Result<Put, UpdateError> {
        self.inner.update(key, self.inner.core.tries, change).map_err(|why| self.inner.core.refused(why))
    }

    /// Like [`update`](Self::update), with a single try. So `change` is called once at most.
    ///
    /// # Errors
    ///
    /// [`UpdateError`]: this call changed nothing.
    pub fn try_update(&self, key: K, change: impl FnMut(Option<&V>) -> V) -> Result<Put, UpdateError> {
        self.inner.update(key, 1, change).map_err(|why| self.inner.core.refused(why))
    }

    /// Like [`update`](Self::update), if the key has a value. `None`: it has none, and nothing was put. The deadline stays.
    ///
    /// # Errors
    ///
    /// [`UpdateError`]: this call changed nothing.
    pub fn modify<Q: Hash + Eq + ?Sized>(&self, key: &Q, mut change: impl FnMut(&V) -> V) -> Result<Option<Put>, UpdateError>
    where
        K: Borrow<Q> + Clone,
    {
        self.inner.modify(key, None, |old| Some(change(old))).map_err(|why| self.inner.core.refused(why))
    }

    /// Like [`modify`](Self::modify), with a `change` that may return `None`: then nothing is put, and this returns `None`, too.
    ///
    /// # Errors
    ///
    /// [`UpdateError`]: this call changed nothing.
    pub fn modify_some<Q: Hash + Eq + ?Sized>(
        &self,
        key: &Q,
        change: impl FnMut(&V) -> Option<V>,
    ) -> Result<Option<Put>, UpdateError>
    where
        K: Borrow<Q> + Clone,
    {
        self.inner.modify(key, None, change).map_err(|why| self.inner.core.refused(why))
    }

    /// Like [`modify`](Self::modify), and the entry's time to live begins anew with `life`. A removal that comes between is not undone. If
    /// the value stays the same, [`touch`](Self::touch) is quicker.
    ///
    /// # Errors
    ///
    /// [`UpdateError`]: this call changed nothing.
    pub fn modify_for<Q: Hash + Eq + ?Sized>(
        &self,
        key: &Q,
        life: Duration,
        mut change: impl FnMut(&V) -> V,
    ) -> Result<Option<Put>, UpdateError>
    where
        K: Borrow<Q> + Clone,
    {
        self.inner.modify(key, Some(life), |old| Some(change(old))).map_err(|why| self.inner.core.refused(why))
    }
}

// What is made of a value has its generation, so it ends with that. What is made of one that has ended has that of the lookup. What is made where nothing
// is has none before it is put.
impl<K: Hash + Eq, V, S: BuildHasher> ObjectInner<Object<K, V>, S> {
    fn update(&self, mut key: K, tries: u32, mut change: impl FnMut(Option<&V>) -> V) -> Result<Put, UpdateError> {
        let hash = self.hash(&key);
        for _ in 0..tries {
            let (pinned, generation) = (self.pin(), self.core.generation.now());
            let has_ended = || self.core.generation.now() != generation;
            let (seen, over) = pinned.place(hash, &key, tries).ok_or(UpdateError::Busy)?;
            if seen.is_none() && has_ended() {
                continue;
            }
            let value = change(seen.map(|seen| &seen.object.value));
            let made_in = match (seen, over) {
                (Some(seen), _) => seen.object.generation(),
                (None, Over::Absent) if has_ended() => continue,
                (None, Over::Absent) => NONE,
                (None, _) => generation,
            };
            let object = self.object(key, value, None, made_in);
            self.detach(hash);
            let put = match seen {
                Some(seen) => self.put_over_seen(hash, object, seen, tries),
                None => self.put_over(hash, object, over, tries),
            };
            match put {
                Ok(put) => return Ok(put),
                Err((_, Fail::Insert(why, _))) => return Err(why.into()),
                Err((object, _)) => (key, _) = Object::parts(object),
            }
        }
        Err(UpdateError::Contended)
    }

    fn modify<Q: Hash + Eq + ?Sized>(
        &self,
        key: &Q,
        anew: Option<Duration>,
        mut change: impl FnMut(&V) -> Option<V>,
    ) -> Result<Option<Put>, UpdateError>
    where
        K: Borrow<Q> + Clone,
    {
        let hash = self.hash(key);
        for _ in 0..self.core.tries {
            let pinned = self.pin();
            let (Some(seen), over) = pinned.place(hash, key, self.core.tries).ok_or(UpdateError::Busy)? else { return Ok(None) };
            let Some(value) = change(&seen.object.value) else { return Ok(None) };
            let object = self.object(seen.object.key.clone(), value, anew, seen.object.generation());
            self.detach(hash);
            let put = match anew {
                Some(_) => self.put_over(hash, object, over, self.core.tries),
                None => self.put_over_seen(hash, object, seen, self.core.tries),
            };
            match put {
                Ok(put) => return Ok(Some(put)),
                Err((_, Fail::Insert(why, _))) => return Err(why.into()),
                Err(_) => {}
            }
        }
        Err(UpdateError::Contended)
    }
}
