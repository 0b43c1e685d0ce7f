//! Puts that depend on the value that is there.
use crate::error::{InsertError, UpdateError};
use crate::handle::AnyHandle;
use crate::inner::{Found, Inner};
use crate::key::Key;
use crate::map::Map;
use crate::print::Print;
use crate::stats::Kind;
use crate::words::Words;
use cefrodil::{PutIfError, TurnError};
use std::borrow::Borrow;
use std::hash::BuildHasher;
use std::time::Duration;

impl<K: Key + ?Sized, V: Copy + Send + Sync + 'static, S: BuildHasher> Map<K, V, S> {
    /// Puts what `change` makes of the key's value, and returns it. No other write of the key comes between: if another thread is first,
    /// `change` is called again with what is there then. A value that is there keeps its deadline. The entry counts as used lately.
    ///
    /// - `change` may run several times. It may use other keys of the map. It must not write its own key: then another write always comes
    ///   between, and the call ends with [`UpdateError::Contended`].
    /// - If the entry is evicted, `change` begins anew with `None`. To count without loss, take a capacity well above the number of keys,
    ///   and treat `evicted` of [`stats`](Map::stats) as an error.
    /// - Don't put the time into the key of a counter, as in `(user, minute)`: the keys of past minutes fill any capacity. Then each new key
    ///   evicts one, so `evicted` says nothing. Take the user as the key and `{ minute, count }` as the value, and begin anew when the minute
    ///   differs.
    ///
    /// # Errors
    ///
    /// [`UpdateError`]: this call changed nothing.
    pub fn update<Q: Key + ?Sized>(&self, key: &Q, change: impl FnMut(Option<V>) -> V) -> Result<V, UpdateError>
    where
        K: Borrow<Q>,
    {
        self.inner.update(key, self.inner.core.tries, change)
    }

    /// Like [`update`](Map::update), with a single try. So `change` is called once at most.
    ///
    /// # Errors
    ///
    /// [`UpdateError`]: this call changed nothing.
    pub fn try_update<Q: Key + ?Sized>(&self, key: &Q, change: impl FnMut(Option<V>) -> V) -> Result<V, UpdateError>
    where
        K: Borrow<Q>,
    {
        self.inner.update(key, 1, change)
    }

    /// Like [`update`](Map::update), if the key has a value. Returns the new value. `None`: the key has none, and nothing was put. The
    /// deadline stays: [`modify_for`](Map::modify_for) moves it.
    ///
    /// # Errors
    ///
    /// [`UpdateError`]: this call changed nothing.
    pub fn modify<Q: Key + ?Sized>(&self, key: &Q, mut change: impl FnMut(V) -> V) -> Result<Option<V>, UpdateError>
    where
        K: Borrow<Q>,
    {
        self.inner.change_detached(self.inner.print(key), self.inner.core.tries, None, |old| old.map(&mut change))
    }

    /// Like [`modify`](Map::modify), with a `change` that may return `None`: then nothing is put, and this returns `None`, too.
    ///
    /// ```
    /// let stock = cefrodil_map::Map::<str, u64>::new(100)?;
    /// stock.insert("apples", 1)?;
    /// assert_eq!(stock.modify_some("apples", |left| left.checked_sub(1)), Ok(Some(0)));
    /// assert_eq!(stock.modify_some("apples", |left| left.checked_sub(1)), Ok(None));
    /// assert_eq!(stock.get("apples"), Some(0));
    /// # Ok::<(), Box<dyn std::error::Error>>(())
    /// ```
    ///
    /// # Errors
    ///
    /// [`UpdateError`]: this call changed nothing.
    pub fn modify_some<Q: Key + ?Sized>(&self, key: &Q, mut change: impl FnMut(V) -> Option<V>) -> Result<Option<V>, UpdateError>
    where
        K: Borrow<Q>,
    {
        self.inner.change_detached(self.inner.print(key), self.inner.core.tries, None, |old| old.and_then(&mut change))
    }

    /// Like [`modify`](Map::modify), and the entry's time to live begins anew with `life`. This renews an entry: a removal that comes
    /// between is not undone.
    ///
    /// ```
    /// use cefrodil_map::Map;
    /// use std::time::Duration;
    ///
    /// let hour = Duration::from_secs(3600);
    /// let users = Map::<str, u64>::builder(1_000).time_to_live(hour).open()?;
    /// users.insert("token", 7)?;
    /// assert_eq!(users.modify_for("token", hour, |user| user)?, Some(7));
    /// users.remove("token")?;
    /// assert_eq!(users.modify_for("token", hour, |user| user)?, None);
    /// # Ok::<(), Box<dyn std::error::Error>>(())
    /// ```
    ///
    /// # Errors
    ///
    /// [`UpdateError`]: this call changed nothing. [`InsertError::NoTimeToLive`] in it if the map was opened without one.
    pub fn modify_for<Q: Key + ?Sized>(
        &self,
        key: &Q,
        life: Duration,
        mut change: impl FnMut(V) -> V,
    ) -> Result<Option<V>, UpdateError>
    where
        K: Borrow<Q>,
    {
        let inner = &self.inner;
        match inner.core.life {
            Some(_) => inner.change_detached(inner.print(key), inner.core.tries, Some(life), |old| old.map(&mut change)),
            None => Err(inner.core.refused(InsertError::NoTimeToLive.into())),
        }
    }
}

impl<K: Key + ?Sized, V: Copy, S: BuildHasher> Inner<K, V, S> {
    fn update<Q: Key + ?Sized>(&self, key: &Q, tries: u32, mut change: impl FnMut(Option<V>) -> V) -> Result<V, UpdateError> {
        let new = self.change_detached(self.print(key), tries, None, |old| Some(change(old)))?;
        Ok(new.expect("`change` always gives a value"))
    }

    // Like `change`, as a write of its own: before each put it detaches the key's flight. It counts a refusal.
    fn change_detached(
        &self,
        print: Print,
        tries: u32,
        anew: Option<Duration>,
        mut change: impl FnMut(Option<V>) -> Option<V>,
    ) -> Result<Option<V>, UpdateError> {
        let changed = self.change(print, tries, anew, |old| {
            let new = change(old)?;
            self.core.flights.detach(print);
            Some(new)
        });
        changed.map_err(|why| self.core.refused(why))
    }

    /// Puts what `change` makes of the key's value, unless another thread puts the key meanwhile; then it begins again. Returns what was
    /// put. If `change` gives nothing, nothing is put. A value that is there keeps its deadline, or lives `anew` for so long. The print is of no generation: each
    /// try is in that of its begin, also what it puts.
    pub fn change(
        &self,
        print: Print,
        tries: u32,
        anew: Option<Duration>,
        mut change: impl FnMut(Option<V>) -> Option<V>,
    ) -> Result<Option<V>, UpdateError> {
        for _ in 0..tries {
            let generation = self.core.generation.now();
            let print = print.dated(generation);
            let (old, since) = match self.look(print, tries).ok_or(UpdateError::Busy)? {
                Found::Live(entry, since) => (Some(entry), Some(since)),
                // It may be the key's, of a later generation. What had expired may have been live in this one until that ended.
                Found::Expired(_) | Found::Other(_) if self.core.generation.now() != generation => continue,
                Found::Expired(since) | Found::Other(since) => (None, Some(since)),
                Found::Absent => (None, None),
            };
            let Some(new) = change(old.map(|entry| entry.value)) else { return Ok(None) };
            let deadline = match (anew, old) {
                (None, Some(entry)) => entry.deadline,
                _ => self.deadline(anew.or(self.core.life)),
            };
            let words = self.words(print, new, deadline);
            self.take_ended(print.key);
            let is_put = match since {
                Some(since) => self.put_over(print, since, &words, tries),
                None => self.put_absent(print, generation, &words, tries),
            };
            if is_put? {
                return Ok(Some(new));
            }
        }
        Err(UpdateError::Contended)
    }

    // Puts the words if the key's last put was at the moment `since`. `false`: another thread was first.
    fn put_over(&self, print: Print, since: u64, words: &Words, tries: u32) -> Result<bool, InsertError> {
        match self.core.slots.in_turn(tries, || self.core.in_lock(print.key, |handle| handle.put_if(print.key, since, words))) {
            Ok(_) => {
                self.core.slots.count(Kind::Renewed);
                Ok(true)
            }
            Err(TurnError::Call(PutIfError::NotThere { .. } | PutIfError::Changed { .. })) => Ok(false),
            Err(TurnError::Call(_)) => Err(InsertError::Spent),
            Err(TurnError::Held) => Err(InsertError::Held),
        }
    }

    // Puts the words if the key is absent, and this generation has not ended before that was so. `false`: it is not so.
    fn put_absent(&self, print: Print, generation: u64, words: &Words, tries: u32) -> Result<bool, InsertError> {
        let put = |handle: &mut AnyHandle| match self.core.bound.is_full() {
            true => self.core.bounded(handle.put_if_absent_bounded(print.key, words), |put| *put, drop),
            false => handle.put_if_absent(print.key, words),
        };
        match self.core.slots.in_turn(tries, || self.core.in_generation(print.key, generation, put)) {
            Ok(put) => {
                self.count_put(print, put, tries);
                Ok(true)
            }
            Err(why) => InsertError::of_absent(why).map_or(Ok(false), Err),
        }
    }
}
