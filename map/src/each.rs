//! Calls for all entries of a map: of one that can give its keys back, but for `remove_expired`.
use crate::error::ClearError;
use crate::generation::check_in;
use crate::handle::{AnyHandle, Index};
use crate::inner::{Found, Inner};
use crate::key::{Key, Number};
use crate::map::Map;
use crate::stats::Kind;
use crate::words::{check, Entry, Seen};
use std::hash::BuildHasher;

// The bound is that of the calls: so the compiler says of other keys why they can't be given back.
impl<K: Key + ?Sized, V: Copy + Send + Sync + 'static, S: BuildHasher> Map<K, V, S> {
    /// Calls `look` with each key and its value, in no order. None of them counts as used. An entry that other threads put or remove meanwhile is
    /// among them or not, and one whose value they replace is so with the old value or the new one.
    ///
    /// It lists all entries first, so it takes memory for as many as the map can hold. The map keeps no keys, but it has those of
    /// [`Number`]:
    ///
    /// ```
    /// let ages = cefrodil_map::Map::<u32, u64>::new(100)?;
    /// ages.insert(&7, 41)?;
    /// let mut all = Vec::new();
    /// ages.for_each(|user, age| all.push((*user, *age)))?;
    /// assert_eq!(all, [(7, 41)]);
    /// # Ok::<(), Box<dyn std::error::Error>>(())
    /// ```
    ///
    /// ```compile_fail,E0277
    /// let ages = cefrodil_map::Map::<str, u64>::new(100)?;
    /// ages.for_each(|user, age| println!("{user}: {age}"))?;
    /// # Ok::<(), Box<dyn std::error::Error>>(())
    /// ```
    ///
    /// # Errors
    ///
    /// [`ClearError`]: `look` was not called.
    pub fn for_each(&self, mut look: impl FnMut(&K, &V)) -> Result<(), ClearError>
    where
        K: Number,
    {
        let generation = self.inner.core.generation.now();
        for (hash, mut words) in self.inner.core.list(self.inner.core.tries, AnyHandle::entries)? {
            if let Some((key, value)) = self.inner.entry(generation, hash, &mut words) {
                look(&key, &value);
            }
        }
        Ok(())
    }

    /// Removes the entries for which `keeps` returns false, and returns how many. None of those that stay counts as used. If other threads replace a
    /// value after `keeps` was shown it, it is shown the new one. So once this has returned, only what was put meanwhile may be there of what it refuses:
    /// no value that [`get_or_insert_with`](Map::get_or_insert_with) or a task began to load before this call.
    ///
    /// It lists all entries first, and takes a turn at each one's shard.
    ///
    /// # Errors
    ///
    /// [`ClearError`]: entries may be left.
    pub fn retain(&self, mut keeps: impl FnMut(&K, &V) -> bool) -> Result<usize, ClearError>
    where
        K: Number,
    {
        let inner = &self.inner;
        inner.core.flights.detach_all();
        inner.remove_those(Kind::Removed, |hash, words| {
            let entry = inner.entry(inner.core.generation.now(), hash, words);
            entry.is_some_and(|(key, value)| !keeps(&key, &value))
        })
    }

    /// Removes the entries that have expired, and returns how many. Those that [`invalidate_all`](Map::invalidate_all) has invalidated stay until they expire. It takes
    /// memory as [`clear`](Map::clear), and a turn at each one's shard.
    ///
    /// ```
    /// use std::time::Duration;
    ///
    /// let codes = cefrodil_map::Map::<str, u32>::builder(100).time_to_live(Duration::from_secs(60)).open()?;
    /// codes.insert("ann", 1)?;
    /// codes.insert_for("bob", 2, Duration::ZERO)?;
    /// assert_eq!((codes.len(), codes.remove_expired(), codes.len()), (2, Ok(1), 1));
    /// # Ok::<(), Box<dyn std::error::Error>>(())
    /// ```
    ///
    /// # Errors
    ///
    /// [`ClearError`]: expired entries may be left.
    pub fn remove_expired(&self) -> Result<usize, ClearError> {
        self.inner.remove_those(Kind::Ended, |_, words| self.inner.has_expired(&Entry::of(words, self.inner.layout)))
    }
}

impl<K: Number, V: Copy, S: BuildHasher> Inner<K, V, S> {
    // The key and the value of an entry that has not expired.
    //
    // Its check word is the number with the generation. One that is of another generation has a number whose hash is not there.
    fn entry(&self, generation: u64, hash: u64, words: &mut [u64]) -> Option<(K, V)> {
        let key = K::of_bits(check_in(generation, check(words)))?;
        let print = self.print(&key).dated(generation);
        // No moment is asked for.
        match self.found(print, Seen::Entry(words, 0)) {
            Some(Found::Live(entry, _)) if print.key == hash => Some((key, entry.value)),
            _ => None,
        }
    }
}

impl<K: Key + ?Sized, V: Copy, S: BuildHasher> Inner<K, V, S> {
    // Removes the entries for whose hash and words `leaves` returns true, for this cause, and returns how many.
    fn remove_those(&self, cause: Kind, mut leaves: impl FnMut(u64, &mut [u64]) -> bool) -> Result<usize, ClearError> {
        let look = |hash| match Seen::of(&mut self.core.slots.call(|handle| handle.peek(hash))) {
            Seen::Entry(words, since) => Some(leaves(hash, words).then_some(since)),
            Seen::Absent => Some(None),
            Seen::Busy => None,
        };
        let take = |hash, since| self.take_if(hash, since, self.core.tries, cause);
        let listed = self.core.list(self.core.tries, Index::keys);
        listed.and_then(|hashes| self.core.take_those(hashes, look, take)).map_err(|why| self.core.refused(why))
    }
}
