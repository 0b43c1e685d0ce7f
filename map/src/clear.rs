//! The end of all entries: by one step, or by a removal of each.
use crate::error::ClearError;
use crate::handle::Index;
use crate::key::Key;
use crate::map::Map;
use crate::stats::Kind;
use cefrodil::Removal;

impl<K: ?Sized, V: Copy, S> Map<K, V, S> {
    /// Invalidates all entries, by one step however many there are. Once this has returned, no lookup finds a value that was put before this call, nor one
    /// that [`get_or_insert_with`](Map::get_or_insert_with) or a task began to load before it. What a call puts that begins later is found. What a call
    /// puts meanwhile may be found or not.
    ///
    /// The entries stay until they are overwritten or evicted, and [`len`](Map::len) counts them. [`clear`](Map::clear) removes them.
    ///
    /// ```
    /// let rates = cefrodil_map::Map::<str, u64>::new(100)?;
    /// rates.insert("EUR", 100)?;
    /// rates.invalidate_all();
    /// assert_eq!((rates.get("EUR"), rates.len()), (None, 1));
    /// rates.insert("EUR", 101)?;
    /// assert_eq!((rates.get("EUR"), rates.len()), (Some(101), 1));
    /// # Ok::<(), Box<dyn std::error::Error>>(())
    /// ```
    pub fn invalidate_all(&self) {
        self.inner.core.invalidate_all();
    }
}

impl<K: Key + ?Sized, V: Copy, S> Map<K, V, S> {
    /// Removes all entries. Once this has returned, no later lookup finds a value that was put before this call, nor one that
    /// [`get_or_insert_with`](Map::get_or_insert_with) began to compute before it. What other threads put meanwhile may stay or go.
    ///
    /// It lists all keys, so it takes memory for as many as the map can hold.
    ///
    /// # Errors
    ///
    /// [`ClearError`]: entries may be left.
    pub fn clear(&self) -> Result<(), ClearError> {
        self.clear_within(self.inner.core.tries)
    }

    /// Like [`clear`](Map::clear), with a single try at each step.
    ///
    /// # Errors
    ///
    /// [`ClearError`]: entries may be left.
    pub fn try_clear(&self) -> Result<(), ClearError> {
        self.clear_within(1)
    }

    fn clear_within(&self, tries: u32) -> Result<(), ClearError> {
        let core = &self.inner.core;
        core.flights.detach_all();
        let remove_all = || -> Result<(), ClearError> {
            for key in core.list(tries, Index::keys)? {
                let removed = core.slots.in_turn(tries, || core.in_lock(key, |handle| handle.remove(key)));
                if let Removal::Removed { .. } = removed.map_err(ClearError::of_removal)? {
                    core.count_left(Kind::Removed, Kind::Removed);
                }
            }
            Ok(())
        };
        remove_all().map_err(|why| core.refused(why))
    }
}
