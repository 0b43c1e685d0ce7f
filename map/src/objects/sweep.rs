//! Calls for all objects.
use super::builder::Reason;
use super::inner::ObjectInner;
use super::map::ObjectMap;
use super::object::Held;
use crate::error::ClearError;
use crate::handle::Index;
use crate::stats::Kind;
use cefrodil::{Handle, Reply, Take};

impl<K, V, S> ObjectMap<K, V, S> {
    /// Invalidates all entries, by one step however many there are. Once this has returned, no lookup finds a value that was put before this call, nor one
    /// that [`get_or_insert_with`](Self::get_or_insert_with) or a task began to load before it, nor what an update makes of one. What a call puts that
    /// begins later is found. What a call puts meanwhile may be found or not.
    ///
    /// The entries are as ones that have expired. They stay until they are overwritten, removed or evicted, and [`len`](Self::len) and
    /// [`weight`](Self::weight) count them. [`remove_expired`](Self::remove_expired) removes them.
    ///
    /// ```
    /// let pages = cefrodil_map::ObjectMap::<String, String>::new(100)?;
    /// pages.insert("/".into(), "old".into())?;
    /// pages.invalidate_all();
    /// assert_eq!((pages.get("/"), pages.len()), (None, 1));
    /// assert_eq!((pages.remove_expired(), pages.len()), (Ok(1), 0));
    /// # Ok::<(), Box<dyn std::error::Error>>(())
    /// ```
    pub fn invalidate_all(&self) {
        self.inner.core.invalidate_all();
    }

    /// Removes all entries. Once this has returned, no later lookup finds a value that was put before this call, nor one that
    /// [`get_or_insert_with`](Self::get_or_insert_with) began to compute before it. What other threads put meanwhile may stay or go.
    ///
    /// It lists all entries, so it takes memory for as many as the map can hold.
    ///
    /// # Errors
    ///
    /// [`ClearError`]: entries may be left.
    pub fn clear(&self) -> Result<(), ClearError> {
        self.clear_all().map_err(|why| self.inner.core.refused(why))
    }

    /// Removes the entries that have expired or were invalidated, and returns how many. It takes memory as [`clear`](Self::clear).
    ///
    /// # Errors
    ///
    /// [`ClearError`]: expired entries may be left.
    pub fn remove_expired(&self) -> Result<usize, ClearError> {
        self.inner.take_out(Reason::Expired, |object| !self.inner.is_live(object))
    }

    /// Removes the entries for which `keeps` returns false, and returns how many. None of those that stay counts as used. If other threads replace a
    /// value after `keeps` was shown it, it is shown the new one. So once this has returned, only what was put meanwhile may be there of what it refuses:
    /// no value that [`get_or_insert_with`](Self::get_or_insert_with) or a task began to load before this call.
    ///
    /// It lists all entries first, and takes a turn at each one's shard. No object that leaves the map is freed before the call ends.
    ///
    /// ```
    /// let pages = cefrodil_map::ObjectMap::<(String, u32), Vec<u8>>::new(100)?;
    /// (0..3).try_for_each(|page| pages.insert(("log".into(), page), vec![]).map(drop))?;
    /// pages.insert(("data".into(), 0), vec![])?;
    /// assert_eq!(pages.retain(|(file, _), _| file != "log"), Ok(3));
    /// assert_eq!(pages.len(), 1);
    /// # Ok::<(), Box<dyn std::error::Error>>(())
    /// ```
    ///
    /// # Errors
    ///
    /// [`ClearError`]: entries may be left.
    pub fn retain(&self, mut keeps: impl FnMut(&K, &V) -> bool) -> Result<usize, ClearError> {
        let inner = &self.inner;
        inner.core.flights.detach_all();
        inner.take_out(Reason::Removed, |object| inner.is_live(object) && !keeps(&object.key, &object.value))
    }

    /// Calls `look` with each key and its value, in no order. None of them counts as used. An entry that other threads put or remove meanwhile is
    /// among them or not, and one whose value they replace is so with the old value or the new one.
    ///
    /// It lists all entries first, so it takes memory for as many as the map can hold. No object that leaves the map is freed before the call
    /// ends.
    ///
    /// ```
    /// let names = cefrodil_map::ObjectMap::<String, u32>::new(100)?;
    /// names.insert("ann".into(), 41)?;
    /// let mut all = Vec::new();
    /// names.for_each(|name, age| all.push(format!("{name}: {age}")))?;
    /// assert_eq!(all, ["ann: 41"]);
    /// # Ok::<(), Box<dyn std::error::Error>>(())
    /// ```
    ///
    /// # Errors
    ///
    /// [`ClearError`]: `look` was not called.
    pub fn for_each(&self, mut look: impl FnMut(&K, &V)) -> Result<(), ClearError> {
        let pinned = self.inner.pin();
        let entries = self.inner.list()?;
        let objects = entries.iter().map(|(_, [word])| pinned.object(*word));
        objects.filter(|object| self.inner.is_live(object)).for_each(|object| look(&object.key, &object.value));
        Ok(())
    }

    fn clear_all(&self) -> Result<(), ClearError> {
        let inner = &self.inner;
        inner.core.flights.detach_all();
        for hash in inner.core.list(inner.core.tries, Index::keys)? {
            let taken = inner.core.slots.in_turn(inner.core.tries, || inner.core.slots.call(|handle| handle.try_take(hash)));
            if let Take::Taken { old, .. } = taken.map_err(ClearError::of_removal)? {
                inner.core.count_left(Kind::Removed, Kind::Removed);
                inner.leaving(hash, old.value[0]).tell(Reason::Removed);
            }
        }
        Ok(())
    }
}

impl<O: Held, S> ObjectInner<O, S> {
    /// The hashes and words of all entries.
    pub fn list(&self) -> Result<Vec<(u64, [u64; 1])>, ClearError> {
        self.core.list(self.core.tries, Handle::try_entries)
    }

    // Takes out the objects for which `leaves` returns true, and counts them.
    fn take_out(&self, reason: Reason, leaves: impl FnMut(&O) -> bool) -> Result<usize, ClearError> {
        let removed = self.take_listed(reason, leaves).map_err(|why| self.core.refused(why));
        // They waited for this call, which was pinned.
        self.free(self.epochs.free_now());
        removed
    }

    fn take_listed(&self, reason: Reason, mut leaves: impl FnMut(&O) -> bool) -> Result<usize, ClearError> {
        let pinned = self.pin();
        let look = |hash| {
            Some(match self.core.slots.call(|handle| handle.try_peek(hash)).ok()? {
                Reply::Found { value: [word], since, .. } => leaves(pinned.object(word)).then_some(since),
                Reply::Absent { .. } | Reply::Busy => None,
            })
        };
        let hashes = self.core.list(self.core.tries, Index::keys)?;
        self.core.take_those(hashes, look, |hash, since| self.take_if(hash, since, reason, self.core.tries))
    }
}
