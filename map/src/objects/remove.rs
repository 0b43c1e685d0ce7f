//! Removals of objects. Each takes out the very object that it looked at.
use super::builder::Reason;
use super::error::IfError;
use super::inner::ObjectInner;
use super::look::Look;
use super::map::ObjectMap;
use super::object::{Held, Keyed};
use super::pinned::State;
use crate::error::RemoveError;
use crate::stats::Kind;
use cefrodil::{Handle, PutIfError, TurnError};
use std::borrow::Borrow;
use std::hash::{BuildHasher, Hash};

impl<K, V, S> ObjectMap<K, V, S>
where
    K: Hash + Eq + Send + Sync + 'static,
    V: Send + Sync + 'static,
    S: BuildHasher,
{
    /// Removes the key's value and returns a clone of it. Once this has returned, no later lookup finds that value, nor one that
    /// [`get_or_insert_with`](Self::get_or_insert_with) began to compute before this call. `Ok(None)`: the key had none. If a clone costs much,
    /// take [`remove_with`](Self::remove_with).
    ///
    /// Where a removal must take effect (a logout), call again until it is `Ok`. Until then refuse the key by a set of your own that each
    /// lookup checks.
    ///
    /// # Errors
    ///
    /// [`RemoveError`]: the value may still be there.
    pub fn remove<Q: Hash + Eq + ?Sized>(&self, key: &Q) -> Result<Option<V>, RemoveError>
    where
        K: Borrow<Q>,
        V: Clone,
    {
        Ok(self.remove_with(key, V::clone)?.found())
    }

    /// Like [`remove`](Self::remove), with a single try.
    ///
    /// # Errors
    ///
    /// As [`remove`](Self::remove).
    pub fn try_remove<Q: Hash + Eq + ?Sized>(&self, key: &Q) -> Result<Option<V>, RemoveError>
    where
        K: Borrow<Q>,
        V: Clone,
    {
        Ok(self.inner.remove(key, 1, |object| object.value.clone())?.found())
    }

    /// Like [`remove`](Self::remove). Calls `look` with the value that was removed, and returns what it returns, with the moments. An
    /// expired value is removed, too.
    ///
    /// # Errors
    ///
    /// As [`remove`](Self::remove).
    pub fn remove_with<Q: Hash + Eq + ?Sized, R>(&self, key: &Q, look: impl FnOnce(&V) -> R) -> Result<Look<R>, RemoveError>
    where
        K: Borrow<Q>,
    {
        self.inner.remove(key, self.inner.core.tries, |object| look(&object.value))
    }

    /// Removes the key's value if its last put was at the moment `since`, as a lookup of the key returned it. Returns the moment of the
    /// removal.
    ///
    /// # Errors
    ///
    /// [`IfError`]: this call removed nothing.
    pub fn remove_if<Q: Hash + Eq + ?Sized>(&self, key: &Q, since: u64) -> Result<u64, IfError>
    where
        K: Borrow<Q>,
    {
        self.inner.remove_if(key, since)
    }

    /// Like [`remove_if`](Self::remove_if), by the hash of the key: for a program that keeps a list of what it may evict. `hash` is from
    /// [`hash_of`](Self::hash_of), and `since` from a lookup or put of the same key.
    ///
    /// # Errors
    ///
    /// [`IfError`]: this call removed nothing.
    pub fn remove_stamped(&self, hash: u64, since: u64) -> Result<u64, IfError> {
        self.inner.remove_stamped(hash, since, Reason::Removed)
    }
}

impl<O: Held, S> ObjectInner<O, S> {
    /// The generation of the key's object if that was put at the moment `since`, and no call has invalidated it. It may have expired.
    pub fn generation_at<Q: ?Sized>(&self, hash: u64, key: &Q, since: u64) -> Result<u64, IfError>
    where
        O: Keyed<Q>,
    {
        match self.pin().look(hash, key, self.core.tries) {
            Some(State::Live(seen) | State::Expired(seen)) if !self.is_of_this_generation(seen.object) => {
                Err(IfError::NotThere { at: seen.at })
            }
            Some(State::Live(seen) | State::Expired(seen)) if seen.since == since => Ok(seen.object.generation()),
            Some(State::Live(seen) | State::Expired(seen)) => Err(IfError::Changed { since: seen.since }),
            Some(State::Other(seen)) => Err(IfError::NotThere { at: seen.at }),
            Some(State::Absent { at }) => Err(IfError::NotThere { at }),
            None => Err(IfError::Busy),
        }
    }

    /// Takes out the object under this hash if it was put at the moment `since`, and retires it. Returns the moment of the removal. What has expired
    /// detaches no flight, so it is taken out with its key's lock.
    pub fn take_if(&self, hash: u64, since: u64, reason: Reason, tries: u32) -> Result<u64, TurnError<PutIfError>> {
        let take = |handle: &mut Handle<1>| handle.try_take_if(hash, since);
        let taken = self.core.slots.in_turn(tries, || match reason {
            Reason::Expired => self.core.in_lock(hash, take),
            _ => self.core.slots.call(take),
        })?;
        self.core.count_left(Kind::Removed, if reason == Reason::Expired { Kind::Ended } else { Kind::Removed });
        self.leaving(hash, taken.old.value[0]).tell(reason);
        Ok(taken.at)
    }

    /// Before a put under this hash: takes out what has ended at a few places.
    #[inline(never)]
    pub fn take_ended(&self, hash: u64) {
        let pinned = self.pin();
        self.core.look_for_ended(hash, |there| {
            if !self.is_live(pinned.object(there.value[0])) {
                let _ = self.take_if(there.key, there.since, Reason::Expired, 1);
            }
        });
    }

    pub fn remove_stamped(&self, hash: u64, since: u64, reason: Reason) -> Result<u64, IfError> {
        self.detach(hash);
        self.take_if(hash, since, reason, self.core.tries).map_err(|why| match why {
            TurnError::Call(PutIfError::NotThere { at }) => IfError::NotThere { at },
            TurnError::Call(PutIfError::Changed { since }) => IfError::Changed { since },
            TurnError::Call(_) => self.core.refused(IfError::Spent),
            TurnError::Held => self.core.refused(IfError::Held),
        })
    }
}

impl<O: Held, S: BuildHasher> ObjectInner<O, S> {
    /// Removes the key's object. Shows it in a call that has been pinned since before it was found.
    pub fn remove<Q: Hash + ?Sized, R>(&self, key: &Q, tries: u32, look: impl FnOnce(&O) -> R) -> Result<Look<R>, RemoveError>
    where
        O: Keyed<Q>,
    {
        let hash = self.hash(key);
        self.detach(hash);
        for _ in 0..tries {
            let pinned = self.pin();
            let (seen, live) = match pinned.look(hash, key, tries) {
                Some(State::Live(seen)) => (seen, true),
                Some(State::Expired(seen)) => (seen, false),
                Some(State::Other(seen)) => return Ok(Look::Absent { at: seen.at }),
                Some(State::Absent { at }) => return Ok(Look::Absent { at }),
                None => return Err(self.core.refused(RemoveError::Busy)),
            };
            let since = seen.since;
            match self.take_if(hash, since, Reason::Removed, tries) {
                Ok(at) if live => return Ok(Look::Found { result: look(seen.object), at, since }),
                Ok(at) => return Ok(Look::Expired { at, since }),
                Err(TurnError::Call(PutIfError::NotThere { at })) => return Ok(Look::Absent { at }),
                Err(TurnError::Call(PutIfError::Changed { .. })) => {}
                Err(TurnError::Call(_)) => return Err(self.core.refused(RemoveError::Spent)),
                Err(TurnError::Held) => return Err(self.core.refused(RemoveError::Held)),
            }
        }
        Err(self.core.refused(RemoveError::Contended))
    }

    pub fn remove_if<Q: Hash + ?Sized>(&self, key: &Q, since: u64) -> Result<u64, IfError>
    where
        O: Keyed<Q>,
    {
        let hash = self.hash(key);
        match self.generation_at(hash, key, since) {
            Ok(_) => self.remove_stamped(hash, since, Reason::Removed),
            Err(IfError::Busy) => Err(self.core.refused(IfError::Busy)),
            Err(why) => Err(why),
        }
    }
}
