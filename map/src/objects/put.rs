//! Puts of objects.
use super::builder::Reason;
use super::error::{AbsentError, IfError, Refused};
use super::inner::{ObjectInner, HEARING, MOST_HEARING};
use super::map::ObjectMap;
use super::object::{Held, Keyed, Object};
use super::pinned::{Over, Seen};
use super::weights::Claim;
use crate::error::InsertError;
use crate::generation::NONE;
use crate::handle::Bounded;
use crate::map::Inserted;
use cefrodil::{Entry, Handle, PutIfError, Replaced, Swapped, TurnError};
use std::hash::{BuildHasher, Hash};
use std::sync::Arc;
use std::time::Duration;

/// What a put did.
#[derive(Clone, Copy, Debug, PartialEq, Eq, Hash)]
#[non_exhaustive]
pub struct Put {
    /// What it did.
    pub did: Inserted,
    /// The moment of the put: the `since` of later lookups.
    pub at: u64,
}

impl<K, V, S> ObjectMap<K, V, S>
where
    K: Hash + Eq + Send + Sync + 'static,
    V: Send + Sync + 'static,
    S: BuildHasher,
{
    /// Puts the value. Its time to live is that of the map, if it has one, and begins now, also over a value that was there.
    ///
    /// # Errors
    ///
    /// [`Refused`]: nothing was put, and the key and the value come back. An older value of the key stays: if it must not,
    /// [`remove`](Self::remove) it.
    pub fn insert(&self, key: K, value: V) -> Result<Inserted, Refused<K, V>> {
        Ok(self.put(key, value, None)?.did)
    }

    /// Like [`insert`](Self::insert), with a single try.
    ///
    /// # Errors
    ///
    /// As [`insert`](Self::insert).
    pub fn try_insert(&self, key: K, value: V) -> Result<Inserted, Refused<K, V>> {
        Ok(self.inner.put_pair(key, value, None, 1)?.did)
    }

    /// Like [`insert`](Self::insert), with a time to live of its own. One that is too long to be counted never ends, and `Duration::ZERO` is
    /// over at once.
    ///
    /// # Errors
    ///
    /// As [`insert`](Self::insert).
    pub fn insert_for(&self, key: K, value: V, life: Duration) -> Result<Inserted, Refused<K, V>> {
        Ok(self.put(key, value, Some(life))?.did)
    }

    /// Puts the value if the key has none, or one that has expired.
    ///
    /// # Errors
    ///
    /// [`Refused`], with an [`AbsentError`]: nothing was changed.
    pub fn insert_if_absent(&self, key: K, value: V) -> Result<Inserted, Refused<K, V, AbsentError>> {
        Ok(self.put_if_absent(key, value, None)?.did)
    }

    /// Like [`insert`](Self::insert), and returns the moment of the put. `life`: a time to live of its own.
    ///
    /// # Errors
    ///
    /// As [`insert`](Self::insert).
    pub fn put(&self, key: K, value: V, life: Option<Duration>) -> Result<Put, Refused<K, V>> {
        self.inner.put_pair(key, value, life, self.inner.core.tries)
    }

    /// Like [`insert_if_absent`](Self::insert_if_absent), and returns the moment of the put. `life`: a time to live of its own.
    ///
    /// # Errors
    ///
    /// As [`insert_if_absent`](Self::insert_if_absent).
    pub fn put_if_absent(&self, key: K, value: V, life: Option<Duration>) -> Result<Put, Refused<K, V, AbsentError>> {
        let inner = &self.inner;
        let hash = inner.hash(&key);
        let object = inner.object(key, value, life, NONE);
        inner.put_new(hash, object, |object| &object.key).map_err(|(object, why)| inner.refuse(object, why))
    }

    /// Replaces the key's value if its last put was at the moment `since`, as a lookup of this key returned it. `life`: a time to live of its
    /// own.
    ///
    /// # Errors
    ///
    /// [`Refused`], with an [`IfError`]: nothing was changed.
    pub fn replace_if(&self, key: K, since: u64, value: V, life: Option<Duration>) -> Result<Put, Refused<K, V, IfError>> {
        let inner = &self.inner;
        let hash = inner.hash(&key);
        match inner.generation_at(hash, &key, since) {
            Ok(generation) => {
                let object = inner.object(key, value, life, generation);
                inner.replace(hash, since, object).map_err(|(object, why)| inner.refuse(object, why))
            }
            Err(why) => Err(Refused { why: inner.core.refused(why), key, value }),
        }
    }
}

/// A put that was made.
pub(crate) struct Done {
    put: Put,
    /// The word of what gave way to it, and why. It is to be retired.
    old: Option<(u64, Reason)>,
}

/// A put, or the object that comes back.
pub(crate) type Offered<O, E = Fail> = Result<Put, (<O as Held>::Owner, E)>;

/// Why no put was made.
pub(crate) enum Fail {
    /// With the word of an object that left for the put all the same: that is retired by `offer`.
    Insert(InsertError, Option<u64>),
    /// The key must be absent, and is not.
    Present,
    NotThere {
        at: u64,
    },
    Changed {
        since: u64,
    },
    /// A write has detached the flight by which it was made.
    Detached,
}

impl Fail {
    fn of_condition(why: TurnError<PutIfError>) -> Fail {
        match why {
            TurnError::Call(PutIfError::NotThere { at }) => Fail::NotThere { at },
            TurnError::Call(PutIfError::Changed { since }) => Fail::Changed { since },
            TurnError::Call(_) => Fail::Insert(InsertError::Spent, None),
            TurnError::Held => Fail::Insert(InsertError::Held, None),
        }
    }

    fn of_moment(self) -> IfError {
        match self {
            Fail::NotThere { at } => IfError::NotThere { at },
            Fail::Changed { since } => IfError::Changed { since },
            Fail::Insert(InsertError::Spent, _) => IfError::Spent,
            Fail::Insert(InsertError::TooHeavy, _) => IfError::TooHeavy,
            Fail::Insert(InsertError::TooDeep, _) => IfError::TooDeep,
            Fail::Insert(..) | Fail::Present | Fail::Detached => IfError::Held,
        }
    }
}

impl<O: Held, S> ObjectInner<O, S> {
    /// Puts the object, whatever there is. On failure it comes back: here and below.
    pub fn put(&self, hash: u64, object: O::Owner, tries: u32) -> Offered<O, InsertError> {
        self.detach(hash);
        self.put_over(hash, object, Over::Any, tries).map_err(|(object, why)| match why {
            Fail::Insert(why, _) => (object, why),
            _ => unreachable!("this put does not ask what is there"),
        })
    }

    /// Puts the object if its key is absent, or has expired.
    pub fn put_new<Q: ?Sized>(&self, hash: u64, mut object: O::Owner, key: impl Fn(&O::Owner) -> &Q) -> Offered<O, AbsentError>
    where
        O: Keyed<Q>,
    {
        for _ in 0..self.core.tries {
            let over = match self.pin().place(hash, key(&object), self.core.tries) {
                None => return Err((object, AbsentError::Busy)),
                Some((Some(Seen { since, .. }), _)) => return Err((object, AbsentError::Present { since })),
                Some((None, over)) => over,
            };
            self.detach(hash);
            match self.put_over(hash, object, over, self.core.tries) {
                Ok(put) => return Ok(put),
                Err((back, Fail::Insert(why, _))) => return Err((back, why.into())),
                Err((back, _)) => object = back,
            }
        }
        Err((object, AbsentError::Contended))
    }

    /// Puts the object if its key was put at this moment.
    pub fn replace(&self, hash: u64, since: u64, object: O::Owner) -> Offered<O, IfError> {
        self.detach(hash);
        self.put_over(hash, object, Over::At(since), self.core.tries).map_err(|(object, why)| (object, why.of_moment()))
    }

    /// Puts the object over what is there now.
    pub fn put_over(&self, hash: u64, object: O::Owner, over: Over, tries: u32) -> Offered<O> {
        self.offer(hash, object, tries, |word| self.put_word(hash, word, over, tries))
    }

    /// Like `put_over`, over an object that was seen, whose deadline the new one keeps. The lock keeps renewals from coming between.
    pub fn put_over_seen(&self, hash: u64, object: O::Owner, seen: Seen<O>, tries: u32) -> Offered<O> {
        self.offer(hash, object, tries, |word| {
            let replaced = self.try_to_put(word, tries, |object| {
                self.core.in_lock(hash, |handle| {
                    object.set_deadline(seen.object.deadline());
                    handle.try_swap_if(hash, seen.since, &[word])
                })
            });
            Ok(self.replaced(replaced.map_err(Fail::of_condition)?))
        })
    }

    /// Puts the object by `put`, if there is room for its weight. `put` puts the word, as the last that it does with it, unless it fails.
    pub fn offer(&self, hash: u64, object: O::Owner, tries: u32, put: impl FnOnce(u64) -> Result<Done, Fail>) -> Offered<O> {
        let (claim, has_evicted) = match self.admit(hash, &object, tries) {
            Ok(admitted) => admitted,
            Err(why) => return Err((object, Fail::Insert(why, None))),
        };
        let word = O::into_word(object);
        match put(word) {
            Ok(done) => {
                claim.keep();
                Ok(self.end(hash, done, has_evicted, tries))
            }
            Err(why) => {
                if let Fail::Insert(_, Some(lost)) = why {
                    self.leaving(hash, lost).tell(Reason::Evicted);
                }
                // SAFETY: `into_word` made the word of this very object. A call of the index that returns an error has put nothing, and each
                // `put` fails only if it has made no call, or its last one failed. So no other thread has seen the word.
                Err((unsafe { O::of_word(word) }, why))
            }
        }
    }

    // Counts the weight of an object that is about to be put, and makes room for it. Returns whether others gave way.
    fn admit(&self, hash: u64, object: &O, tries: u32) -> Result<(Claim<'_, O>, bool), InsertError> {
        if self.listener.is_some() && HEARING.get() >= MOST_HEARING {
            return Err(InsertError::TooDeep);
        }
        if self.core.has_times() {
            self.take_ended(hash);
        }
        let claim = Claim::of(self.weights.as_ref(), hash, object.weight()).ok_or(InsertError::TooHeavy)?;
        let has_evicted = self.is_too_heavy() && self.make_room(hash, tries)?;
        Ok((claim, has_evicted))
    }

    // Ends a put: what gave way is retired. Others give way if they weigh too much with what was put over an object.
    fn end(&self, hash: u64, Done { mut put, old }: Done, has_evicted: bool, tries: u32) -> Put {
        if let Some((word, reason)) = old {
            self.leaving(hash, word).tell(reason);
        }
        put.did = self.core.keep_bound(put.did, hash, tries, |evicted| self.end_eviction(evicted, |_, _| ()));
        if self.is_too_heavy() {
            // If there is no turn, the next put does this.
            let _ = self.evict_to_bound(tries);
        }
        if has_evicted && put.did == Inserted::New {
            put.did = Inserted::Evicted;
        }
        put
    }

    // Puts an object by `put`. That takes effect now at the latest, so the object gets the generation of now: by the call that was pinned before it put
    // the object, so that this stays.
    fn try_to_put<T, E>(
        &self,
        word: u64,
        tries: u32,
        mut put: impl FnMut(&O) -> Result<T, TurnError<E>>,
    ) -> Result<T, TurnError<E>> {
        self.core.slots.in_turn(tries, || {
            let pinned = self.pin();
            let object = pinned.object(word);
            let put = put(object)?;
            object.enter(self.core.generation.now());
            Ok(put)
        })
    }

    /// Puts a word over what is there now.
    pub fn put_word(&self, hash: u64, word: u64, over: Over, tries: u32) -> Result<Done, Fail> {
        match over {
            Over::Any => {
                let mut lost = None;
                let swapped = self.try_to_put(word, tries, |_| {
                    self.core.slots.call(|handle| match self.core.bound.is_full() {
                        true => self.bounded(handle.try_swap_bounded(hash, 1, &[word]), &mut lost),
                        false => handle.try_swap(hash, &[word]),
                    })
                });
                Ok(self.swapped(swapped.map_err(|why| Fail::Insert(InsertError::of(why), lost))?))
            }
            Over::Absent => self.put_absent(hash, word, tries, None),
            Over::AbsentIn(generation) => self.put_absent(hash, word, tries, Some(generation)),
            Over::At(since) => {
                let replaced =
                    self.try_to_put(word, tries, |_| self.core.slots.call(|handle| handle.try_swap_if(hash, since, &[word])));
                Ok(self.replaced(replaced.map_err(Fail::of_condition)?))
            }
        }
    }

    fn put_absent(&self, hash: u64, word: u64, tries: u32, made_in: Option<u64>) -> Result<Done, Fail> {
        let mut lost = None;
        let mut swap = |handle: &mut Handle<1>| match self.core.bound.is_full() {
            true => self.bounded(handle.try_swap_if_absent_bounded(hash, 1, &[word]), &mut lost),
            false => handle.try_swap_if_absent(hash, &[word]),
        };
        let swapped = self.try_to_put(word, tries, |_| match made_in {
            None => self.core.slots.call(&mut swap),
            Some(generation) => self.core.in_generation(hash, generation, &mut swap),
        });
        let fail = |why| InsertError::of_absent(why).map_or(Fail::Present, |why| Fail::Insert(why, lost));
        Ok(self.swapped(swapped.map_err(fail)?))
    }

    fn replaced(&self, Replaced { at, old }: Replaced<1>) -> Done {
        self.core.slots.count_put(Inserted::Renewed);
        let put = Put { did: Inserted::Renewed, at };
        Done { put, old: Some((old.value[0], Reason::Replaced)) }
    }

    // Counts what left by a put into a full map. The word of what left for a put that failed becomes `lost`.
    fn bounded<E>(&self, put: Bounded<Swapped<1>, Entry<1>, E>, lost: &mut Option<u64>) -> Result<Swapped<1>, TurnError<E>> {
        self.core.bounded(put, |swapped| swapped.put, |old| *lost = Some(old.value[0]))
    }

    fn swapped(&self, Swapped { put, old }: Swapped<1>) -> Done {
        let (at, did) = (put.at(), Inserted::of(put));
        self.core.slots.count_put(did);
        let reason = if let Inserted::Evicted = did { Reason::Evicted } else { Reason::Replaced };
        Done { put: Put { did, at }, old: old.map(|old| (old.value[0], reason)) }
    }
}

impl<K: Hash, V, S: BuildHasher> ObjectInner<Object<K, V>, S> {
    fn put_pair(&self, key: K, value: V, life: Option<Duration>, tries: u32) -> Result<Put, Refused<K, V>> {
        let hash = self.hash(&key);
        let object = self.object(key, value, life, NONE);
        self.put(hash, object, tries).map_err(|(object, why)| self.refuse(object, why))
    }
}

impl<K, V, S> ObjectInner<Object<K, V>, S> {
    /// Counts a refusal, and gives the object's parts back.
    fn refuse<E>(&self, object: Arc<Object<K, V>>, why: E) -> Refused<K, V, E> {
        let (key, value) = Object::parts(object);
        Refused { why: self.core.refused(why), key, value }
    }
}
