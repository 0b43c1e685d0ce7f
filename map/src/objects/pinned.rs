//! A pinned call: the only way to an object in the index.
use super::epochs::Guard;
use super::inner::ObjectInner;
use super::look::Look;
use super::object::{pointer, Held, Keyed, Object};
use cefrodil::Reply;

/// No object that is found while this lives is freed before it ends.
pub(crate) struct Pinned<'a, O: Held, S> {
    inner: &'a ObjectInner<O, S>,
    _guard: Guard<'a>,
}

/// An object that was found. It was in the index at the moment `at`.
pub(crate) struct Seen<'a, O> {
    pub object: &'a O,
    pub at: u64,
    pub since: u64,
}

/// What there is under the hash of a key.
pub(crate) enum State<'a, O> {
    /// The key's object.
    Live(Seen<'a, O>),
    /// The key's object, which has expired.
    Expired(Seen<'a, O>),
    /// The object of another key with the same hash.
    Other(Seen<'a, O>),
    Absent {
        at: u64,
    },
}

/// Over what an object is put.
#[derive(Clone, Copy)]
pub(crate) enum Over {
    /// Whatever is there.
    Any,
    /// Nothing.
    Absent,
    /// Nothing, by an object that was made in this generation. If that has ended, it is refused like one whose key is present.
    AbsentIn(u64),
    /// What was put at this moment.
    At(u64),
}

impl<O> Clone for Seen<'_, O> {
    fn clone(&self) -> Self {
        *self
    }
}

impl<O> Copy for Seen<'_, O> {}

impl<'a, O> State<'a, O> {
    pub fn object(self) -> Look<&'a O> {
        match self {
            State::Live(Seen { object, at, since }) => Look::Found { result: object, at, since },
            State::Expired(Seen { at, since, .. }) => Look::Expired { at, since },
            State::Other(Seen { at, .. }) | State::Absent { at } => Look::Absent { at },
        }
    }
}

impl<'a, K, V> State<'a, Object<K, V>> {
    pub fn value(self) -> Look<&'a V> {
        self.object().map(|object| &object.value)
    }
}

impl<O: Held, S> ObjectInner<O, S> {
    #[inline]
    pub fn pin(&self) -> Pinned<'_, O, S> {
        Pinned { inner: self, _guard: self.epochs.pin(self.core.slots.index()) }
    }
}

impl<O: Held, S> Pinned<'_, O, S> {
    /// Looks the key up under its hash. `None`: each try was busy. It isn't counted.
    #[inline]
    pub fn look<Q: ?Sized>(&self, hash: u64, key: &Q, tries: u32) -> Option<State<'_, O>>
    where
        O: Keyed<Q>,
    {
        self.state_or_look(hash, key, self.inner.core.slots.call(|handle| handle.get_or_turn(hash)), tries)
    }

    /// Looks the key up under its hash in a turn, which is no use of it. `None`: no try won.
    pub fn peek<Q: ?Sized>(&self, hash: u64, key: &Q, tries: u32) -> Option<State<'_, O>>
    where
        O: Keyed<Q>,
    {
        let reply = self.inner.core.slots.within(tries, || self.inner.core.slots.call(|handle| handle.try_peek(hash)).ok())?;
        self.state(reply, key, |object| self.inner.is_live(object))
    }

    /// What the reply of a first try says; if it is busy, the key is looked up again. This must have been pinned before that try.
    #[inline]
    pub fn state_or_look<Q: ?Sized>(&self, hash: u64, key: &Q, first: Reply<1>, tries: u32) -> Option<State<'_, O>>
    where
        O: Keyed<Q>,
    {
        match first {
            Reply::Busy => self.look_again(hash, key, tries - 1),
            reply => self.used(reply, key),
        }
    }

    /// The key's object, if it has one, and over what the next one of the key is put.
    pub fn place<Q: ?Sized>(&self, hash: u64, key: &Q, tries: u32) -> Option<(Option<Seen<'_, O>>, Over)>
    where
        O: Keyed<Q>,
    {
        Some(match self.look(hash, key, tries)? {
            State::Live(seen) => (Some(seen), Over::At(seen.since)),
            State::Expired(seen) | State::Other(seen) => (None, Over::At(seen.since)),
            State::Absent { .. } => (None, Over::Absent),
        })
    }

    #[cold]
    fn look_again<Q: ?Sized>(&self, hash: u64, key: &Q, tries: u32) -> Option<State<'_, O>>
    where
        O: Keyed<Q>,
    {
        let reply = self.inner.core.slots.within(tries, || match self.inner.core.slots.call(|handle| handle.get_or_turn(hash)) {
            Reply::Busy => None,
            reply => Some(reply),
        });
        self.used(reply?, key)
    }

    #[inline]
    fn used<Q: ?Sized>(&self, reply: Reply<1>, key: &Q) -> Option<State<'_, O>>
    where
        O: Keyed<Q>,
    {
        self.state(reply, key, |object| self.inner.is_live_and_used(object))
    }

    #[inline]
    fn state<Q: ?Sized>(&self, reply: Reply<1>, key: &Q, is_live: impl FnOnce(&O) -> bool) -> Option<State<'_, O>>
    where
        O: Keyed<Q>,
    {
        let seen = match reply {
            Reply::Found { value: [word], at, since } => Seen { object: self.object(word), at, since },
            Reply::Absent { at } => return Some(State::Absent { at }),
            Reply::Busy => return None,
        };
        Some(if !seen.object.has_key(key) {
            State::Other(seen)
        } else if !is_live(seen.object) {
            State::Expired(seen)
        } else {
            State::Live(seen)
        })
    }

    /// The word is one that the index returned to this call after it was pinned, or one that this call puts.
    #[inline]
    pub fn object(&self, word: u64) -> &O {
        // SAFETY: the index of this map has only words of `into_word` of the same types. So this is an object, and all others borrow it as
        // shared. An owner is made of it again in two places. One gets it back from a put that failed, so it was never in the index. The other
        // (`free`) gets it when no call is pinned since before it left the index. This call was pinned before it found the object there,
        // and stays so while `self` is borrowed. SAFETY.md has the argument in full.
        unsafe { &*pointer(word) }
    }
}
