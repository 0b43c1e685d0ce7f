//! What all clones of a map of objects share, and how an object leaves.
use super::builder::{Freed, Listener, Reason};
use super::epochs::Epochs;
use super::freeing::free_all;
use super::kept::Kept;
use super::object::{pointer, Held, Object};
use super::weights::Weights;
use crate::clock::{FAR, NEVER};
use crate::core::Core;
use crate::print::{mix, Print};
use crate::stats::Stats;
use cefrodil::Handle;
use std::cell::Cell;
use std::hash::{BuildHasher, Hash};
use std::marker::PhantomData;
use std::mem;
use std::panic::{catch_unwind, AssertUnwindSafe};
use std::ptr;
use std::sync::Arc;
use std::time::Duration;

pub(crate) struct ObjectInner<O: Held, S> {
    /// A call that moves or keeps a deadline has its key's lock, and so do the removal of what has expired and the put of a loaded object.
    pub core: Core<Handle<1>, ()>,
    pub epochs: Epochs,
    pub hasher: S,
    /// Whether that may spread hashes badly.
    pub mixes: bool,
    pub listener: Option<Listener<O>>,
    pub freed: Option<Freed<O>>,
    pub weights: Option<Weights<O>>,
    pub kept: Arc<Kept>,
    pub objects: PhantomData<O>,
}

impl<O: Held, S> ObjectInner<O, S> {
    /// The deadline of a value that is put now.
    pub fn deadline(&self, life: Option<Duration>) -> u64 {
        let deadline = life.or(self.core.life).map_or(NEVER, |life| self.core.clock.deadline(life));
        // If uses are noted, no object has the deadline `NEVER`.
        if self.core.idle.is_some() {
            deadline.min(FAR)
        } else {
            deadline
        }
    }

    /// Whether the object has not expired, and its generation goes on.
    pub fn is_live(&self, object: &O) -> bool {
        self.is_of_this_generation(object) && !self.core.clock.has_passed(object.deadline().min(object.idle()))
    }

    /// Whether no call has invalidated the object since its put took effect. That may be now: what a call has put just now has no generation so far.
    #[inline]
    pub fn is_of_this_generation(&self, object: &O) -> bool {
        object.generation() >= self.core.generation.now() || self.enters(object)
    }

    #[cold]
    fn enters(&self, object: &O) -> bool {
        object.enter(self.core.generation.now());
        object.generation() >= self.core.generation.now()
    }

    /// The same for a lookup that is a use of it.
    #[inline]
    pub fn is_live_and_used(&self, object: &O) -> bool {
        match object.deadline() {
            NEVER => self.is_of_this_generation(object),
            _ => self.note_use(object),
        }
    }

    #[cold]
    fn note_use(&self, object: &O) -> bool {
        let is_live = self.is_live(object);
        let next = self.core.idle.filter(|_| is_live).and_then(|idle| self.core.clock.moved(object.idle(), idle));
        if let Some(next) = next {
            object.move_idle(next);
        }
        is_live
    }

    /// Detaches the flight of the keys with this hash. A key is compared, so it needs no check word.
    pub fn detach(&self, hash: u64) {
        self.core.flights.detach(Print::of_hash(hash));
    }

    /// An object has left the index, by a call that returned its word. Its shard is that of this hash.
    pub fn leaving(&self, hash: u64, word: u64) -> Left<'_, O, S> {
        let left = Left { inner: self, word };
        if let Some(weights) = &self.weights {
            weights.give_back(hash, left.object().weight());
        }
        left
    }

    /// What the calls of all threads came to, what waits to be freed, and what pins keep.
    pub fn stats(&self) -> Stats {
        let mut stats = self.core.stats(self.weights.as_ref().map_or(0, Weights::sum));
        self.kept.add_to(&mut stats);
        self.epochs.each_waiting(|word| {
            // SAFETY: the word was in this map's index, so it is one of `into_word` of these types. It waits, so no owner is made of it.
            let object = unsafe { &*pointer::<O>(word) };
            stats.waiting += 1;
            stats.waiting_weight += object.weight();
        });
        stats
    }

    /// Frees these objects, which `Epochs` returned. A destructor that panics ends there: the call may be of another key, or a panic itself.
    pub fn free(&self, words: Vec<u64>) {
        free_all(ptr::from_ref(self) as usize, words, |word| {
            // SAFETY: the word is one of `into_word` of these types, since it was in this map's index. `Epochs` returns a word once for each
            // time that it was retired. That is once: an object is retired when it leaves the index, and is never put again. `Epochs` returns
            // it when no call is pinned that may have found the object. So nothing borrows it but `freed` and other owners, and nothing else makes an
            // owner of the word.
            unsafe {
                if let Some(freed) = &self.freed {
                    contain(|| freed(&*pointer::<O>(word)));
                }
                contain(|| O::end(O::of_word(word), &self.kept));
            }
        });
    }
}

impl<K, V, S> ObjectInner<Object<K, V>, S> {
    /// An object that is to be put. `generation`: that of what it was made of, or `NONE`; then its put takes effect in that of now.
    pub fn object(&self, key: K, value: V, life: Option<Duration>, generation: u64) -> Arc<Object<K, V>> {
        let idle = self.core.idle.map_or(NEVER, |idle| self.core.clock.deadline(idle));
        let mut object = Object::new(key, value, generation, self.deadline(life), idle);
        if let Some(weights) = &self.weights {
            object.weight = (weights.weigher)(&object);
        }
        Arc::new(object)
    }
}

/// So many calls of listeners may be within each other if puts make them.
pub(crate) const MOST_HEARING: u32 = 16;

thread_local! {
    /// How many calls of listeners run in this thread.
    pub(crate) static HEARING: Cell<u32> = const { Cell::new(0) };
}

/// One of them, until this is dropped.
struct Hearing;

impl Hearing {
    fn begin() -> Hearing {
        HEARING.set(HEARING.get() + 1);
        Hearing
    }
}

impl Drop for Hearing {
    fn drop(&mut self) {
        HEARING.set(HEARING.get() - 1);
    }
}

/// Calls code of the program whose panic must end here.
fn contain(call: impl FnOnce()) {
    if let Err(panic) = catch_unwind(AssertUnwindSafe(call)) {
        // What it panicked with may panic when it is dropped, too.
        mem::forget(catch_unwind(AssertUnwindSafe(|| drop(panic))));
    }
}

impl<O: Held, S: BuildHasher> ObjectInner<O, S> {
    #[inline]
    pub fn hash<Q: Hash + ?Sized>(&self, key: &Q) -> u64 {
        let hash = self.hasher.hash_one(key);
        if self.mixes {
            mix(hash)
        } else {
            hash
        }
    }
}

/// An object that has left the index. It is retired when this is dropped, also by a panic.
pub(crate) struct Left<'a, O: Held, S> {
    inner: &'a ObjectInner<O, S>,
    word: u64,
}

impl<O: Held, S> Left<'_, O, S> {
    pub fn object(&self) -> &O {
        // SAFETY: the word was in this map's index, so it is one of `into_word` of these types. It is not retired before this is dropped, so
        // no owner is made of it.
        unsafe { &*pointer(self.word) }
    }

    /// Tells the listener why it has left.
    pub fn tell(self, reason: Reason) {
        if let Some(listener) = &self.inner.listener {
            let reason = if self.inner.is_live(self.object()) { reason } else { Reason::Expired };
            let _hearing = Hearing::begin();
            listener.0(self.object(), reason);
        }
    }
}

impl<O: Held, S> Drop for Left<'_, O, S> {
    fn drop(&mut self) {
        self.inner.free(self.inner.epochs.retire(self.inner.core.slots.index(), self.word));
    }
}

impl<O: Held, S> Drop for ObjectInner<O, S> {
    // No call runs any more. What is in the index is retired like what has left it, since nothing will look it up again.
    fn drop(&mut self) {
        // In a forked child another thread may hold a lock or a turn for ever.
        if !self.core.slots.are_of_this_process() {
            self.epochs.forget();
            return;
        }
        let listed = self.list();
        for (_, [word]) in listed.into_iter().flatten() {
            self.free(self.epochs.retire(None, word));
        }
        self.free(self.epochs.free_now());
    }
}
