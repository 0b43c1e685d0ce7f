//! What a map has on the heap for a key, and its address as the word of an entry.
use super::kept::{Keeping, Kept};
use crate::clock::NEVER;
use crate::generation::NONE;
use crate::slots::boxed;
use std::borrow::Borrow;
use std::ops::Deref;
use std::ptr;
use std::sync::atomic::{AtomicU64, Ordering::Relaxed, Ordering::SeqCst};
use std::sync::Arc;

/// What a map has on the heap for a key.
///
/// # Safety
///
/// The word that `into_word` returns is the address of a `Self`, and a cast exposed a pointer there to all that belongs to it. It stays
/// there until `of_word`.
pub(crate) unsafe trait Held: Sized {
    /// What owns it before it is put, and when it is to be freed. It may be one of several owners.
    type Owner: Deref<Target = Self>;

    /// Its address.
    fn into_word(owner: Self::Owner) -> u64;

    /// What `into_word` made this word of.
    ///
    /// # Safety
    ///
    /// The word is one of `into_word` of this type, nothing but an owner borrows what is there, and `of_word` was not called of it since.
    unsafe fn of_word(word: u64) -> Self::Owner;

    /// Drops the map's own part in an object that no call of the map uses any more. Other owners keep it, and may keep it among these.
    fn end(owner: Self::Owner, _kept: &Arc<Kept>) {
        drop(owner);
    }

    /// When it expires.
    fn deadline(&self) -> u64;

    /// Moves its deadline.
    fn set_deadline(&self, deadline: u64);

    /// The generation in which its put took effect, or which it was given before; else `NONE`. By default it outlives all generations.
    fn generation(&self) -> u64 {
        u64::MAX
    }

    /// Gives it this generation, unless it has one.
    fn enter(&self, _generation: u64) {}

    /// When it expires if it is not used.
    fn idle(&self) -> u64 {
        NEVER
    }

    /// Moves that, unless it is later already.
    fn move_idle(&self, _: u64) {}

    /// What it weighs in a map with a bound on the sum.
    fn weight(&self) -> u64 {
        0
    }
}

/// What may have a key of this kind.
pub(crate) trait Keyed<Q: ?Sized> {
    /// Whether this is its key.
    fn has_key(&self, key: &Q) -> bool;
}

/// What there is at this address. The cast of `into_word` exposed the pointer that this one gives back.
#[inline]
pub(crate) fn pointer<O: Held>(word: u64) -> *const O {
    word as usize as *const O
}

/// A key and a value of any type.
pub(crate) struct Object<K, V> {
    pub key: K,
    life: Life,
    /// It stays the same from its put on.
    pub weight: u64,
    pub value: V,
}

/// When an object ends. If pins keep it when the map has dropped it, this counts it until then.
struct Life {
    // A renewal moves it. Relaxed: it says nothing of other memory. What moves or keeps it has the key's lock.
    deadline: AtomicU64,
    // When it expires if it is not used. Relaxed: as above.
    idle: AtomicU64,
    generation: AtomicU64,
}

/// No map has this generation. An object that pins keep has it, and has the address of its `Keeping` as `idle`.
const KEPT: u64 = u64::MAX;

impl Life {
    // For an owner who is to drop the object next. Relaxed: by that drop the last owner sees this. Without memory it isn't counted.
    fn keep(&self, keeping: Keeping) {
        if let Some(keeping) = boxed(|| Some(keeping)) {
            self.idle.store(Box::into_raw(keeping) as usize as u64, Relaxed);
            self.generation.store(KEPT, Relaxed);
        }
    }
}

impl Drop for Life {
    fn drop(&mut self) {
        if *self.generation.get_mut() == KEPT {
            let at = *self.idle.get_mut() as usize as *mut [Keeping; 1];
            // SAFETY: only `keep` stores this generation, once for an object, after it has stored the address of a box here. Nobody stores another one after
            // that: the map has dropped the object, and pins only read the value.
            drop(unsafe { Box::from_raw(at) });
        }
    }
}

impl<K, V> Object<K, V> {
    pub fn new(key: K, value: V, generation: u64, deadline: u64, idle: u64) -> Object<K, V> {
        let [deadline, idle, generation] = [deadline, idle, generation].map(AtomicU64::new);
        Object { key, life: Life { deadline, idle, generation }, weight: 0, value }
    }

    /// The parts of an object that was never put, so it has one owner.
    pub fn parts(owner: Arc<Object<K, V>>) -> (K, V) {
        let Object { key, value, .. } = Arc::into_inner(owner).expect("only what was put has other owners");
        (key, value)
    }

    /// One more owner of the object, which keeps it when it has left the map and no call uses it any more.
    ///
    /// # Safety
    ///
    /// A call has found the object in the index, and has been pinned since before that.
    pub unsafe fn share(&self) -> Arc<Object<K, V>> {
        let at = pointer::<Object<K, V>>(ptr::from_ref(self) as usize as u64);
        // SAFETY: the object was put, so `into_word` made this address of an `Arc`. It exposed the pointer, by which this one comes to the counts, too. The
        // owner that was put is dropped when no such call is pinned any more, so the count is not 0.
        unsafe {
            Arc::increment_strong_count(at);
            Arc::from_raw(at)
        }
    }
}

// SAFETY: the word is the address of what an `Arc` owns, whose pointer the cast exposes.
unsafe impl<K, V> Held for Object<K, V> {
    type Owner = Arc<Object<K, V>>;

    fn into_word(owner: Arc<Object<K, V>>) -> u64 {
        Arc::into_raw(owner) as usize as u64
    }

    unsafe fn of_word(word: u64) -> Arc<Object<K, V>> {
        // SAFETY: `into_word` made the word of an `Arc` of this type, and the caller says that this was not called of it since.
        unsafe { Arc::from_raw(pointer(word)) }
    }

    // If there is another owner, nobody becomes one by the map any more. If all others end meanwhile, the object is counted for a moment.
    fn end(owner: Arc<Object<K, V>>, kept: &Arc<Kept>) {
        if Arc::strong_count(&owner) > 1 {
            owner.life.keep(Keeping::begin(kept, owner.weight));
        }
    }

    #[inline]
    fn deadline(&self) -> u64 {
        self.life.deadline.load(Relaxed)
    }

    fn set_deadline(&self, deadline: u64) {
        self.life.deadline.store(deadline, Relaxed);
    }

    #[inline]
    fn generation(&self) -> u64 {
        self.life.generation.load(SeqCst)
    }

    fn enter(&self, generation: u64) {
        if self.generation() == NONE {
            let _ = self.life.generation.compare_exchange(NONE, generation, SeqCst, SeqCst);
        }
    }

    fn idle(&self) -> u64 {
        self.life.idle.load(Relaxed)
    }

    fn move_idle(&self, deadline: u64) {
        self.life.idle.fetch_max(deadline, Relaxed);
    }

    fn weight(&self) -> u64 {
        self.weight
    }
}

impl<K: Borrow<Q>, V, Q: Eq + ?Sized> Keyed<Q> for Object<K, V> {
    #[inline]
    fn has_key(&self, key: &Q) -> bool {
        self.key.borrow() == key
    }
}
