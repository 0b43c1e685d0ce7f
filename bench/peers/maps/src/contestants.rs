//! The maps, each behind the same two calls: the two of cefrodil-map, dashmap, a locked HashMap of the standard library, and an LRU cache behind a mutex.
use dashmap::DashMap;
use lru::{KeyRef, LruCache};
use std::borrow::Borrow;
use std::collections::hash_map::RandomState;
use std::collections::HashMap;
use std::hash::{BuildHasher, Hash, Hasher};
use std::sync::{Mutex, RwLock};
use twin::table::mix;

/// A type of keys, each made of a number. Calls borrow a key.
pub trait Key: Hash + Eq + Send + Sync + Borrow<Self::Borrowed> {
    type Borrowed: Hash + Eq + cefrodil_map::Key + ToOwned<Owned = Self> + ?Sized;

    fn with<R>(number: u64, call: impl FnOnce(&Self::Borrowed) -> R) -> R;
}

impl Key for u64 {
    type Borrowed = u64;

    #[inline(always)]
    fn with<R>(number: u64, call: impl FnOnce(&u64) -> R) -> R {
        call(&number)
    }
}

/// 16 letters, from `a` to `p`, one for each four bits of the number. They are made in registers, so drawing a key reads no memory.
impl Key for String {
    type Borrowed = str;

    #[inline(always)]
    fn with<R>(number: u64, call: impl FnOnce(&str) -> R) -> R {
        let letters = (u128::from(spread(number >> 32)) << 64 | u128::from(spread(number & 0xffff_ffff))).to_le_bytes();
        // SAFETY: each byte is a letter's.
        call(unsafe { std::str::from_utf8_unchecked(&letters) })
    }
}

/// A letter for each four bits of a number of 32.
#[inline(always)]
fn spread(bits: u64) -> u64 {
    let bits = (bits | (bits << 16)) & 0x0000_ffff_0000_ffff;
    let bits = (bits | (bits << 8)) & 0x00ff_00ff_00ff_00ff;
    let bits = (bits | (bits << 4)) & 0x0f0f_0f0f_0f0f_0f0f;
    bits + 0x6161_6161_6161_6161
}

/// Hashes of a number by two multiplications, as the index hashes.
#[derive(Clone, Copy, Default)]
pub struct Quick(u64);

impl BuildHasher for Quick {
    type Hasher = Quick;

    #[inline(always)]
    fn build_hasher(&self) -> Quick {
        Quick(0)
    }
}

impl Hasher for Quick {
    fn write(&mut self, _: &[u8]) {
        unreachable!("only numbers are hashed quickly")
    }

    #[inline(always)]
    fn write_u64(&mut self, word: u64) {
        self.0 = mix(self.0 ^ word);
    }

    #[inline(always)]
    fn finish(&self) -> u64 {
        self.0
    }
}

/// A map that threads share.
pub trait Contestant<K: Key, V, S>: Sync {
    fn new(keys: usize, hasher: S) -> Self;

    fn get(&self, key: &K::Borrowed) -> Option<V>;

    /// Looks up many keys by one call, if the map has one.
    fn get_many(&self, _keys: &[K]) -> Vec<Option<V>> {
        panic!("it has no call for many keys")
    }

    /// Puts a key, whether it is there or not. Returns whether it was put.
    fn put(&self, key: &K::Borrowed, value: V) -> bool;
}

pub struct Cefrodil<K: Key, V, S>(cefrodil_map::Map<K::Borrowed, V, S>);

/// A hasher of a `cefrodil_map`. Its own one is its default, by which it hashes each key once.
pub trait Opens: BuildHasher + Clone + Send + Sync {
    fn builder<K: cefrodil_map::Key + ?Sized, V>(self, keys: usize) -> cefrodil_map::Builder<K, V, Self>;
}

impl Opens for RandomState {
    fn builder<K: cefrodil_map::Key + ?Sized, V>(self, keys: usize) -> cefrodil_map::Builder<K, V> {
        cefrodil_map::Builder::new(keys)
    }
}

impl Opens for Quick {
    fn builder<K: cefrodil_map::Key + ?Sized, V>(self, keys: usize) -> cefrodil_map::Builder<K, V, Quick> {
        cefrodil_map::Builder::new(keys).hasher(self)
    }
}

/// As it is opened by default, but for the hasher.
impl<K: Key, V: Copy + Send + Sync + 'static, S: Opens> Contestant<K, V, S> for Cefrodil<K, V, S> {
    fn new(keys: usize, hasher: S) -> Self {
        Cefrodil(hasher.builder(keys).open().expect("a map"))
    }

    #[inline(always)]
    fn get(&self, key: &K::Borrowed) -> Option<V> {
        self.0.get(key)
    }

    fn get_many(&self, keys: &[K]) -> Vec<Option<V>> {
        self.0.get_many(keys.iter().map(Borrow::borrow))
    }

    #[inline(always)]
    fn put(&self, key: &K::Borrowed, value: V) -> bool {
        self.0.insert(key, value).is_ok()
    }
}

/// The same as objects on the heap, of which a lookup copies the value. It has its own hasher.
pub struct Objects<K, V>(cefrodil_map::ObjectMap<K, V>);

impl<K: Key + 'static, V: Copy + Send + Sync + 'static> Contestant<K, V, RandomState> for Objects<K, V> {
    fn new(keys: usize, _: RandomState) -> Self {
        Objects(cefrodil_map::ObjectMap::new(keys).expect("a map"))
    }

    #[inline(always)]
    fn get(&self, key: &K::Borrowed) -> Option<V> {
        self.0.get(key)
    }

    #[inline(always)]
    fn put(&self, key: &K::Borrowed, value: V) -> bool {
        self.0.insert(key.to_owned(), value).is_ok()
    }
}

impl<K: Key, V: Copy + Send + Sync, S: BuildHasher + Clone + Send + Sync> Contestant<K, V, S> for DashMap<K, V, S> {
    fn new(keys: usize, hasher: S) -> Self {
        DashMap::with_capacity_and_hasher(keys, hasher)
    }

    #[inline(always)]
    fn get(&self, key: &K::Borrowed) -> Option<V> {
        DashMap::get(self, key).map(|value| *value)
    }

    #[inline(always)]
    fn put(&self, key: &K::Borrowed, value: V) -> bool {
        self.insert(key.to_owned(), value);
        true
    }
}

impl<K: Key, V: Copy + Send + Sync, S: BuildHasher + Send + Sync> Contestant<K, V, S> for RwLock<HashMap<K, V, S>> {
    fn new(keys: usize, hasher: S) -> Self {
        HashMap::with_capacity_and_hasher(keys, hasher).into()
    }

    #[inline(always)]
    fn get(&self, key: &K::Borrowed) -> Option<V> {
        self.read().expect("the lock").get(key).copied()
    }

    #[inline(always)]
    fn put(&self, key: &K::Borrowed, value: V) -> bool {
        self.write().expect("the lock").insert(key.to_owned(), value);
        true
    }
}

/// Each lookup moves its entry to the front of the list of uses, so it takes the mutex as a write does.
pub struct Lru<K, V, S>(Mutex<LruCache<K, V, S>>);

impl<K: Key, V: Copy + Send + Sync, S: BuildHasher + Send + Sync> Contestant<K, V, S> for Lru<K, V, S>
where
    KeyRef<K>: Borrow<K::Borrowed>,
{
    fn new(keys: usize, hasher: S) -> Self {
        Lru(LruCache::with_hasher(keys, hasher).into())
    }

    #[inline(always)]
    fn get(&self, key: &K::Borrowed) -> Option<V> {
        self.0.lock().expect("the lock").get(key).copied()
    }

    #[inline(always)]
    fn put(&self, key: &K::Borrowed, value: V) -> bool {
        self.0.lock().expect("the lock").put(key.to_owned(), value);
        true
    }
}
