//! The two words by which the map knows a key.
use crate::generation::check_in;
use crate::key::Key;
use crate::sip::{Secret, Sip};
use std::hash::{BuildHasher, Hash, Hasher};
use std::marker::PhantomData;

/// A key's two words. The map keeps no keys, so two keys with the same print are one key to it.
#[derive(Clone, Copy, Debug, Default, PartialEq, Eq)]
pub(crate) struct Print {
    /// The key in the index.
    pub key: u64,
    /// The check word: kept in the entry, and compared by each lookup.
    pub check: u64,
}

impl Print {
    /// What an entry has that is put in this generation, and what a lookup in it compares.
    #[inline]
    pub fn dated(self, generation: u64) -> Print {
        Print { key: self.key, check: check_in(generation, self.check) }
    }
}

#[cfg(feature = "objects")]
impl Print {
    /// That of all keys with this hash, in a map that compares keys.
    pub fn of_hash(hash: u64) -> Print {
        Print { key: hash, check: 0 }
    }
}

/// Spreads what a hasher of the user's may have spread badly, so that a hash says which shard its key has: the finalizer of `MurmurHash3`.
pub(crate) fn mix(hash: u64) -> u64 {
    let fold = |hash: u64| hash ^ (hash >> 33);
    fold(fold(fold(hash).wrapping_mul(0xff51_afd7_ed55_8ccd)).wrapping_mul(0xc4ce_b9fe_1a85_ec53))
}

/// How keys of the type `K` are hashed.
pub(crate) struct Printer<K: ?Sized, S> {
    hasher: S,
    // With a secret, keys are hashed by this crate's SipHash, and not by `hasher`.
    secret: Option<Secret>,
    keys: PhantomData<fn(&K)>,
}

// What is hashed before the key, or for a word of a secret. The two must differ.
const KEY: u64 = 0;
const CHECK: u64 = 1;

impl<K: ?Sized, S: BuildHasher> Printer<K, S> {
    /// Hashes a key once, by SipHash-1-3. The hasher must be keyed, as std's is: it makes the secret.
    pub fn once(hasher: S) -> Printer<K, S> {
        let secret = Some(Secret(hasher.hash_one(KEY), hasher.hash_one(CHECK)));
        Printer { hasher, secret, keys: PhantomData }
    }

    /// Hashes a key twice, after different words. A number is hashed once, and is its own check word.
    pub fn twice(hasher: S) -> Printer<K, S> {
        Printer { hasher, secret: None, keys: PhantomData }
    }

    /// The print of a key, or of what a key is borrowed as. Both are hashed alike, and `K` alone says how.
    #[inline(always)]
    pub fn print<Q: Key + ?Sized>(&self, key: &Q) -> Print
    where
        K: Key,
    {
        let Some(secret) = self.secret else {
            if let Some(number) = number_of::<K, Q>(key) {
                return self.number_print(number);
            }
            let hash_after = |word| self.hasher.hash_one(After(word, key));
            return Print { key: mix(hash_after(KEY)), check: hash_after(CHECK) };
        };
        let mut state = PrintHasher::new(secret);
        key.write(&mut state);
        if K::IS_NUMBER {
            state.number_print()
        } else {
            state.print()
        }
    }

    // By the hasher. Out of line: a map with a secret pays for nothing of it.
    #[inline(never)]
    fn number_print(&self, number: u64) -> Print {
        Print { key: mix(self.hasher.hash_one((KEY, number))), check: number }
    }
}

// The number of up to 64 bits that a key of the type `K` is.
#[inline(always)]
fn number_of<K: Key + ?Sized, Q: Key + ?Sized>(key: &Q) -> Option<u64> {
    if !K::IS_NUMBER {
        return None;
    }
    let mut state = PrintHasher::new(Secret(0, 0));
    key.write(&mut state);
    (state.parts == 1).then_some(state.number)
}

// A key after a word.
struct After<'a, Q: ?Sized>(u64, &'a Q);

impl<Q: Key + ?Sized> Hash for After<'_, Q> {
    #[inline]
    fn hash<H: Hasher>(&self, to: &mut H) {
        to.write_u64(self.0);
        self.1.write(to);
    }
}

/// Makes the print of what it is given.
#[derive(Clone)]
pub(crate) struct PrintHasher {
    secret: Secret,
    // The hash of all that was given.
    sip: Sip,
    // How many numbers were given. Bytes, and a number of 128 bits, count as two: they are not a single small number.
    parts: usize,
    // The last number of up to 64 bits, and its size in bytes.
    number: u64,
    size: usize,
}

impl PrintHasher {
    #[inline(always)]
    pub fn new(secret: Secret) -> PrintHasher {
        PrintHasher { secret, sip: Sip::new(secret), parts: 0, number: 0, size: 0 }
    }

    /// The SipHash of 128 bits of all that was given.
    #[inline(always)]
    pub fn print(self) -> Print {
        let (key, check) = self.sip.pair();
        Print { key, check }
    }

    /// The print of a key that is a number of up to 64 bits. The number is its own check word, so no two numbers have the same print.
    #[inline(always)]
    pub fn number_print(self) -> Print {
        if self.parts == 1 {
            // The same number in another size has the same check word, so the key differs.
            return Print { key: self.secret.hash(self.number) ^ (8 - self.size) as u64, check: self.number };
        }
        self.print()
    }

    // Takes a number of up to 8 bytes.
    #[inline(always)]
    fn take(&mut self, number: u64, size: usize) {
        self.sip.take(number, size);
        self.parts += 1;
        (self.number, self.size) = (number, size);
    }

    // The hash, for what is not a single small number.
    #[inline(always)]
    fn more(&mut self) -> &mut Sip {
        self.parts += 2;
        &mut self.sip
    }
}

/// Each call gives `sip` the bytes that std's SipHash takes. `number_print` of a single number is not made from them.
impl Hasher for PrintHasher {
    #[inline(always)]
    fn write(&mut self, bytes: &[u8]) {
        self.more().write(bytes);
    }

    #[inline(always)]
    fn write_u8(&mut self, number: u8) {
        self.take(number.into(), 1);
    }

    #[inline(always)]
    fn write_u16(&mut self, number: u16) {
        self.take(number.into(), 2);
    }

    #[inline(always)]
    fn write_u32(&mut self, number: u32) {
        self.take(number.into(), 4);
    }

    #[inline(always)]
    fn write_u64(&mut self, number: u64) {
        self.take(number, 8);
    }

    #[inline(always)]
    fn write_u128(&mut self, number: u128) {
        let sip = self.more();
        sip.take(number as u64, 8);
        sip.take((number >> 64) as u64, 8);
    }

    #[inline(always)]
    fn write_usize(&mut self, number: usize) {
        self.take(number as u64, 8);
    }

    fn finish(&self) -> u64 {
        self.clone().print().key
    }
}
