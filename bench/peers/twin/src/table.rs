//! The words that all threads share, and a reader's lookup.
use std::mem::ManuallyDrop;
use std::sync::atomic::{AtomicU64, Ordering::SeqCst};

/// Words of a value.
pub const WIDTH: usize = 4;

/// Words of an item: the key, the value and the stamp, which is the moment of the key's last put.
pub const STRIDE: usize = 2 + WIDTH;

pub type Value = [u64; WIDTH];

#[derive(Clone, Copy)]
pub struct Shape {
    pub buckets: u32,
    pub items: u32,
    pub stripes: u32,
    pub depth: u8,
    pub tries: u8,
    pub limit: u64,
}

impl Shape {
    /// As the cache's `Shape::for_items`: the fewest buckets of which `keys` keys fill at most nine tenths.
    pub fn for_keys(keys: u32) -> Shape {
        let mut buckets = 2;
        while 36 * u64::from(buckets) < 10 * u64::from(keys) {
            buckets *= 2;
        }
        Shape { buckets, items: keys, stripes: buckets.min(8192), depth: 5, tries: 8, limit: 1 << 62 }
    }
}

/// A slot: its bucket, and which of the four.
#[derive(Clone, Copy, PartialEq, Eq)]
pub struct Place {
    pub bucket: u32,
    pub slot: u8,
}

/// A key cut into its parts.
#[derive(Clone, Copy)]
pub struct Parts {
    pub tag: u64,
    pub first: u32,
    pub second: u32,
    pub version: usize,
}

pub enum Reply {
    Found { value: Value, at: u64, since: u64 },
    Absent { at: u64 },
    Busy,
}

/// The finalizer of MurmurHash3.
#[inline(always)]
pub fn mix(key: u64) -> u64 {
    let once = (key ^ (key >> 33)).wrapping_mul(0xff51_afd7_ed55_8ccd);
    let twice = (once ^ (once >> 33)).wrapping_mul(0xc4ce_b9fe_1a85_ec53);
    twice ^ (twice >> 33)
}

/// The moment, the versions, the slots, the items and the recency bits, in this order.
pub struct Table {
    words: Vec<AtomicU64>,
    pub shape: Shape,
    slots: usize,
    items: usize,
    bits: usize,
}

/// `many` words of zero, with no page in memory yet.
fn zeros(many: usize) -> Vec<AtomicU64> {
    let mut words = ManuallyDrop::new(vec![0u64; many]);
    // An AtomicU64 is laid out as a u64.
    unsafe { Vec::from_raw_parts(words.as_mut_ptr().cast(), words.len(), words.capacity()) }
}

impl Table {
    pub fn new(shape: Shape) -> Table {
        let slots = 1 + shape.stripes as usize;
        let items = slots + 4 * shape.buckets as usize;
        let bits = items + STRIDE * shape.items as usize;
        let words = zeros(bits + (shape.items as usize).div_ceil(64));
        Table { words, shape, slots, items, bits }
    }

    #[inline(always)]
    fn word(&self, place: usize) -> &AtomicU64 {
        debug_assert!(place < self.words.len());
        // The cache's proofs leave no bounds to check, so the twin checks none.
        unsafe { self.words.get_unchecked(place) }
    }

    #[inline(always)]
    pub fn load(&self, place: usize) -> u64 {
        self.word(place).load(SeqCst)
    }

    #[inline(always)]
    pub fn store(&self, place: usize, word: u64) {
        self.word(place).store(word, SeqCst);
    }

    #[inline(always)]
    pub fn other(&self, bucket: u32, tag: u64) -> u32 {
        bucket ^ ((2 * tag + 1) * 0x5bd1_e995 & u64::from(self.shape.buckets - 1)) as u32
    }

    #[inline(always)]
    pub fn parts(&self, key: u64) -> Parts {
        let mixed = mix(key);
        let tag = mixed >> 56;
        let first = (mixed & u64::from(self.shape.buckets - 1)) as u32;
        let stripe = (mixed >> 32) & u64::from(self.shape.stripes - 1);
        Parts { tag, first, second: self.other(first, tag), version: 1 + stripe as usize }
    }

    #[inline(always)]
    pub fn slot(&self, place: Place) -> usize {
        self.slots + 4 * place.bucket as usize + place.slot as usize
    }

    #[inline(always)]
    pub fn item(&self, item: u64, word: usize) -> usize {
        self.items + STRIDE * item as usize + word
    }

    /// The item that the word of a slot names under the tag.
    #[inline(always)]
    pub fn named(&self, tag: u64, word: u64) -> Option<u64> {
        let item = word.wrapping_sub((tag << 32) + 1);
        (item < u64::from(self.shape.items)).then_some(item)
    }

    /// Marks an item as used. A bit that is set is left alone.
    #[inline(always)]
    pub fn mark(&self, item: u64) {
        let (word, bit) = (self.word(self.bits + item as usize / 64), 1 << (item % 64));
        if word.load(SeqCst) & bit == 0 {
            word.fetch_or(bit, SeqCst);
        }
    }

    /// Clears an item's bit. Whether it was set.
    #[inline(always)]
    pub fn unmark(&self, item: u64) -> bool {
        let bit = 1 << (item % 64);
        self.word(self.bits + item as usize / 64).fetch_and(!bit, SeqCst) & bit != 0
    }

    /// Where the key is, and at which item.
    #[inline(always)]
    pub fn find(&self, key: u64, parts: Parts) -> Option<(Place, u64)> {
        for bucket in [parts.first, parts.second] {
            for slot in 0..4 {
                let place = Place { bucket, slot };
                if let Some(item) = self.named(parts.tag, self.load(self.slot(place))) {
                    if self.load(self.item(item, 0)) == key {
                        return Some((place, item));
                    }
                }
            }
        }
        None
    }

    /// What the table holds of the key: version, slots, the value's words, stamp, moment, version, mark.
    #[inline]
    pub fn get(&self, key: u64) -> Reply {
        let parts = self.parts(key);
        for _ in 0..self.shape.tries {
            let version = self.load(parts.version);
            if version % 2 == 1 {
                continue;
            }
            let mut value = [0; WIDTH];
            let mut since = 0;
            let found = self.find(key, parts);
            if let Some((_, item)) = found {
                for n in 0..WIDTH {
                    value[n] = self.load(self.item(item, 1 + n));
                }
                since = self.load(self.item(item, 1 + WIDTH));
            }
            let at = self.load(0);
            if self.load(parts.version) != version {
                continue;
            }
            let Some((_, item)) = found else {
                return Reply::Absent { at };
            };
            self.mark(item);
            return Reply::Found { value, at, since };
        }
        Reply::Busy
    }
}
