//! What is stored under a key.
use crate::clock::second;
use crate::flushes::Flushes;
use crate::memory::may_fail;
use crate::slabs;
use cefrodil_map::{Block, Bytes, Head};
use std::alloc::Layout;
use std::mem::offset_of;
use std::sync::atomic::{AtomicU32, AtomicU64, AtomicU8, Ordering::Relaxed};

/// A key, its value, and what belongs to them.
pub type Item = Bytes<About>;

/// An item that is not in the index.
pub type NewItem = Block<About>;

/// What belongs to an item. The order of the fields leaves no gap before the key.
#[repr(C)]
pub struct About {
    /// When it was made. What is made of an older item, or because there is one, was made when that was found: so a flush in between hits it.
    born: u64,
    deadline: AtomicU64,
    pub flags: u32,
    value: u32,
    /// The second since the start in which it was used last, or made.
    used: AtomicU32,
    marks: AtomicU8,
    key: u8,
}

/// Marks of an item: a client has fetched it; its value is out of date; a client was told to fetch the value anew from where it comes; its key came as
/// base64.
// Each is one step, and says nothing of other memory.
const FETCHED: u8 = 1;
pub const STALE: u8 = 2;
pub const WON: u8 = 4;
pub const BINARY: u8 = 8;

// SAFETY: `key` is the last field, and has one byte. Nobody changes the lengths. The memory is that of an allocator.
unsafe impl Head for About {
    const SIZE: usize = offset_of!(About, key) + 1;

    fn lengths(&self) -> (usize, usize) {
        (self.key.into(), self.value as usize)
    }

    unsafe fn allocate(layout: Layout) -> *mut u8 {
        // SAFETY: the caller says that it may be called.
        unsafe { slabs::take(layout) }
    }

    unsafe fn deallocate(at: *mut u8, layout: Layout) {
        // SAFETY: as above.
        unsafe { slabs::give_back(at, layout) }
    }
}

/// An item that was made at this time, with a value of these parts. `None`: there is no memory for it.
pub fn new_item(born: u64, flags: u32, deadline: u64, key: &[u8], value: &[&[u8]]) -> Option<NewItem> {
    let length = value.iter().map(|part| part.len()).sum::<usize>();
    let about = About {
        born,
        deadline: AtomicU64::new(deadline),
        flags,
        value: length.try_into().expect("the longest value has 128 MB"),
        key: key.len().try_into().expect("the longest key has 250 bytes"),
        used: AtomicU32::new(second(born)),
        marks: AtomicU8::new(0),
    };
    let item = may_fail(|| NewItem::try_new(about, key, value))?;
    slabs::note(&item).then_some(item)
}

/// The same, with the key and the flags of this one.
pub fn remade(item: &Item, born: u64, deadline: u64, value: &[&[u8]]) -> Option<NewItem> {
    let next = new_item(born, item.flags, deadline, item.key(), value)?;
    next.mark_as(item, BINARY);
    Some(next)
}

impl About {
    pub fn born(&self) -> u64 {
        self.born
    }

    pub fn deadline(&self) -> u64 {
        // It says nothing of other memory. A call that keeps it and one that moves it take turns, which orders them.
        self.deadline.load(Relaxed)
    }

    pub fn touch(&self, deadline: u64) {
        // As above.
        self.deadline.store(deadline, Relaxed);
    }

    /// Whether it has neither expired nor been flushed.
    pub fn is_live(&self, now: u64, flushes: &Flushes) -> bool {
        !self.has_expired(now) && !flushes.have_hit(self.born, now)
    }

    pub fn has_expired(&self, now: u64) -> bool {
        now >= self.deadline()
    }

    /// A client fetches it at this time.
    pub fn note_fetched(&self, now: u64) {
        if !self.was_fetched() {
            self.mark(FETCHED);
        }
        // Most uses don't change it: other threads share the cache line.
        if self.idle(now) > 0 {
            self.used.store(second(now), Relaxed);
        }
    }

    /// The seconds until this time since it was used last, or made.
    pub fn idle(&self, now: u64) -> u32 {
        second(now).saturating_sub(self.used.load(Relaxed))
    }

    pub fn was_fetched(&self) -> bool {
        self.has(FETCHED)
    }

    /// Sets this mark. Returns whether it was clear: of two clients that set it, one is told so.
    pub fn mark(&self, mark: u8) -> bool {
        self.marks.fetch_or(mark, Relaxed) & mark == 0
    }

    /// Takes these marks of another item.
    fn mark_as(&self, other: &About, marks: u8) {
        self.mark(other.marks.load(Relaxed) & marks);
    }

    /// Counts as used when this one was.
    pub fn use_as(&self, other: &About) {
        self.mark_as(other, FETCHED);
        self.used.store(other.used.load(Relaxed), Relaxed);
    }

    /// Makes an item that is not in the index stale, with this deadline.
    pub fn make_stale(&self, deadline: u64, is_won: bool) {
        self.touch(deadline);
        self.mark(if is_won { STALE | WON } else { STALE });
    }

    pub fn has(&self, mark: u8) -> bool {
        self.marks.load(Relaxed) & mark != 0
    }
}
