//! Memory for small items (slabs): chunks, each with blocks of one size. The server can list the items of a chunk and evict them together. Then the
//! system gets the chunk back. The C library's allocator would return a page only when all of its small items have left.
use crate::item::Item;
use crate::large;
use crate::rss_limit::bytes_of_page;
use std::alloc::Layout;
use std::io;
use std::mem::{align_of, size_of};
use std::ptr;
use std::slice;
use std::sync::atomic::{AtomicU16, AtomicU32, AtomicU64, Ordering::Acquire, Ordering::Relaxed, Ordering::Release};
use std::sync::{Mutex, MutexGuard, OnceLock, PoisonError};

pub const CHUNK: usize = 1 << 14;

/// The bytes of the smallest and the largest block. A page has few larger items, so the C library's allocator may have those.
const LEAST: usize = 32;
pub const MOST: usize = CHUNK / 16;

/// All blocks begin at a multiple of this.
const ALIGN: usize = 8;

/// The most blocks of a chunk.
const MOST_BLOCKS: usize = CHUNK / LEAST;

/// So many empty chunks stay in memory for the next items.
const MOST_EMPTY: usize = 16;

/// The chunks of this process, if there are any.
static SLABS: OnceLock<Slabs> = OnceLock::new();

/// Chunks in one range of addresses.
pub struct Slabs {
    /// The address of the first one.
    start: usize,
    /// Whether a chunk has whole pages. The system takes no less back: with a larger page it would take other chunks, too.
    has_whole_pages: bool,
    chunks: &'static [Chunk],
    unused: Mutex<Unused>,
    /// Of each number of blocks in a chunk: the first of those chunks that have a free block, or `None`.
    lists: [Mutex<Link>; MOST_BLOCKS + 1],
}

/// The number of a chunk and 1, or `NONE`.
type Link = u32;
const NONE: Link = 0;

/// Chunks without blocks.
struct Unused {
    /// The number of the first one that was never used.
    next: usize,
    /// The list of those in memory and how many these are, and the list of those that the system has got back.
    empty: Link,
    empty_count: usize,
    returned: Link,
}

/// What is known of a chunk: zeros at first. Only who has the lock of its list changes it, or looks at more than `blocks` and `items`. A chunk without
/// blocks is in a list of unused ones.
// So all but `items` is relaxed.
struct Chunk {
    /// How many blocks it has; 0: none. It stays the same while a block of the chunk is taken.
    blocks: AtomicU16,
    /// The bytes of each, and those of all that were ever taken.
    bytes: AtomicU16,
    begun: AtomicU16,
    /// How many are taken now.
    taken: AtomicU16,
    /// Where the last free block of those that were ever taken begins, and 1, or 0. The block begins with the same of the one before.
    free: AtomicU16,
    /// Its neighbours in the list.
    before: AtomicU32,
    next: AtomicU32,
    /// A bit for each `LEAST` bytes of the chunk: whether a complete item begins there.
    items: [AtomicU64; MOST_BLOCKS / 64],
}

/// Reserves addresses for so many bytes of chunks. Until that is done, the C library's allocator has all items.
pub fn set_up(bytes: usize) -> io::Result<()> {
    let count = bytes / CHUNK;
    let heads = (count * size_of::<Chunk>()).next_multiple_of(CHUNK);
    let length = heads + (count + 1) * CHUNK;
    // SAFETY: a new mapping, at any address. No page of it takes memory before it is written.
    let first = unsafe {
        let flags = libc::MAP_PRIVATE | libc::MAP_ANONYMOUS | libc::MAP_NORESERVE;
        libc::mmap(ptr::null_mut(), length, libc::PROT_READ | libc::PROT_WRITE, flags, -1, 0)
    };
    if first == libc::MAP_FAILED {
        return Err(io::Error::last_os_error());
    }
    // SAFETY: it is that mapping. If the kernel refuses, it may fill a chunk that it has got back, as part of a huge page.
    unsafe { libc::madvise(first, length, libc::MADV_NOHUGEPAGE) };
    // SAFETY: the mapping begins with zeros for all of them, and stays. Nothing else uses these.
    let chunks = unsafe { slice::from_raw_parts(first.cast(), count) };
    let unused = Mutex::new(Unused { next: 0, empty: NONE, empty_count: 0, returned: NONE });
    let start = (first as usize + heads).next_multiple_of(CHUNK);
    let has_whole_pages = CHUNK as u64 % bytes_of_page()? == 0;
    let slabs = Slabs { start, has_whole_pages, chunks, unused, lists: [const { Mutex::new(NONE) }; MOST_BLOCKS + 1] };
    SLABS.set(slabs).map_err(|_| io::ErrorKind::AlreadyExists.into())
}

/// The chunks, and the number of the one that has this address.
fn find(at: usize) -> Option<(&'static Slabs, usize)> {
    let slabs = SLABS.get()?;
    let number = at.checked_sub(slabs.start)? / CHUNK;
    (number < slabs.chunks.len()).then_some((slabs, number))
}

/// Memory of this layout, or null.
///
/// # Safety
///
/// The same as for `std::alloc::alloc`.
pub unsafe fn take(layout: Layout) -> *mut u8 {
    let at = match SLABS.get() {
        Some(slabs) if layout.size() <= MOST && layout.align() <= ALIGN => slabs.take(layout.size()),
        _ => None,
    };
    // SAFETY: the caller says that it may be called.
    at.unwrap_or_else(|| unsafe { large::take(layout) })
}

/// Frees memory that `take` returned for this layout.
///
/// # Safety
///
/// The same as for `std::alloc::dealloc`. `take` returned the memory.
pub unsafe fn give_back(at: *mut u8, layout: Layout) {
    match find(at as usize) {
        // SAFETY: the caller says that `take` returned it, and that nobody uses it.
        Some((slabs, number)) => unsafe { slabs.give_back(number, at) },
        // SAFETY: as above. So `large::take` did return it.
        None => unsafe { large::give_back(at, layout) },
    }
}

/// Notes that an item is complete. Returns whether there is memory for that.
pub fn note(item: &Item) -> bool {
    let at = address_of(item);
    let Some((slabs, number)) = find(at) else { return large::note(item) };
    // Release: it comes behind all that was written to the item.
    slabs.chunks[number].word(at).fetch_or(bit(at), Release);
    true
}

/// Calls `each` with all items of the chunk in which this one lies. None of them is freed meanwhile, and `each` must not free one.
pub fn look_around(item: &Item, each: impl FnMut(&Item)) {
    if let Some((slabs, number)) = find(address_of(item)) {
        slabs.look(number, each);
    }
}

/// Calls `each` in the same way with all items of the chunk with this number. Returns whether there are chunks from that number on.
pub fn look_in(number: usize, each: impl FnMut(&Item)) -> bool {
    let Some(slabs) = SLABS.get().filter(|slabs| number < lock(&slabs.unused).next) else { return false };
    slabs.look(number, each);
    true
}

pub fn address_of(item: &Item) -> usize {
    item as *const Item as usize
}

/// The bit of an item at this address, in its word of `items`.
fn bit(at: usize) -> u64 {
    1 << (at / LEAST % 64)
}

fn lock<T>(guarded: &Mutex<T>) -> MutexGuard<'_, T> {
    guarded.lock().unwrap_or_else(PoisonError::into_inner)
}

impl Slabs {
    /// A block for so many bytes, if there is one.
    fn take(&self, bytes: usize) -> Option<*mut u8> {
        let blocks = CHUNK / bytes.max(LEAST).next_multiple_of(ALIGN);
        let mut list = lock(&self.lists[blocks]);
        if *list == NONE {
            let number = self.take_chunk()?;
            self.chunks[number].begin(blocks as u16);
            self.add(&mut list, number);
        }
        let number = *list as usize - 1;
        let chunk = &self.chunks[number];
        let free = chunk.free.load(Relaxed);
        let place = if free == 0 { chunk.begun.fetch_add(chunk.bytes.load(Relaxed), Relaxed) } else { free - 1 };
        let at = (self.address(number) + usize::from(place)) as *mut u8;
        if free > 0 {
            // SAFETY: a free block that was taken before begins so.
            chunk.free.store(unsafe { at.cast::<u16>().read() }, Relaxed);
        }
        if chunk.taken.fetch_add(1, Relaxed) + 1 == blocks as u16 {
            self.remove(&mut list, number);
        }
        Some(at)
    }

    /// # Safety
    ///
    /// It is a block of the chunk with this number that `take` returned, and nobody uses it.
    unsafe fn give_back(&self, number: usize, at: *mut u8) {
        let chunk = &self.chunks[number];
        // The block is taken so far, so this stays the same until the lock is taken.
        let blocks = chunk.blocks.load(Relaxed);
        let mut list = lock(&self.lists[blocks as usize]);
        chunk.word(at as usize).fetch_and(!bit(at as usize), Relaxed);
        let place = (at as usize % CHUNK) as u16;
        // SAFETY: the caller says that nobody uses it.
        unsafe { at.cast::<u16>().write(chunk.free.swap(place + 1, Relaxed)) };
        let taken = chunk.taken.fetch_sub(1, Relaxed) - 1;
        if taken == blocks - 1 {
            self.add(&mut list, number);
        }
        if taken == 0 {
            self.remove(&mut list, number);
            chunk.blocks.store(0, Relaxed);
            drop(list);
            self.give_chunk_back(number);
        }
    }

    /// The number of a chunk without blocks, if one is left.
    fn take_chunk(&self) -> Option<usize> {
        let mut unused = lock(&self.unused);
        let Unused { next, empty, empty_count, returned } = &mut *unused;
        let list = if *empty == NONE { returned } else { empty };
        if let Some(number) = (*list as usize).checked_sub(1) {
            *empty_count = empty_count.saturating_sub(1);
            self.remove(list, number);
            return Some(number);
        }
        let number = Some(*next).filter(|number| *number < self.chunks.len())?;
        *next += 1;
        Some(number)
    }

    /// The chunk with this number has no block any more. It is in a list, so this takes no memory.
    fn give_chunk_back(&self, number: usize) {
        let mut unused = lock(&self.unused);
        if unused.empty_count < MOST_EMPTY || !self.has_whole_pages {
            unused.empty_count += 1;
            return self.add(&mut unused.empty, number);
        }
        // SAFETY: nobody needs what is in it. If the kernel refuses, it takes memory until it is used again.
        unsafe { libc::madvise(self.address(number) as *mut _, CHUNK, libc::MADV_DONTNEED) };
        self.add(&mut unused.returned, number);
    }

    fn address(&self, number: usize) -> usize {
        self.start + number * CHUNK
    }

    fn look(&self, number: usize, mut each: impl FnMut(&Item)) {
        let chunk = &self.chunks[number];
        let blocks = chunk.blocks.load(Relaxed);
        let _list = lock(&self.lists[blocks as usize]);
        // Without the lock it may have become a chunk of other blocks, which the next look finds.
        if blocks == 0 || chunk.blocks.load(Relaxed) != blocks {
            return;
        }
        for place in (0..chunk.begun.load(Relaxed)).step_by(chunk.bytes.load(Relaxed).into()) {
            let at = self.address(number) + usize::from(place);
            if chunk.word(at).load(Acquire) & bit(at) != 0 {
                // SAFETY: a block with its bit has a complete item, of which only atomic fields change. The lock keeps it from being freed.
                each(unsafe { &*(at as *const Item) });
            }
        }
    }

    /// Adds a chunk to a list.
    fn add(&self, list: &mut Link, number: usize) {
        let link = number as Link + 1;
        self.chunks[number].before.store(NONE, Relaxed);
        self.chunks[number].next.store(*list, Relaxed);
        if let Some(next) = self.linked(*list) {
            next.before.store(link, Relaxed);
        }
        *list = link;
    }

    fn remove(&self, list: &mut Link, number: usize) {
        let [before, next] = [&self.chunks[number].before, &self.chunks[number].next].map(|link| link.load(Relaxed));
        if let Some(next) = self.linked(next) {
            next.before.store(before, Relaxed);
        }
        match self.linked(before) {
            Some(before) => before.next.store(next, Relaxed),
            None => *list = next,
        }
    }

    fn linked(&self, link: Link) -> Option<&Chunk> {
        self.chunks.get((link as usize).checked_sub(1)?)
    }
}

impl Chunk {
    /// It is to have so many blocks, all of which are free.
    fn begin(&self, blocks: u16) {
        self.begun.store(0, Relaxed);
        self.free.store(0, Relaxed);
        self.bytes.store((CHUNK / usize::from(blocks) / ALIGN * ALIGN) as u16, Relaxed);
        self.blocks.store(blocks, Relaxed);
    }

    /// The word of `items` that has the bit of a block at this address.
    fn word(&self, at: usize) -> &AtomicU64 {
        &self.items[at % CHUNK / LEAST / 64]
    }
}

const _: () = assert!(align_of::<Item>() <= ALIGN);
