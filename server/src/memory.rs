//! Memory that the system may refuse. What clients make the server take is asked for within [`may_fail`], and refused to them. All else is small: the
//! lists of the map, say. Where the system refuses that, a [`Spare`] has a reserve.
use std::alloc::{GlobalAlloc, Layout, System};
use std::cell::{Cell, UnsafeCell};
use std::mem::MaybeUninit;
use std::ptr;
use std::sync::atomic::{AtomicU64, Ordering::AcqRel, Ordering::Acquire, Ordering::Relaxed};

/// The bytes of the reserve. They take no memory before they are needed.
const RESERVE: usize = 1 << 20;

/// All blocks of the reserve begin at a multiple of this.
const ALIGN: usize = 16;

thread_local! {
    static MAY_FAIL: Cell<bool> = const { Cell::new(false) };
}

/// Makes a call whose allocations may be refused: they don't get the reserve.
pub fn may_fail<T>(call: impl FnOnce() -> T) -> T {
    let before = MAY_FAIL.replace(true);
    let result = call();
    MAY_FAIL.set(before);
    result
}

/// Makes room for so many more in the list, and for no others. Returns whether there is memory for them.
pub fn try_reserve<T>(list: &mut Vec<T>, more: usize) -> bool {
    may_fail(|| list.try_reserve_exact(more).is_ok())
}

/// The allocator maps a block from this size on by itself.
pub const APART: usize = 1 << 17;

/// A smaller buffer has its own size.
const SMALL: usize = 1 << 12;

/// An empty buffer for so many bytes. Unless it is small it is mapped by itself, so that it leaves no hole among the items. What is not used of it
/// takes no memory. `None`: there is no memory for it.
pub fn buffer(bytes: usize) -> Option<Vec<u8>> {
    let mut buffer = Vec::new();
    let size = if bytes < SMALL { bytes } else { bytes.max(APART) };
    try_reserve(&mut buffer, size).then_some(buffer)
}

/// An allocator, and a reserve for what it refuses.
pub struct Spare<A = System> {
    allocator: A,
    reserve: Reserve,
    /// Where the next block of the reserve begins, and in the upper half how many are taken. When none is, it begins anew.
    state: AtomicU64,
}

#[repr(align(16))]
struct Reserve(UnsafeCell<MaybeUninit<[u8; RESERVE]>>);

// SAFETY: each byte belongs to the owner of one block, which the state gives to one thread.
unsafe impl Sync for Reserve {}

const ONE: u64 = 1 << 32;

impl<A> Spare<A> {
    /// A reserve for what this one refuses.
    pub const fn new(allocator: A) -> Spare<A> {
        Spare { allocator, reserve: Reserve(UnsafeCell::new(MaybeUninit::uninit())), state: AtomicU64::new(0) }
    }

    fn start(&self) -> *mut u8 {
        self.reserve.0.get().cast()
    }

    fn has(&self, at: *mut u8) -> bool {
        (at as usize).wrapping_sub(self.start() as usize) < RESERVE
    }

    #[cold]
    fn take(&self, layout: Layout) -> *mut u8 {
        if MAY_FAIL.get() || layout.align() > ALIGN || layout.size() > RESERVE {
            return ptr::null_mut();
        }
        let bytes = layout.size().next_multiple_of(ALIGN) as u64;
        let fits = |state: u64| Some(state + bytes + ONE).filter(|next| next % ONE <= RESERVE as u64);
        // Acquire: who gave these bytes back is done with them.
        match self.state.fetch_update(Acquire, Relaxed, fits) {
            // SAFETY: the block lies in the reserve.
            Ok(state) => unsafe { self.start().add((state % ONE) as usize) },
            Err(_) => ptr::null_mut(),
        }
    }

    fn give_back(&self) {
        let less = |state: u64| Some(if state < 2 * ONE { 0 } else { state - ONE });
        let _ = self.state.fetch_update(AcqRel, Relaxed, less);
    }
}

// SAFETY: a block is one of the allocator, or one of the reserve. The latter has its size and alignment, and is given to nobody else before all are
// given back.
unsafe impl<A: GlobalAlloc> GlobalAlloc for Spare<A> {
    unsafe fn alloc(&self, layout: Layout) -> *mut u8 {
        // SAFETY: the caller says that it may be called: here and below.
        let at = unsafe { self.allocator.alloc(layout) };
        if at.is_null() {
            self.take(layout)
        } else {
            at
        }
    }

    unsafe fn dealloc(&self, at: *mut u8, layout: Layout) {
        if self.has(at) {
            return self.give_back();
        }
        // SAFETY: as above, and it is a block of the allocator.
        unsafe { self.allocator.dealloc(at, layout) }
    }

    unsafe fn realloc(&self, at: *mut u8, layout: Layout, size: usize) -> *mut u8 {
        // SAFETY: as above. The new block has room for what is copied.
        unsafe {
            if !self.has(at) {
                let moved = self.allocator.realloc(at, layout, size);
                if !moved.is_null() {
                    return moved;
                }
            }
            let moved = self.alloc(Layout::from_size_align_unchecked(size, layout.align()));
            if !moved.is_null() {
                ptr::copy_nonoverlapping(at, moved, size.min(layout.size()));
                self.dealloc(at, layout);
            }
            moved
        }
    }
}
