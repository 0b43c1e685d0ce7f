//! An allocator that refuses some allocations of one thread.
use cefrodild::connection::warm_up;
use cefrodild::memory::Spare;
use cefrodild::slabs;
use std::alloc::{GlobalAlloc, Layout, System};
use std::cell::Cell;
use std::ptr;
use std::sync::{Mutex, MutexGuard, Once, PoisonError};

/// Refuses some allocations of one thread.
pub struct Refusing;

thread_local! {
    /// How many allocations succeed first, and how many are refused then.
    static FIRST: Cell<usize> = const { Cell::new(usize::MAX) };
    static REFUSED: Cell<usize> = const { Cell::new(0) };
}

fn is_refused() -> bool {
    match (FIRST.get(), REFUSED.get()) {
        (0, 0) | (usize::MAX, _) => false,
        (0, left) => {
            REFUSED.set(left - 1);
            true
        }
        (first, _) => {
            FIRST.set(first - 1);
            false
        }
    }
}

// SAFETY: the system's allocator has all blocks.
unsafe impl GlobalAlloc for Refusing {
    unsafe fn alloc(&self, layout: Layout) -> *mut u8 {
        if is_refused() {
            return ptr::null_mut();
        }
        // SAFETY: the caller says that it may be called: here and below.
        unsafe { System.alloc(layout) }
    }

    unsafe fn dealloc(&self, at: *mut u8, layout: Layout) {
        // SAFETY: as above.
        unsafe { System.dealloc(at, layout) }
    }
}

#[global_allocator]
pub static ALLOCATOR: Spare<Refusing> = Spare::new(Refusing);

/// Makes a call, of whose allocations so many succeed and so many are refused then. Returns whether some were.
pub fn refusing<T>(first: usize, refused: usize, call: impl FnOnce() -> T) -> (T, bool) {
    FIRST.set(first);
    REFUSED.set(refused);
    let result = call();
    FIRST.set(usize::MAX);
    (result, REFUSED.get() < refused)
}

/// One test at a time: what has left the index and is held is counted for the process.
pub fn set_up() -> MutexGuard<'static, ()> {
    static ONCE: Once = Once::new();
    static TURN: Mutex<()> = Mutex::new(());
    ONCE.call_once(|| slabs::set_up(64 << 20).expect("there are addresses"));
    warm_up();
    TURN.lock().unwrap_or_else(PoisonError::into_inner)
}
