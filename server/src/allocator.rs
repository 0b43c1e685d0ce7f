//! What the server asks of the C library's allocator, which has all items.
use libc::{c_int, M_ARENA_MAX, M_MMAP_THRESHOLD};

/// A block from this size on is a mapping of its own, which the system gets back when it is freed. If nothing is said of it, the first large
/// block that is freed raises the bound to its own size, and from then on blocks up to that size lie among small ones.
const MAPPED: c_int = 128 << 10;

/// With an arena for each thread, what one of them has free would be of no use to the others.
const ARENAS: c_int = 1;

/// Sets the allocator up. It must be called before there are threads.
pub fn set_up() {
    // SAFETY: the calls change settings of the allocator, and there is no other thread. If it refuses one, it goes on with its own.
    unsafe {
        libc::mallopt(M_MMAP_THRESHOLD, MAPPED);
        libc::mallopt(M_ARENA_MAX, ARENAS);
    }
}

/// Gives the pages back to the system that no block needs.
pub fn trim() {
    // SAFETY: any thread may call it.
    unsafe {
        libc::malloc_trim(0);
    }
}
