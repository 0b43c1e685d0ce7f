//! Memory of items that lie in no chunk of small ones. A client that is sent a large item holds it. So it stays as long, also if it leaves the index
//! meanwhile.
use crate::item::Item;
use crate::places;
use crate::slabs::address_of;
use std::alloc::{alloc, dealloc, Layout};
use std::mem::{align_of, size_of};
use std::sync::atomic::{fence, AtomicU32, AtomicU64, Ordering::Acquire, Ordering::Relaxed, Ordering::Release};

/// The bytes of the smallest item that clients hold. A smaller one is copied into the answer, so that several are sent together.
pub const LEAST: usize = 1 << 14;

/// What lies before an item.
#[repr(C)]
struct Before {
    /// `HAS_PLACE`, and `ONE` for each client that holds the item. Who brings it to 0 frees the item.
    holds: AtomicU32,
    /// Where it is among all such items. Only the owner changes it, before others see the item.
    place: u32,
}

const HAS_PLACE: u32 = 1;
const ONE: u32 = 2;

const BEFORE: usize = size_of::<Before>();

/// The bytes of all items that have left the index and are held.
static LEFT: AtomicU64 = AtomicU64::new(0);

pub struct Held(*const Item);

// SAFETY: it lives as long as it is held, by whatever thread. All threads may read an item.
unsafe impl Send for Held {}
// SAFETY: as above.
unsafe impl Sync for Held {}

/// The bytes of items that have left the index, and that are not freed since clients hold them.
pub fn left() -> u64 {
    LEFT.load(Relaxed)
}

fn before(at: usize) -> *mut Before {
    (at - BEFORE) as *mut Before
}

fn with_before(layout: Layout) -> Layout {
    Layout::from_size_align(layout.size() + BEFORE, align_of::<Item>()).expect("an item has less bytes than the address space")
}

/// Memory of this layout for an item, or null.
///
/// # Safety
///
/// The same as for `std::alloc::alloc`.
pub unsafe fn take(layout: Layout) -> *mut u8 {
    // SAFETY: the caller says that it may be called. The block begins with room for what lies before the item, and is aligned for it.
    unsafe {
        let block = alloc(with_before(layout));
        if block.is_null() {
            return block;
        }
        block.cast::<Before>().write(Before { holds: AtomicU32::new(HAS_PLACE), place: places::NONE });
        block.add(BEFORE)
    }
}

/// Notes that an item is complete, whose memory is from `take`. No other thread knows of it. Returns whether there is memory for that.
pub fn note(item: &Item) -> bool {
    let place = places::take(item);
    // SAFETY: this lies before the item, and nobody else uses it so far.
    unsafe { (*before(address_of(item))).place = place.unwrap_or(places::NONE) };
    place.is_some()
}

/// Frees memory that `take` returned for this layout. A large item is freed when no client holds it.
///
/// # Safety
///
/// The same as for `std::alloc::dealloc`. `take` returned the memory.
pub unsafe fn give_back(at: *mut u8, layout: Layout) {
    // SAFETY: the caller says that `take` returned it. Who holds it does not look at its place.
    unsafe {
        let place = (*before(at as usize)).place;
        if place != places::NONE {
            places::give_back(place);
        }
        // Nobody can begin to hold it now. Acquire: who held it has read it.
        if (*before(at as usize)).holds.load(Acquire) == HAS_PLACE {
            return dealloc(at.sub(BEFORE), with_before(layout));
        }
        // First, since who holds it may free it right after that.
        LEFT.fetch_add(layout.size() as u64, Relaxed);
        leave(at, layout, HAS_PLACE);
    }
}

/// # Safety
///
/// It is the memory of an item, which the caller has in this way, and does not use again.
unsafe fn leave(at: *mut u8, layout: Layout, part: u32) {
    // SAFETY: the caller says so. Who subtracts the last part is the only one to use it.
    unsafe {
        // Release: what this thread has read of it comes before it is freed.
        if (*before(at as usize)).holds.fetch_sub(part, Release) == part {
            fence(Acquire);
            LEFT.fetch_sub(layout.size() as u64, Relaxed);
            dealloc(at.sub(BEFORE), with_before(layout));
        }
    }
}

impl Held {
    /// Holds the item, which a lookup has found, if it is a large one.
    pub fn of(item: &Item) -> Option<Held> {
        let held = (item.size() >= LEAST).then(|| Held(item))?;
        // Relaxed: it stays for the time of the lookup anyway.
        held.holds().fetch_add(ONE, Relaxed);
        Some(held)
    }

    pub fn item(&self) -> &Item {
        // SAFETY: it is held.
        unsafe { &*self.0 }
    }

    /// Its bytes if it has left the index, so that they are the client's.
    pub fn bytes(&self) -> u64 {
        // Relaxed: a guess.
        if self.holds().load(Relaxed) & HAS_PLACE == 0 {
            self.item().size() as u64
        } else {
            0
        }
    }

    fn holds(&self) -> &AtomicU32 {
        // SAFETY: it lies before the item, and as long as that.
        unsafe { &(*before(self.0 as usize)).holds }
    }
}

impl Clone for Held {
    fn clone(&self) -> Held {
        self.holds().fetch_add(ONE, Relaxed);
        Held(self.0)
    }
}

impl Drop for Held {
    fn drop(&mut self) {
        let layout = Layout::for_value(self.item());
        let layout = Layout::from_size_align(self.item().size(), layout.align()).expect("the item has this layout");
        // SAFETY: it is held, and not used again.
        unsafe { leave(address_of(self.item()) as *mut u8, layout, ONE) }
    }
}

const _: () = assert!(BEFORE % align_of::<Item>() == 0 && align_of::<Before>() <= align_of::<Item>());
