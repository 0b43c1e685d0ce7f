//! Calls that find no memory. What needs some says so, and what does not goes on.
use cefrodil_map::{ClearError, Map};
use std::alloc::{GlobalAlloc, Layout, System};
use std::cell::Cell;
use std::ptr::null_mut;
use std::thread;

thread_local! {
    // How many more blocks of this size or a larger one the thread gets.
    static LEFT: Cell<u32> = const { Cell::new(u32::MAX) };
    static SIZE: Cell<usize> = const { Cell::new(0) };
    // How many it was refused.
    static REFUSED: Cell<u32> = const { Cell::new(0) };
}

/// The system's allocator, which refuses a thread what it asks for.
struct Refusing;

fn is_refused(size: usize) -> bool {
    let left = LEFT.get();
    if left == u32::MAX || size < SIZE.get() {
        return false;
    }
    LEFT.set(left.saturating_sub(1));
    REFUSED.set(REFUSED.get() + u32::from(left == 0));
    left == 0
}

// SAFETY: all calls are those of the system's allocator, or give no block.
unsafe impl GlobalAlloc for Refusing {
    unsafe fn alloc(&self, layout: Layout) -> *mut u8 {
        if is_refused(layout.size()) {
            return null_mut();
        }
        unsafe { System.alloc(layout) }
    }

    unsafe fn dealloc(&self, block: *mut u8, layout: Layout) {
        unsafe { System.dealloc(block, layout) }
    }

    unsafe fn realloc(&self, block: *mut u8, layout: Layout, size: usize) -> *mut u8 {
        if is_refused(size) {
            return null_mut();
        }
        unsafe { System.realloc(block, layout, size) }
    }
}

#[global_allocator]
static ALLOCATOR: Refusing = Refusing;

// Calls this while all blocks after so many are refused, of those that are large enough. Returns whether one was.
fn refusing<T>(after: u32, size: usize, call: impl FnOnce() -> T) -> (T, bool) {
    SIZE.set(size);
    REFUSED.set(0);
    LEFT.set(after);
    let done = call();
    LEFT.set(u32::MAX);
    (done, REFUSED.get() > 0)
}

// Calls this with 0, 1, .., until no block was refused.
fn at_each_refusal(mut call: impl FnMut(u32) -> bool) {
    assert!((0..100).any(|after| !call(after)), "so many blocks");
}

#[test]
fn a_thread_without_memory_for_a_handle_of_its_own_calls_by_the_shared_one() {
    at_each_refusal(|after| {
        let map = Map::<u64, u64>::new(100).unwrap();
        map.insert(&1, 10).unwrap();
        let own = map.clone();
        let look = move || (refusing(after, 0, || own.get(&1)), own.get(&1));
        let ((first, is_refused), second) = thread::spawn(look).join().unwrap();
        assert_eq!((first, second, map.stats().hits), (Some(10), Some(10), 2), "after {after} blocks");
        is_refused
    });
}

#[test]
fn threads_have_handles_again_when_there_is_memory() {
    let map = Map::<u64, u64>::builder(100).threads(2).open().unwrap();
    let own = map.clone();
    let look = move || (0..100).for_each(|key| _ = refusing(0, 0, || own.get(&key)));
    thread::spawn(look).join().unwrap();
    let before = map.stats().shared;
    for _ in 0..3 {
        let own = map.clone();
        thread::spawn(move || (0..100).for_each(|key| _ = own.get(&key))).join().unwrap();
    }
    assert_eq!((before > 0, map.stats().shared - before), (true, 0));
}

#[test]
fn a_handle_that_could_not_be_opened_is_opened_later() {
    at_each_refusal(|after| {
        let map = Map::<u64, u64>::builder(100).threads(1).open().unwrap();
        let own = map.clone();
        let (_, is_refused) = thread::spawn(move || refusing(after, 0, || own.get(&1))).join().unwrap();
        let (before, own) = (map.stats().shared, map.clone());
        thread::spawn(move || (0..10).for_each(|key| _ = own.get(&key))).join().unwrap();
        assert_eq!(map.stats().shared - before, 0, "after {after} blocks");
        is_refused
    });
}

#[test]
fn a_list_for_which_there_is_no_memory_is_an_error() {
    let map = Map::<u64, u64>::builder(10_000).shards(1).open().unwrap();
    (0..10_000).for_each(|key| _ = map.insert(&key, key));
    let calls: [(&str, fn(&Map<u64, u64>) -> Result<(), ClearError>); 3] = [
        ("for_each", |map| map.for_each(|_, _| ())),
        ("iter", |map| map.iter().map(drop)),
        ("retain", |map| map.retain(|_, _| true).map(drop)),
    ];
    for (name, call) in calls {
        at_each_refusal(|after| {
            let (said, is_refused) = refusing(after, 1 << 14, || call(&map));
            assert_eq!(said, if is_refused { Err(ClearError::NoMemory) } else { Ok(()) }, "{name}, after {after} blocks");
            is_refused
        });
    }
    assert_eq!(map.len(), 10_000);
}
