//! The last clone of a map frees its table, also if threads that used the map go on. These keep nothing of it.
use cefrodil_map::Map;
use std::alloc::{GlobalAlloc, Layout, System};
use std::cell::Cell;
use std::fs::read_to_string;
use std::sync::mpsc::channel;
use std::thread;

thread_local! {
    // How many blocks this thread has taken and not given back.
    static KEPT: Cell<i64> = const { Cell::new(0) };
}

/// The system's allocator, which counts blocks.
struct Counting;

// SAFETY: both calls are those of the system's allocator.
unsafe impl GlobalAlloc for Counting {
    unsafe fn alloc(&self, layout: Layout) -> *mut u8 {
        KEPT.set(KEPT.get() + 1);
        unsafe { System.alloc(layout) }
    }

    unsafe fn dealloc(&self, block: *mut u8, layout: Layout) {
        KEPT.set(KEPT.get() - 1);
        unsafe { System.dealloc(block, layout) }
    }
}

#[global_allocator]
static ALLOCATOR: Counting = Counting;

#[test]
fn a_thread_keeps_no_memory_of_maps_that_are_gone() {
    let kept_after = |maps: u64| {
        for number in 0..maps {
            let map = Map::<u64, u64>::builder(10).threads(1).open().unwrap();
            map.insert(&1, number).unwrap();
        }
        KEPT.get()
    };
    let before = kept_after(10);
    assert_eq!(kept_after(100), before);
}

// The memory of this process, in megabytes.
fn resident() -> usize {
    let numbers = read_to_string("/proc/self/statm").unwrap();
    numbers.split(' ').nth(1).unwrap().parse::<usize>().unwrap() * 4096 / 1_000_000
}

#[test]
fn the_last_clone_frees_the_table() {
    let (send, receive) = channel::<Map<u64, u64>>();
    let (used, wait) = channel();
    let worker = thread::spawn(move || {
        for map in receive {
            map.insert(&1, 1).unwrap();
            drop(map);
            used.send(()).unwrap();
        }
    });
    let before = resident();
    let map = Map::new(400_000).unwrap();
    map.insert(&2, 2).unwrap();
    send.send(map.clone()).unwrap();
    wait.recv().unwrap();
    let with = resident();
    drop(map);
    let after = resident();
    assert!(with > before + 15 && after + 12 < with, "{before}, {with}, {after} MB");
    drop(send);
    worker.join().unwrap();
}
