//! A process forks while its threads write to maps. A child drops what it has of its parent's maps, opens one of its own, and ends by `exit`. No child
//! hangs.
use cefrodil_map::{Map, ObjectMap};
use std::ffi::c_int;
use std::panic::{catch_unwind, AssertUnwindSafe};
use std::process::exit;
use std::ptr;
use std::sync::atomic::{AtomicBool, Ordering::Relaxed};
use std::thread;

const CHILDREN: usize = 200;
/// How many threads write, each by a clone of both maps.
const WRITERS: usize = 2;

extern "C" {
    fn fork() -> c_int;
    fn waitpid(child: c_int, status: *mut c_int, options: c_int) -> c_int;
    fn alarm(seconds: u32) -> u32;
}

/// Runs this in a child, and says whether it ended well. A child that hangs is ended by a signal.
fn ends_well(child: impl FnOnce() -> bool) -> bool {
    // SAFETY: the child makes calls of the C library after a fork of a process with threads. glibc allows it those of malloc.
    let number = unsafe { fork() };
    if number == 0 {
        // SAFETY: it takes no pointer.
        unsafe { alarm(20) };
        // By a panic it does not end well.
        exit(if catch_unwind(AssertUnwindSafe(child)).unwrap_or(false) { 0 } else { 2 });
    }
    let mut status = -1;
    // SAFETY: `status` is a number of this function's.
    let ended = unsafe { waitpid(number, &mut status, 0) };
    if status != 0 {
        eprintln!("a child ended with {status:#x}");
    }
    ended == number && status == 0
}

fn opens_and_drops() -> bool {
    let map = Map::<str, u64>::new(1000).expect("memory");
    map.insert("a", 1).is_ok() && map.get("a") == Some(1)
}

/// Drops each clone of a map, those of other threads, too.
fn drop_all<T>(map: &T) {
    for _ in 0..=WRITERS {
        // SAFETY: the child never goes on with what it drops here, and its parent's threads are not in it.
        drop(unsafe { ptr::read(map) });
    }
}

fn write(map: &Map<u64, u64>, objects: &ObjectMap<u64, String>, is_over: &AtomicBool) {
    for number in (0..u64::MAX).take_while(|_| !is_over.load(Relaxed)) {
        let key = number % 1000;
        map.insert(&key, number).expect("room");
        objects.insert(key, number.to_string()).expect("room");
        objects.remove(&(key / 2)).expect("a turn");
    }
}

#[test]
fn no_child_hangs() {
    let is_over = AtomicBool::new(false);
    let map = Map::<u64, u64>::new(10_000).expect("memory");
    let objects = ObjectMap::<u64, String>::new(10_000).expect("memory");
    let ended = thread::scope(|scope| {
        for _ in 0..WRITERS {
            let (map, objects) = (map.clone(), objects.clone());
            let is_over = &is_over;
            scope.spawn(move || write(&map, &objects, is_over));
        }
        let child = || {
            drop_all(&map);
            drop_all(&objects);
            opens_and_drops()
        };
        let ended = (0..CHILDREN).filter(|_| ends_well(child)).count();
        is_over.store(true, Relaxed);
        ended
    });
    assert_eq!(ended, CHILDREN);
    assert!(map.get(&1).is_some() && map.len() == 1000);
}
