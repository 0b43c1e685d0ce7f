//! A process forks while its threads open, write, count and drop. A child drops what it has from its parent, opens caches of its own, and ends by
//! `exit`. No child hangs. A child that calls by a handle of its parent panics, and changes nothing.
use cefrodil::{Cache, Put, Reply, Shape};
use std::ffi::c_int;
use std::panic::{catch_unwind, AssertUnwindSafe};
use std::process::exit;
use std::sync::atomic::{AtomicBool, Ordering::Relaxed};
use std::thread;

const CHILDREN: usize = 200;

extern "C" {
    fn fork() -> c_int;
    fn waitpid(child: c_int, status: *mut c_int, options: c_int) -> c_int;
    fn alarm(seconds: u32) -> u32;
}

/// Blocks of such shards are cut from a region, behind a lock.
fn opens_and_drops() -> bool {
    let shape = Shape::for_items(40_000, 4).expect("a shape");
    let mut handles = Cache::<1>::open(&shape, 4, 2).expect("memory");
    let put = handles[0].try_put(1, &[2]);
    matches!(put, Ok(Put::Stored { .. })) && matches!(handles[1].get(1), Reply::Found { value: [2], .. })
}

/// Runs this in a child, and says whether it ended well: not by a panic. A child that hangs is ended by a signal.
fn ends_well(child: impl FnOnce() -> bool) -> bool {
    // SAFETY: the child makes calls of the C library after a fork of a process with threads. glibc allows it those of malloc.
    let number = unsafe { fork() };
    if number == 0 {
        // SAFETY: it takes no pointer.
        unsafe { alarm(20) };
        exit(if catch_unwind(AssertUnwindSafe(child)).unwrap_or(false) { 0 } else { 2 });
    }
    let mut status = -1;
    // SAFETY: `status` is a number of this function's.
    let ended = unsafe { waitpid(number, &mut status, 0) };
    ended == number && status == 0
}

#[test]
fn no_child_hangs() {
    let is_over = AtomicBool::new(false);
    let shape = Shape::for_items(2000, 1).expect("a shape");
    let mut handles = Cache::<1>::open(&shape, 1, 3).expect("memory");
    let others = Cache::<1>::open(&shape, 2, 2).expect("memory");
    let (meter, mut mine) = (handles[0].meter(), handles.pop());
    let mut writing = handles.remove(0).into_writing().expect("nobody else has the turn");
    thread::scope(|scope| {
        scope.spawn(|| {
            while !is_over.load(Relaxed) {
                assert!(opens_and_drops());
            }
        });
        scope.spawn(|| {
            while !is_over.load(Relaxed) {
                let _ = meter.counts();
            }
        });
        scope.spawn(|| {
            for number in (0..u64::MAX).take_while(|_| !is_over.load(Relaxed)) {
                writing.put(number % 1000, &[number]).expect("room");
            }
        });
        let mut ended = 0;
        for _ in 0..CHILDREN {
            let (mine, others) = (&mut mine, &others);
            ended += usize::from(ends_well(move || {
                drop(mine.take());
                // SAFETY: the child never returns from here, so nobody uses these again.
                others.iter().for_each(|handle| drop(unsafe { std::ptr::read(handle) }));
                opens_and_drops()
            }));
        }
        is_over.store(true, Relaxed);
        assert_eq!(ended, CHILDREN);
    });
    assert!(matches!(mine.expect("a handle").get(1), Reply::Found { .. }));
}

/// Whether this panics, with a text that says why.
fn is_refused<T>(call: impl FnOnce() -> T) -> bool {
    let refusal = catch_unwind(AssertUnwindSafe(call)).err().expect("it panics");
    refusal.downcast_ref::<&str>().is_some_and(|text| text.contains("forked child"))
}

#[test]
fn calls_by_handles_of_the_parent_panic() {
    let mut handles = Cache::<1>::open(&Shape::for_items(100, 1).expect("a shape"), 1, 2).expect("memory");
    handles[0].try_put(1, &[2]).expect("room");
    assert!(ends_well(|| {
        let are_refused = is_refused(|| handles[0].try_put(1, &[3]))
            && is_refused(|| handles[1].get(1))
            && is_refused(|| handles[1].get_or_turn(1))
            && is_refused(|| handles[0].hold().is_ok())
            && is_refused(|| handles[0].capacity())
            && is_refused(|| handles[0].more(1));
        are_refused && opens_and_drops()
    }));
    assert_eq!(handles[1].get(1).value(), Some([2]));
}
