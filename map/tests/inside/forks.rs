//! Forked children: none takes its parent's handles for its own, also one that has its parent's process number.
use crate::flight::Boarding;
use crate::Map;
use std::ffi::c_int;
use std::process::exit;
use std::sync::Arc;
use std::{ptr, thread};

extern "C" {
    fn fork() -> c_int;
    fn waitpid(child: c_int, status: *mut c_int, options: c_int) -> c_int;
    fn unshare(flags: c_int) -> c_int;
    fn alarm(seconds: u32) -> u32;
}

const CLONE_NEWPID: c_int = 0x2000_0000;
/// How a child ends whose system gives it no process numbers of its own.
const NOT_ALLOWED: c_int = 77;

// What this ends with in a child. One that hangs is ended by a signal.
pub fn in_child(child: impl FnOnce() -> c_int) -> c_int {
    // SAFETY: the child makes calls of the C library after a fork of a process with threads. glibc allows it those of malloc.
    let number = unsafe { fork() };
    if number == 0 {
        // SAFETY: it takes no pointer.
        unsafe { alarm(20) };
        exit(child());
    }
    let mut status = -1;
    // SAFETY: `status` is a number of this function's.
    assert_eq!(unsafe { waitpid(number, &mut status, 0) }, number);
    assert_eq!(status & 0x7f, 0, "the child was ended by a signal");
    status >> 8
}

// The same in a child that is the first process of its namespace.
fn in_first_child(child: impl FnOnce() -> c_int) -> c_int {
    // SAFETY: it takes no pointer.
    if unsafe { unshare(CLONE_NEWPID) } == 0 {
        in_child(child)
    } else {
        NOT_ALLOWED
    }
}

#[test]
fn a_child_knows_that_its_handles_are_its_parents() {
    let open = || Map::<u64, u64>::new(100).unwrap();
    let is_parents = |map: &Map<u64, u64>| c_int::from(!map.inner.core.slots.are_of_this_process());
    let map = open();
    assert_eq!((is_parents(&map), in_child(|| is_parents(&map)), in_child(|| is_parents(&open()))), (0, 1, 0));
    let of_same_number = in_child(|| {
        in_first_child(|| {
            let map = open();
            in_first_child(|| is_parents(&map))
        })
    });
    assert!(of_same_number == 1 || of_same_number == NOT_ALLOWED);
}

// Another thread of the parent may have had the lock under which a thread gives its slot back.
#[test]
fn the_end_of_a_child_waits_for_no_lock_of_its_parent() {
    let map = Map::<u64, u64>::new(100).unwrap();
    map.insert(&1, 1).unwrap();
    let _locked = map.inner.core.slots.hold_free();
    assert_eq!(in_child(|| 0), 0);
}

// Another thread of the parent may have stopped while it changed a list. So the child's drop of the map doesn't drop what is in one.
#[test]
fn the_end_of_a_child_leaves_the_lists_of_flights_as_they_are() {
    let map = Map::<u64, u64>::new(100).unwrap();
    let flights = &map.inner.core.flights;
    let print = map.inner.print(&1);
    let Boarding::First(_leader) = flights.board(print) else { panic!("there is another flight") };
    let flight = thread::scope(|threads| match threads.spawn(|| flights.board(print)).join().unwrap() {
        Boarding::Other(flight) => flight,
        _ => panic!("the flight has ended"),
    });
    let holders = Arc::strong_count(&flight);
    let end = || {
        // SAFETY: the child ends without another look at what it drops here.
        drop(unsafe { ptr::read(&map) });
        c_int::from(Arc::strong_count(&flight) != holders)
    };
    assert_eq!(in_child(end), 0);
}
