//! Which thread waits for which other one, so that none begins a wait that would never end.
use crate::forks::this_process;
use crate::slots::lock;
use std::collections::BTreeMap;
use std::iter::successors;
use std::ptr;
use std::sync::atomic::{AtomicPtr, Ordering::AcqRel, Ordering::Acquire};
use std::sync::{Mutex, MutexGuard};

/// What a thread waits for: a flight of any map, and the thread that leads it.
struct Wait {
    flight: usize,
    leader: usize,
}

/// What each thread of a process waits for.
struct Waits {
    process: u64,
    threads: Mutex<BTreeMap<usize, Wait>>,
}

/// Notes that this thread begins to wait for the flight. Or returns `false`: the leader waits for this thread, perhaps by way of others.
///
/// Call it with the lock of the flight, which still runs. The thread that ends the flight calls `end_all` with that lock, before it does anything
/// else. So each thread that waits for a running flight is listed, and the last thread of a ring to come here sees the others. A wait that is over may
/// be listed until the leader has called `end_all`. But that leader waits for nobody, so a chain that follows this wait ends there.
pub(crate) fn begin(thread: usize, flight: usize, leader: usize) -> bool {
    let mut threads = threads();
    let closes_a_ring = successors(Some(leader), |other| Some(threads.get(other)?.leader)).any(|other| other == thread);
    if !closes_a_ring {
        threads.insert(thread, Wait { flight, leader });
    }
    !closes_a_ring
}

/// No thread waits for this flight any more.
pub(crate) fn end_all(flight: usize) {
    threads().retain(|_, wait| wait.flight != flight);
}

/// This thread waits no more, for a flight that goes on. The caller has the lock of that, too.
pub(crate) fn end(thread: usize) {
    threads().remove(&thread);
}

// A forked child makes a list of its own: another thread of its parent may have had the lock.
fn threads() -> MutexGuard<'static, BTreeMap<usize, Wait>> {
    static WAITS: AtomicPtr<Waits> = AtomicPtr::new(ptr::null_mut());
    let (process, mut waits) = (this_process(), WAITS.load(Acquire));
    loop {
        // SAFETY: it is null, or was leaked below.
        match unsafe { waits.as_ref() } {
            Some(waits) if waits.process == process => return lock(&waits.threads),
            _ => {}
        }
        let new = Box::into_raw(Box::new(Waits { process, threads: Mutex::default() }));
        waits = WAITS.compare_exchange(waits, new, AcqRel, Acquire).map_or_else(|other| other, |_| new);
    }
}

#[cfg(test)]
pub(crate) fn hold() -> impl Drop {
    threads()
}
