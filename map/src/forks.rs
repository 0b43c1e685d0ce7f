//! Whether this process is the one that opened a map. A forked child may have the same number, in a namespace of its own.
use std::ffi::c_int;
use std::sync::atomic::{AtomicBool, AtomicU64, Ordering::Acquire, Ordering::Relaxed, Ordering::Release};

// How many forks made this process out of the one in which counting began. The child counts it before `fork` returns.
static FORKS: AtomicU64 = AtomicU64::new(0);

type Handler = Option<extern "C" fn()>;

extern "C" {
    fn pthread_atfork(before: Handler, in_parent: Handler, in_child: Handler) -> c_int;
}

extern "C" fn count() {
    FORKS.fetch_add(1, Relaxed);
}

/// From now on forks are counted, unless there is no memory for that.
pub(crate) fn count_forks() {
    // If two threads begin together, a fork counts twice, which differs as well. A `Once` that a thread of the parent had begun would never end in a
    // child.
    static COUNTS: AtomicBool = AtomicBool::new(false);
    if !COUNTS.load(Acquire) {
        // SAFETY: the handler makes one atomic step, which a child may make.
        let status = unsafe { pthread_atfork(None, None, Some(count)) };
        COUNTS.store(status == 0, Release);
    }
}

/// Differs in a process and its forked children.
pub(crate) fn this_process() -> u64 {
    FORKS.load(Relaxed)
}
