//! What several threads load from a source, beside invalidations.
use std::sync::atomic::{AtomicBool, AtomicU64, Ordering::SeqCst};
use std::thread;

/// Three threads find each key's value by `find`, or load the source's number by `load`. After each change of the source `invalidate` is called. No
/// value is older than the last invalidation that had returned.
pub fn load_beside_invalidations(
    load: impl Fn(u64, &AtomicU64) -> u64 + Sync,
    find: impl Fn(u64) -> Option<u64> + Sync,
    invalidate: impl Fn(),
) {
    let (source, told, end) = (AtomicU64::new(0), AtomicU64::new(0), AtomicBool::new(false));
    thread::scope(|threads| {
        for thread in 0..3 {
            let (load, find, source, told, end) = (&load, &find, &source, &told, &end);
            threads.spawn(move || {
                let mut key = thread;
                while !end.load(SeqCst) {
                    key = (key + 3) % 16;
                    let least = told.load(SeqCst);
                    let value = load(key, source);
                    assert!(value >= least, "{value} is older than {least}");
                    assert!(find(key).is_none_or(|value| value >= least));
                }
            });
        }
        for number in 1..5_000 {
            source.store(number, SeqCst);
            invalidate();
            told.store(number, SeqCst);
        }
        end.store(true, SeqCst);
    });
}
