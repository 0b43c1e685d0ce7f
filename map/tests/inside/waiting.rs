//! A call that waits for the index, while a test does something else.
use crate::handle::Index;
use crate::slots::Slots;
use std::sync::mpsc::channel;
use std::sync::Arc;
use std::thread;
use std::time::{Duration, Instant};

/// How long a thread may take to do what it must do at once.
pub const LONG: Duration = Duration::from_secs(60);

/// Makes a call in another thread. From when it calls the function that it gets, this has the handle that all threads of the map share. Once the
/// call waits for the handle, `meanwhile` is called. No thread may have a handle of its own.
pub fn while_it_waits<H: Index + Send + 'static, T: Send>(
    slots: &Arc<Slots<H>>,
    call: impl FnOnce(&dyn Fn()) -> T + Send,
    meanwhile: impl FnOnce(),
) -> T {
    let (ready, is_ready) = channel();
    let (taken, is_taken) = channel();
    thread::scope(|threads| {
        let thread = threads.spawn(move || {
            call(&|| {
                ready.send(()).unwrap();
                is_taken.recv().unwrap();
            })
        });
        is_ready.recv_timeout(LONG).expect("the call does not get so far");
        slots.call(|_| {
            let (before, begin) = (slots.stats().shared, Instant::now());
            taken.send(()).unwrap();
            while slots.stats().shared == before {
                assert!(begin.elapsed() < LONG, "the call does not come to the index");
                thread::yield_now();
            }
            meanwhile();
        });
        thread.join().unwrap()
    })
}
