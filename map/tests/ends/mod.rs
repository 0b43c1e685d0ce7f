//! A test whose threads wait for each other fails if one of them waits for ever.
use std::panic::resume_unwind;
use std::sync::mpsc::{channel, RecvTimeoutError};
use std::thread;
use std::time::Duration;

/// How long a test may take that takes a moment. On a machine with much else to do that may be long.
const LONG: Duration = Duration::from_secs(100);

/// Runs the test in a thread of its own. If that does not end, this fails and leaves it behind.
pub fn ends(test: impl FnOnce() + Send + 'static) {
    let (send, receive) = channel();
    let thread = thread::spawn(move || {
        test();
        send.send(()).unwrap();
    });
    if receive.recv_timeout(LONG) == Err(RecvTimeoutError::Timeout) {
        panic!("a thread waits for ever");
    }
    thread.join().unwrap_or_else(|panic| resume_unwind(panic));
}
