//! What other threads do between two calls of the index, as tests have it done: they have the turn, or they write first.
use super::waiting::LONG;
use crate::handle::Index;
use crate::slots::{Slots, BEFORE_CALL, CALLS};
use cefrodil::TurnError;
use std::cell::Cell;
use std::ffi::c_void;
use std::rc::Rc;
use std::sync::mpsc::{channel, Receiver, Sender};
use std::sync::Arc;
use std::thread::{self, JoinHandle};

type InTurn = Box<dyn FnMut() -> bool>;

thread_local! {
    // What an allocation of this thread calls first, until that returns true.
    static IN_TURN: Cell<Option<InTurn>> = const { Cell::new(None) };
}

extern "C" {
    fn __libc_malloc(size: usize) -> *mut c_void;
}

// SAFETY: it is the one of the C library, which takes its blocks back.
#[no_mangle]
extern "C" fn malloc(size: usize) -> *mut c_void {
    if let Some(mut call) = IN_TURN.take() {
        IN_TURN.set(if call() { None } else { Some(call) });
    }
    unsafe { __libc_malloc(size) }
}

/// Another thread that has the turn of a map's only shard, until this is dropped. It lists the entries: a list allocates in its turn.
pub struct Turn {
    thread: Option<JoinHandle<()>>,
    end: Option<Sender<()>>,
}

impl Turn {
    /// `list` lists the entries.
    pub fn begin<H: Index + Send + 'static, T, E>(
        slots: &Arc<Slots<H>>,
        list: impl Fn(&mut H) -> Result<T, TurnError<E>> + Copy + Send + Sync + 'static,
    ) -> Turn {
        let (begun, wait) = channel();
        let (end, ended): (Sender<()>, Receiver<()>) = channel();
        let slots = Arc::clone(slots);
        let thread = thread::spawn(move || {
            // It has a handle before the list allocates.
            slots.call(|_| ());
            let others = Arc::clone(&slots);
            IN_TURN.set(Some(Box::new(move || {
                let is_held = || matches!(others.call(list), Err(TurnError::Held));
                let is_held = thread::scope(|threads| threads.spawn(is_held).join()).unwrap();
                if is_held {
                    begun.send(()).unwrap();
                    let _ = ended.recv();
                }
                is_held
            })));
            assert!(slots.call(list).is_ok());
        });
        wait.recv_timeout(LONG).expect("a list does not allocate in its turn");
        Turn { thread: Some(thread), end: Some(end) }
    }
}

impl Drop for Turn {
    fn drop(&mut self) {
        self.end.take();
        if let Some(thread) = self.thread.take() {
            let ended = thread.join();
            assert!(ended.is_ok() || thread::panicking());
        }
    }
}

/// Does this before a call of the index by this thread, after `calls` others, and so again before later ones, so many times.
pub fn before_calls(calls: u32, times: u32, act: impl Fn() + 'static) {
    fn before_call(calls: u32, times: u32, act: Rc<dyn Fn()>) {
        let again = move || {
            act();
            if times > 1 {
                before_call(calls, times - 1, act);
            }
        };
        BEFORE_CALL.set(Some((calls, Box::new(again))));
    }
    before_call(calls, times, Rc::new(act));
}

/// How many calls of the index this makes, and what it returns. Whatever was to be done before one of them has been done.
pub fn calls<T>(call: impl FnOnce() -> T) -> (u32, T) {
    let before = CALLS.get();
    let told = call();
    assert!(BEFORE_CALL.take().is_none(), "there were fewer calls of the index");
    (CALLS.get() - before, told)
}
