//! The wakers of tasks that wait for the same event.
use std::collections::BTreeMap;
use std::task::Waker;

/// The waker of each task, by its place. No two tasks have the same place.
#[derive(Default)]
pub(crate) struct Wakers {
    next: u64,
    waiting: BTreeMap<u64, Waker>,
}

impl Wakers {
    /// Keeps the waker of a task, which gets a place if it has none. Returns the one that the task had before.
    pub fn put(&mut self, place: &mut Option<u64>, waker: Waker) -> Option<Waker> {
        let next = &mut self.next;
        let place = *place.get_or_insert_with(|| {
            *next += 1;
            *next
        });
        self.waiting.insert(place, waker)
    }

    /// The task at this place waits no more.
    pub fn take(&mut self, place: u64) -> Option<Waker> {
        self.waiting.remove(&place)
    }

    /// Wakes all tasks, in the order in which they began to wait.
    pub fn wake(self) {
        self.waiting.into_values().for_each(Waker::wake);
    }
}
