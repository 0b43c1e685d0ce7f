//! When an object that has left the index may be freed: when no call is left that could have found it.
//!
//! A call that looks objects up is pinned first, and announces the epoch. An object is retired after it has left the index, and notes the epoch of
//! that. A call that is pinned since this epoch or an earlier one may have found the object. All others can't. Each look for objects that can be
//! freed begins the next epoch. Each thread that has a slot has a list of what it retired, so writes of several threads share only the epoch, which
//! moves once for each `BATCH` objects of a thread.
use crate::slots::{boxed, lock, Boxed};
use std::collections::VecDeque;
use std::iter::{once, repeat_with};
use std::marker::PhantomData;
use std::mem;
use std::sync::atomic::{AtomicU64, AtomicUsize, Ordering::Relaxed, Ordering::Release, Ordering::SeqCst};
use std::sync::{Mutex, MutexGuard, OnceLock};

/// So many objects of a thread wait before it looks whether it can free them.
pub(crate) const BATCH: usize = 32;

/// No call is pinned.
const NONE: u64 = u64::MAX;

/// The calls that are pinned, and the objects that wait for them. An object is known by its word in the index.
pub(crate) struct Epochs {
    epoch: AtomicU64,
    // Of the threads that have a slot, by its index.
    pins: Box<[Pin]>,
    // Of the calls by other threads.
    shared: Mutex<Vec<u64>>,
    // Of the threads that have a slot, by its index. Each is made by the first call that retires an object there.
    lists: Box<[OnceLock<Boxed<List>>]>,
    // Of all other threads, and of those for whose lists there is no memory.
    rest: List,
    // The list that a thread looks at beside its own. Relaxed: a guess.
    other: AtomicUsize,
}

/// The calls of one thread that are pinned: one, and others within it. The alignment is that of a slot.
#[repr(align(128))]
struct Pin {
    since: AtomicU64,
    // Only the thread that has the slot uses it, so its loads and stores are relaxed.
    depth: AtomicUsize,
}

/// What threads have retired. The alignment is that of a slot.
#[repr(align(128))]
#[derive(Default)]
struct List(Mutex<Waiting>);

/// Retired objects with their epochs, in the order of these.
struct Waiting {
    objects: VecDeque<(u64, u64)>,
    // At this length, a call looks which can be freed.
    look_at: usize,
}

impl Default for Waiting {
    fn default() -> Waiting {
        Waiting { objects: VecDeque::new(), look_at: BATCH }
    }
}

/// A pinned call. It stays in its thread.
pub(crate) struct Guard<'a> {
    epochs: &'a Epochs,
    place: Place,
    thread: PhantomData<*const ()>,
}

enum Place {
    Slot(usize),
    Shared(u64),
}

impl Epochs {
    /// For threads with so many slots.
    pub fn new(slots: usize) -> Epochs {
        let pin = |_| Pin { since: AtomicU64::new(NONE), depth: AtomicUsize::new(0) };
        Epochs {
            epoch: AtomicU64::new(0),
            pins: (0..slots).map(pin).collect(),
            shared: Mutex::default(),
            lists: repeat_with(OnceLock::new).take(slots).collect(),
            rest: List::default(),
            other: AtomicUsize::new(0),
        }
    }

    /// Pins a call by the thread that has claimed this slot, or by one without a slot.
    #[inline]
    pub fn pin(&self, slot: Option<usize>) -> Guard<'_> {
        let place = match slot {
            Some(index) => {
                let pin = &self.pins[index];
                let depth = pin.depth.load(Relaxed);
                if depth == 0 {
                    // Sequentially consistent, so that it comes before the lookups of this call.
                    pin.since.store(self.epoch.load(SeqCst), SeqCst);
                }
                pin.depth.store(depth + 1, Relaxed);
                Place::Slot(index)
            }
            None => self.pin_shared(),
        };
        Guard { epochs: self, place, thread: PhantomData }
    }

    #[cold]
    fn pin_shared(&self) -> Place {
        let mut shared = lock(&self.shared);
        let since = self.epoch.load(SeqCst);
        shared.push(since);
        Place::Shared(since)
    }

    #[cold]
    fn end_shared(&self, since: u64) {
        let mut shared = lock(&self.shared);
        if let Some(place) = shared.iter().position(|pinned| *pinned == since) {
            shared.swap_remove(place);
        }
    }

    /// Retires an object, which has left the index by a call that returned it. The thread has claimed this slot, or has none. Returns the objects
    /// that may be freed now.
    pub fn retire(&self, slot: Option<usize>, word: u64) -> Vec<u64> {
        let mut waiting = lock(&slot.and_then(|index| self.list(index)).unwrap_or(&self.rest).0);
        waiting.objects.push_back((self.epoch.load(SeqCst), word));
        if waiting.objects.len() < waiting.look_at {
            return Vec::new();
        }
        let end = self.begin_epoch();
        let mut free = waiting.take_free(end);
        drop(waiting);
        self.take_others(end, &mut free);
        free
    }

    // What waits in another list, whose thread may have ended.
    fn take_others(&self, end: u64, free: &mut Vec<u64>) {
        let other = self.other.fetch_add(1, Relaxed) % (self.lists.len() + 1);
        let list = self.lists.get(other).map_or(Some(&self.rest), |list| Some(&list.get()?[0]));
        if let Some(Ok(mut waiting)) = list.map(|list| list.0.try_lock()) {
            free.extend(waiting.take_free(end));
        }
    }

    // That of the thread with this slot, if there is memory for it.
    fn list(&self, slot: usize) -> Option<&List> {
        let list = &self.lists[slot];
        if list.get().is_none() {
            let _ = list.set(boxed(|| Some(List::default()))?);
        }
        Some(&list.get()?[0])
    }

    // What waits in each list, one after the other.
    fn each_list(&self) -> impl Iterator<Item = MutexGuard<'_, Waiting>> {
        let lists = self.lists.iter().filter_map(OnceLock::get).map(|list| &list[0]);
        lists.chain(once(&self.rest)).map(|list| lock(&list.0))
    }

    /// Returns the objects that may be freed now.
    pub fn free_now(&self) -> Vec<u64> {
        let end = self.begin_epoch();
        self.each_list().flat_map(|mut waiting| waiting.take_free(end)).collect()
    }

    // Begins an epoch. Returns the first one whose objects can't be freed: one that a pinned call has announced, or the one that has begun, in which
    // calls may be pinned that were not seen.
    fn begin_epoch(&self) -> u64 {
        let begun = self.epoch.fetch_add(1, SeqCst) + 1;
        self.pinned_since().min(begun)
    }

    // The first epoch that a pinned call has announced.
    fn pinned_since(&self) -> u64 {
        let shared = lock(&self.shared).iter().copied().min().unwrap_or(NONE);
        self.pins.iter().map(|pin| pin.since.load(SeqCst)).fold(shared, u64::min)
    }

    /// In a forked child: leaves the lists as they are. A thread of the parent may have stopped while it changed one.
    pub fn forget(&mut self) {
        mem::forget((mem::take(&mut self.lists), mem::take(&mut self.rest), mem::take(&mut self.shared)));
    }

    /// How many objects wait.
    pub fn waiting(&self) -> usize {
        self.each_list().map(|waiting| waiting.objects.len()).sum()
    }

    /// Calls `see` with each object that waits. Meanwhile it goes on waiting.
    pub fn each_waiting(&self, mut see: impl FnMut(u64)) {
        self.each_list().for_each(|waiting| waiting.objects.iter().for_each(|(_, word)| see(*word)));
    }

    /// Whether those of each list wait in the order of their epochs.
    #[cfg(test)]
    pub fn are_in_order(&self) -> bool {
        self.each_list().all(|waiting| waiting.objects.iter().is_sorted_by_key(|(epoch, _)| *epoch))
    }
}

impl Waiting {
    // Those of the epochs before this one.
    fn take_free(&mut self, end: u64) -> Vec<u64> {
        let free = self.objects.partition_point(|(epoch, _)| *epoch < end);
        let words = self.objects.drain(..free).map(|(_, word)| word).collect();
        self.look_at = self.objects.len() + BATCH;
        words
    }
}

impl Drop for Guard<'_> {
    #[inline]
    fn drop(&mut self) {
        match self.place {
            Place::Slot(index) => {
                let pin = &self.epochs.pins[index];
                let depth = pin.depth.load(Relaxed) - 1;
                pin.depth.store(depth, Relaxed);
                if depth == 0 {
                    // What this call did with objects comes before they are freed: who frees them has read this.
                    pin.since.store(NONE, Release);
                }
            }
            Place::Shared(since) => self.epochs.end_shared(since),
        }
    }
}
