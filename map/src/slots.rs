//! A handle for each thread, from its first call to its end.
//!
//! A thread claims a slot, and keeps it until it ends. The handle of a slot is opened for the first thread that claims it. If all slots are claimed, a
//! thread uses the shared handle, under a mutex, and tries to claim a slot again at its next call.
use crate::forks::{count_forks, this_process};
use crate::handle::Index;
use crate::map::Inserted;
use crate::stalls::Stalls;
use crate::stats::{entries_of, Counts, Kind, Stats};
use crate::wait::{self, SLEEPS_FROM};
use cefrodil::TurnError;
use std::cell::{Cell, RefCell, RefMut};
use std::collections::HashMap;
use std::hash::{BuildHasherDefault, Hasher};
use std::iter::{once, repeat_with};
use std::panic::RefUnwindSafe;
use std::ptr;
use std::sync::atomic::{AtomicU64, AtomicUsize, Ordering::Relaxed};
use std::sync::{Arc, Mutex, MutexGuard, OnceLock, PoisonError, Weak};

/// The handles of a map.
pub(crate) struct Slots<H> {
    // No two maps of a process have the same one.
    id: u64,
    slots: Box<[OnceLock<Boxed<Slot<H>>>]>,
    // So many of them, the first ones, may have a handle. Relaxed: whose calls are to be counted has made this large enough before.
    opened: AtomicUsize,
    // The indices of slots that no thread has claimed, and how many they are.
    free: Mutex<Vec<u16>>,
    free_count: AtomicUsize,
    shared: Mutex<H>,
    shared_counts: Counts,
    stalls: Stalls,
    // The process that opened the map. In its forked child another thread may hold a lock for ever.
    process: u64,
}

/// What one thread uses. The alignment keeps slots of different threads in different cache lines.
#[repr(align(128))]
struct Slot<H> {
    handle: RefCell<H>,
    counts: Counts,
    index: usize,
}

impl<H> Slot<H> {
    fn new(index: usize, handle: H) -> Slot<H> {
        Slot { handle: RefCell::new(handle), counts: Counts::default(), index }
    }
}

/// A box that is made by `boxed`.
pub(crate) type Boxed<T> = Box<[T; 1]>;

/// Boxes what `make` makes, unless there is no memory: then `Box::new` would end the process, and `make` is not called.
pub(crate) fn boxed<T>(make: impl FnOnce() -> Option<T>) -> Option<Boxed<T>> {
    let mut list = Vec::new();
    list.try_reserve_exact(1).ok()?;
    list.push(make()?);
    list.into_boxed_slice().try_into().ok()
}

// SAFETY: all but `handle` is `Sync`, so this is about that. Only `Slots::own` touches it, and only in the slot that the calling thread has
// claimed (`mine`). A `RefMut` stays in its thread, and each call of the map drops its own before it returns. At most one thread has
// claimed a slot: its index begins in `free`, `take_free` takes it out for the thread that claims it, and it goes back at that thread's
// end (`Claims::drop`). The thread doesn't use it again: by then `LAST` and `RECENT` are reset, and `CLAIMS` can not be reached any more. Neither
// is ever of another map, since ids differ. The mutex of `free` orders what two threads do with a slot one after the other, and the handle may move
// to another thread (`Send`).
unsafe impl<H: Send> Sync for Slot<H> {}

// A call that panics leaves its handle usable.
impl<H> RefUnwindSafe for Slot<H> {}

/// Locks the mutex, also if a thread panicked that had locked it. Nothing here is left half done by a panic.
pub(crate) fn lock<T>(mutex: &Mutex<T>) -> MutexGuard<'_, T> {
    mutex.lock().unwrap_or_else(PoisonError::into_inner)
}

impl<H: Index + 'static> Slots<H> {
    /// For so many threads. The last handle is the shared one; each other is in a slot. There must be one at least.
    pub fn new(mut handles: Vec<H>, threads: usize) -> Slots<H> {
        static NEXT: AtomicU64 = AtomicU64::new(1);
        let shared = handles.pop().expect("opening makes one handle at least");
        count_forks();
        let opened = AtomicUsize::new(handles.len().min(threads));
        let made = handles.into_iter().enumerate().map(|(index, handle)| OnceLock::from(Box::new([Slot::new(index, handle)])));
        Slots {
            // Relaxed: it is enough that no two numbers are the same.
            id: NEXT.fetch_add(1, Relaxed),
            opened,
            slots: made.chain(repeat_with(OnceLock::new)).take(threads).collect(),
            free: Mutex::new((0..threads as u16).rev().collect()),
            free_count: AtomicUsize::new(threads),
            shared: Mutex::new(shared),
            shared_counts: Counts::default(),
            stalls: Stalls::new(),
            process: this_process(),
        }
    }

    /// The thread's own handle and its counts, unless it has none. `None`, too, if the handle is borrowed: if a call by it were to call this.
    #[inline]
    pub fn own(self: &Arc<Self>) -> Option<(RefMut<'_, H>, &Counts)> {
        #[cfg(test)]
        before_call();
        let slot = self.mine()?;
        Some((slot.handle.try_borrow_mut().ok()?, &slot.counts))
    }

    /// Makes one call by the thread's own handle, or by the shared one.
    #[inline]
    pub fn call<T>(self: &Arc<Self>, call: impl FnOnce(&mut H) -> T) -> T {
        match self.own() {
            Some((mut handle, _)) => call(&mut handle),
            None => self.call_shared(call),
        }
    }

    #[cold]
    fn call_shared<T>(&self, call: impl FnOnce(&mut H) -> T) -> T {
        self.shared_counts.add(Kind::Shared, 1);
        call(&mut lock(&self.shared))
    }

    #[inline]
    pub fn count(self: &Arc<Self>, kind: Kind) {
        self.add(kind, 1);
    }

    /// Counts so many more.
    #[inline]
    pub fn add(self: &Arc<Self>, kind: Kind, number: u64) {
        match self.mine() {
            Some(slot) => slot.counts.add_alone(kind, number),
            None => self.shared_counts.add(kind, number),
        }
    }

    /// Counts one of a kind that has parts: of `part`, too, unless it is the same.
    pub fn count_for(self: &Arc<Self>, whole: Kind, part: Kind) {
        self.count(whole);
        if part != whole {
            self.count(part);
        }
    }

    /// Counts an entry that has left, but not by a put of the index.
    pub fn count_left(self: &Arc<Self>, whole: Kind, part: Kind) {
        self.count_for(whole, part);
        self.add(Kind::Entry, 1_u64.wrapping_neg());
    }

    /// Counts a put that did this.
    #[inline]
    pub fn count_put(self: &Arc<Self>, did: Inserted) {
        self.count(if let Inserted::Renewed = did { Kind::Renewed } else { Kind::Added });
        if let Inserted::New = did {
            self.count(Kind::Entry);
        }
        if let Inserted::Evicted = did {
            self.count(Kind::Evicted);
        }
    }

    pub fn stats(&self) -> Stats {
        Stats { given_up: self.stalls.number(), stalled: self.stalls.length(), ..Stats::sum(self.all_counts()) }
    }

    /// How many entries all calls left. Calls that run meanwhile count or not.
    pub fn entries(&self) -> usize {
        entries_of(self.all_counts().map(|counts| counts.get(Kind::Entry)).fold(0, u64::wrapping_add)) as usize
    }

    fn all_counts(&self) -> impl Iterator<Item = &Counts> {
        let opened = &self.slots[..self.opened.load(Relaxed)];
        opened.iter().filter_map(OnceLock::get).map(|slot| &slot[0].counts).chain(once(&self.shared_counts))
    }

    /// Calls `attempt` until it returns something, at most so many times.
    pub fn within<T>(&self, tries: u32, attempt: impl FnMut() -> Option<T>) -> Option<T> {
        let done = wait::within(tries, attempt);
        // A call that has not slept says little of the others.
        if done.is_none() && tries > SLEEPS_FROM {
            self.stalls.give_up();
        }
        done
    }

    /// Calls `attempt` until it gets the turn, at most so many times.
    pub fn in_turn<T, E>(&self, tries: u32, mut attempt: impl FnMut() -> Result<T, TurnError<E>>) -> Result<T, TurnError<E>> {
        let done = self.within(tries, || match attempt() {
            Err(TurnError::Held) => None,
            done => Some(done),
        });
        done.unwrap_or(Err(TurnError::Held))
    }

    /// The slot that this thread has claimed, or claims now.
    #[inline]
    fn mine(self: &Arc<Self>) -> Option<&Slot<H>> {
        let last = LAST.get();
        let slot = if last.id == self.id { last.slot } else { self.find()? };
        // SAFETY: `claim` made it of a slot of the map with this id, which is this one, so its type is right. A slot stays where it is until the map
        // is dropped.
        Some(unsafe { &*slot.cast() })
    }

    /// The index of that slot. No two threads have the same one at a time.
    #[cfg(feature = "objects")]
    #[inline]
    pub fn index(self: &Arc<Self>) -> Option<usize> {
        Some(self.mine()?.index)
    }

    #[inline(never)]
    fn find(self: &Arc<Self>) -> Option<*const ()> {
        let recent = RECENT.with(|recent| recent[place_of(self.id)].get());
        if recent.id != self.id {
            return self.claim();
        }
        LAST.set(recent);
        Some(recent.slot)
    }

    #[cold]
    fn claim(self: &Arc<Self>) -> Option<*const ()> {
        // An error: the thread is ending, and has given its slots back.
        let index = CLAIMS.try_with(|claims| claims.find(self)).ok()??;
        let slot = ptr::from_ref(&self.slots[index].get()?[0]).cast();
        RECENT.with(|recent| recent[place_of(self.id)].set(Recent { id: self.id, slot }));
        Some(slot)
    }

    // Opens the handle of a slot that the thread has taken, if none has had it before. `None`: there was no memory.
    fn make(&self, index: usize) -> Option<&Slot<H>> {
        let slot = &self.slots[index];
        if slot.get().is_none() {
            // No call by this handle claims a slot.
            let _ = slot.set(boxed(|| Some(Slot::new(index, lock(&self.shared).more()?)))?);
            self.opened.fetch_max(index + 1, Relaxed);
        }
        Some(&slot.get()?[0])
    }
}

impl<H> Slots<H> {
    /// Whether this process opened the map, and not one from which it was forked.
    pub fn are_of_this_process(&self) -> bool {
        self.process == this_process()
    }

    /// The lock of the list of slots that no thread has claimed.
    #[cfg(test)]
    pub fn hold_free(&self) -> impl Drop + '_ {
        lock(&self.free)
    }

    fn take_free(&self) -> Option<usize> {
        // Relaxed: a guess that saves the lock. If it is wrong, the thread's next call tries again, or finds the list empty.
        if self.free_count.load(Relaxed) == 0 {
            return None;
        }
        let mut free = lock(&self.free);
        let index = free.pop();
        self.free_count.store(free.len(), Relaxed);
        index.map(usize::from)
    }
}

/// Slots of any kind of handles.
trait Home {
    fn give_back(&self, index: usize);
}

impl<H> Home for Slots<H> {
    fn give_back(&self, index: usize) {
        if !self.are_of_this_process() {
            return;
        }
        let mut free = lock(&self.free);
        free.push(index as u16);
        self.free_count.store(free.len(), Relaxed);
    }
}

/// A map, and the slot there that the thread has claimed.
#[derive(Clone, Copy)]
struct Recent {
    id: u64,
    slot: *const (),
}

impl Recent {
    /// No map has this id.
    const NONE: Recent = Recent { id: 0, slot: ptr::null() };
}

/// Maps that are opened one after the other have different places, up to so many.
const PLACES: usize = 256;

#[inline]
fn place_of(id: u64) -> usize {
    id as usize % PLACES
}

/// A slot that this thread has claimed.
struct Claim {
    index: usize,
    slots: Weak<dyn Home>,
}

/// All slots that this thread has claimed, by the ids of their maps.
#[derive(Default)]
struct Claims(RefCell<HashMap<u64, Claim, BuildHasherDefault<IdHasher>>>);

/// Spreads ids, which come one after the other.
#[derive(Default)]
struct IdHasher(u64);

impl Hasher for IdHasher {
    fn write(&mut self, _: &[u8]) {
        unreachable!("an id is a number of 64 bits")
    }

    #[inline]
    fn write_u64(&mut self, id: u64) {
        // An odd number whose bits look random: 2^64 by the golden ratio.
        self.0 = id.wrapping_mul(0x9e37_79b9_7f4a_7c15);
    }

    #[inline]
    fn finish(&self) -> u64 {
        self.0
    }
}

thread_local! {
    // The one that the thread used last. By this a program with one map is quickest.
    static LAST: Cell<Recent> = const { Cell::new(Recent::NONE) };
    // Maps that the thread used lately, each at the place of its id.
    static RECENT: [Cell<Recent>; PLACES] = const { [const { Cell::new(Recent::NONE) }; PLACES] };
    static CLAIMS: Claims = Claims::default();
}

impl Claims {
    #[inline]
    fn find<H: Index + 'static>(&self, slots: &Arc<Slots<H>>) -> Option<usize> {
        let mut claims = self.0.try_borrow_mut().ok()?;
        if let Some(claim) = claims.get(&slots.id) {
            return Some(claim.index);
        }
        // Without memory nothing is taken, and the next call tries again.
        claims.try_reserve(1).ok()?;
        let index = slots.take_free()?;
        if slots.make(index).is_none() {
            slots.give_back(index);
            return None;
        }
        // Claims of maps that are gone.
        claims.retain(|_, claim| claim.slots.strong_count() > 0);
        // In two steps, since only a `Weak` of a known type becomes one of any type.
        let home: Weak<Slots<H>> = Arc::downgrade(slots);
        claims.insert(slots.id, Claim { index, slots: home });
        Some(index)
    }
}

impl Drop for Claims {
    fn drop(&mut self) {
        LAST.set(Recent::NONE);
        RECENT.with(|recent| recent.iter().for_each(|place| place.set(Recent::NONE)));
        for claim in self.0.take().into_values() {
            if let Some(slots) = claim.slots.upgrade() {
                slots.give_back(claim.index);
            }
        }
    }
}

#[cfg(test)]
fn before_call() {
    CALLS.set(CALLS.get() + 1);
    match BEFORE_CALL.take() {
        Some((0, act)) => act(),
        later => BEFORE_CALL.set(later.map(|(calls, act)| (calls - 1, act))),
    }
}

/// After how many calls a test does something, and what it does.
#[cfg(test)]
type Later = Option<(u32, Box<dyn FnOnce()>)>;

#[cfg(test)]
thread_local! {
    /// How many calls of an index this thread has made, if it has a handle.
    pub(crate) static CALLS: Cell<u32> = const { Cell::new(0) };
    /// What a test does before a call of this thread.
    pub(crate) static BEFORE_CALL: Cell<Later> = const { Cell::new(None) };
}
