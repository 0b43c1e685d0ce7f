//! Values that are being computed: one thread or task computes, and others that want the same key wait for it.
//!
//! A computed value may be older than a write that came meanwhile. So each write first detaches the flight of its key, and a value whose
//! flight was detached is not put. The value is put under the lock by which flights are detached. SAFETY.md says why that suffices.
use crate::deadlocks;
use crate::print::Print;
use crate::published::Published;
use crate::slots::lock;
use crate::wakers::Wakers;
use std::mem;
use std::ptr;
use std::sync::atomic::{fence, AtomicUsize, Ordering::SeqCst};
use std::sync::{Arc, Condvar, Mutex, MutexGuard, PoisonError};
use std::task::{Context, Poll};
use std::time::Duration;

const STRIPES: usize = 64;

/// The flights of a map.
pub(crate) struct Flights<V> {
    // How many threads and tasks compute a value.
    running: AtomicUsize,
    // By the key in the index.
    stripes: Box<[Stripe<V>]>,
}

impl<V> Flights<V> {
    /// In a forked child: leaves the lists as they are. A thread of the parent may have stopped while it changed one.
    pub fn forget(&mut self) {
        mem::forget(mem::take(&mut self.stripes));
    }
}

// The flights of some keys that are not detached.
type Stripe<V> = Mutex<Vec<Arc<Flight<V>>>>;

/// A value that a thread or a task computes.
pub(crate) struct Flight<V> {
    print: Print,
    // The thread, or `A_TASK`.
    thread: usize,
    state: Mutex<State<V>>,
    // For the threads that wait.
    ended: Condvar,
}

// No thread is this one.
const A_TASK: usize = 0;

struct State<V> {
    outcome: Outcome<V>,
    // Of the tasks that wait.
    wakers: Wakers,
    // Whether threads have waited.
    is_awaited: bool,
}

/// What came of a flight.
#[derive(Clone, Copy)]
pub(crate) enum Outcome<V> {
    Running,
    Value(V),
    // The computation failed or panicked, or the key has another value. Those that wait look it up again.
    None,
}

/// What a thread or a task that wants a key's value is to do.
pub(crate) enum Boarding<'a, V: Copy> {
    /// Compute it.
    First(Leader<'a, V>),
    /// Wait for another one.
    Other(Arc<Flight<V>>),
    /// Compute it, for itself alone: this thread is computing it already, and was called by that computation.
    Within,
}

/// Who computes the value of a flight. When it is dropped, the flight ends: without a value, unless `end` was called.
pub(crate) struct Leader<'a, V: Copy> {
    flights: &'a Flights<V>,
    flight: Arc<Flight<V>>,
}

/// Differs for any two threads that live at the same time.
#[inline]
pub(crate) fn this_thread() -> usize {
    thread_local!(static PLACE: u8 = const { 0 });
    PLACE.with(|place| ptr::from_ref(place) as usize)
}

impl<V: Copy> Flights<V> {
    pub fn new() -> Flights<V> {
        Flights { running: AtomicUsize::new(0), stripes: (0..STRIPES).map(|_| Mutex::default()).collect() }
    }

    fn stripe(&self, print: Print) -> &Stripe<V> {
        &self.stripes[print.key as usize % STRIPES]
    }

    /// Joins the flight of this key, or begins one, for this thread.
    pub fn board(&self, print: Print) -> Boarding<'_, V> {
        self.board_as(this_thread(), print)
    }

    /// The same for a task, which may go on in another thread. If this thread is computing the value already, the task leads a flight that is detached,
    /// so what it loads is not put.
    pub fn board_task(&self, print: Print) -> Result<Leader<'_, V>, Passenger<V>> {
        match self.board_as(A_TASK, print) {
            Boarding::First(leader) => Ok(leader),
            Boarding::Within => Ok(self.begin(A_TASK, print)),
            Boarding::Other(flight) => Err(Passenger { flight, place: None }),
        }
    }

    fn board_as(&self, thread: usize, print: Print) -> Boarding<'_, V> {
        let mut stripe = lock(self.stripe(print));
        if let Some(flight) = stripe.iter().find(|flight| flight.print == print) {
            return if flight.thread == this_thread() { Boarding::Within } else { Boarding::Other(Arc::clone(flight)) };
        }
        let leader = self.begin(thread, print);
        stripe.push(Arc::clone(&leader.flight));
        // Of this fence and that of `detach`, one is first. If it is this one, `detach` finds the flight. If it is that one, the computation
        // sees all that the caller did before the write.
        fence(SeqCst);
        Boarding::First(leader)
    }

    // The flight is in no stripe yet.
    fn begin(&self, thread: usize, print: Print) -> Leader<'_, V> {
        let state = State { outcome: Outcome::Running, wakers: Wakers::default(), is_awaited: false };
        let flight = Arc::new(Flight { print, thread, state: Mutex::new(state), ended: Condvar::new() });
        self.running.fetch_add(1, SeqCst);
        Leader { flights: self, flight }
    }

    /// Detaches the flight of this key. What its thread computes is not put. A computation that begins later sees what the caller did before.
    #[inline]
    pub fn detach(&self, print: Print) {
        // Else the processor could do the load before a store of the caller's is visible: to what the map is a cache of, say.
        fence(SeqCst);
        if self.running.load(SeqCst) > 0 {
            lock(self.stripe(print)).retain(|flight| flight.print != print);
        }
    }

    /// Detaches all flights. It takes each lock, so it needs no fence.
    pub fn detach_all(&self) {
        self.stripes.iter().for_each(|stripe| lock(stripe).clear());
    }

    /// How many flights run. If there are none, a write takes no lock.
    #[cfg(test)]
    pub fn running(&self) -> usize {
        self.running.load(SeqCst)
    }

    /// How many threads and tasks have joined the flight of this key.
    #[cfg(test)]
    pub fn passengers(&self, print: Print) -> usize {
        let stripe = lock(self.stripe(print));
        // The leader and the stripe hold it, too.
        stripe.iter().find(|flight| flight.print == print).map_or(0, |flight| Arc::strong_count(flight) - 2)
    }

    /// Whether a thread waits for the flight of this key, or has waited.
    #[cfg(test)]
    pub fn is_awaited(&self, print: Print) -> bool {
        lock(self.stripe(print)).iter().any(|flight| flight.print == print && lock(&flight.state).is_awaited)
    }

    /// Whether a thread has the lock by which the flight of this key is detached.
    #[cfg(test)]
    pub fn is_locked(&self, print: Print) -> bool {
        self.stripe(print).try_lock().is_err()
    }
}

impl<V: Copy> Flight<V> {
    /// Waits until the flight has ended. `None`: it goes on after `most`, or would never end, since its thread waits for this one. Then compute the value,
    /// for yourself alone.
    pub fn wait(&self, most: Duration) -> Option<Outcome<V>> {
        let mut state = lock(&self.state);
        if state.outcome.is_running() {
            if !deadlocks::begin(this_thread(), self.place(), self.thread) {
                return None;
            }
            state.is_awaited = true;
        }
        let waited = self.ended.wait_timeout_while(state, most, |state| state.outcome.is_running());
        let (state, _) = waited.unwrap_or_else(PoisonError::into_inner);
        if state.outcome.is_running() {
            deadlocks::end(this_thread());
            return None;
        }
        Some(state.outcome)
    }

    // By which those that wait for it are listed. They keep it there.
    fn place(&self) -> usize {
        ptr::from_ref(self) as usize
    }

    /// Whether `wait` would return at once.
    #[cfg(test)]
    pub fn has_outcome(&self) -> bool {
        !lock(&self.state).outcome.is_running()
    }
}

impl<V: Copy> Outcome<V> {
    fn is_running(&self) -> bool {
        matches!(self, Outcome::Running)
    }

    /// The value, if it has one.
    pub fn value(&self) -> Option<V> {
        match self {
            Outcome::Value(value) => Some(*value),
            Outcome::Running | Outcome::None => None,
        }
    }
}

/// A task that waits for a flight. When it is dropped, it leaves nothing there.
pub(crate) struct Passenger<V> {
    flight: Arc<Flight<V>>,
    // That of its waker, once it has been polled.
    place: Option<u64>,
}

impl<V: Copy> Passenger<V> {
    /// Whether the flight has ended, and its value, if it has one.
    pub fn poll(&mut self, context: &Context) -> Poll<Option<V>> {
        // No code of the executor runs under the lock. So a waker is cloned before, and dropped after it.
        let waker = context.waker().clone();
        let mut state = lock(&self.flight.state);
        if !state.outcome.is_running() {
            return Poll::Ready(state.outcome.value());
        }
        let replaced = state.wakers.put(&mut self.place, waker);
        drop(state);
        drop(replaced);
        Poll::Pending
    }
}

impl<V> Drop for Passenger<V> {
    fn drop(&mut self) {
        let Some(place) = self.place else { return };
        let waker = lock(&self.flight.state).wakers.take(place);
        drop(waker);
    }
}

impl<V: Copy> Leader<'_, V> {
    /// Ends the flight with this value, which is put first, unless a write has detached the flight. No thread joins the flight after the
    /// put: the value may be removed before the thread's call begins. If the key has another value, the flight ends without a value: the other one may
    /// be older than a removal.
    pub fn end(&self, value: V, put: impl FnOnce() -> Published<V>) -> Published<V> {
        let mut stripe = self.stripe();
        let published = if self.is_in(&stripe) { put() } else { Published::Outdated(value) };
        self.leave(&mut stripe);
        drop(stripe);
        if !matches!(published, Published::Other(_)) {
            lock(&self.flight.state).outcome = Outcome::Value(value);
        }
        published
    }

    /// Makes this put, unless a write has detached the flight. No write can detach it meanwhile.
    #[cfg(any(test, feature = "objects"))]
    pub fn put<T>(&self, put: impl FnOnce() -> T) -> Option<T> {
        let stripe = self.stripe();
        self.is_in(&stripe).then(put)
    }

    fn stripe(&self) -> MutexGuard<'_, Vec<Arc<Flight<V>>>> {
        lock(self.flights.stripe(self.flight.print))
    }

    fn is_in(&self, stripe: &[Arc<Flight<V>>]) -> bool {
        stripe.iter().any(|flight| Arc::ptr_eq(flight, &self.flight))
    }

    fn leave(&self, stripe: &mut Vec<Arc<Flight<V>>>) {
        stripe.retain(|flight| !Arc::ptr_eq(flight, &self.flight));
    }
}

impl<V: Copy> Drop for Leader<'_, V> {
    fn drop(&mut self) {
        self.leave(&mut self.stripe());
        self.flights.running.fetch_sub(1, SeqCst);
        let mut state = lock(&self.flight.state);
        if state.outcome.is_running() {
            state.outcome = Outcome::None;
        }
        if state.is_awaited {
            deadlocks::end_all(self.flight.place());
        }
        let wakers = mem::take(&mut state.wakers);
        drop(state);
        self.flight.ended.notify_all();
        wakers.wake();
    }
}
