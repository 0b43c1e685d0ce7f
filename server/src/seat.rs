//! Clients that are connected: how many at a time, and what they hold.
use crate::books::Books;
use crate::holders::{Cut, Holders, Home};
use crate::large::Held;
use mio::{Token, Waker};
use std::mem;
use std::os::fd::RawFd;
use std::sync::atomic::{AtomicI32, AtomicU32, AtomicUsize, Ordering::Acquire, Ordering::Relaxed, Ordering::Release};
use std::sync::{Arc, Mutex, MutexGuard, OnceLock, PoisonError};

/// So many bytes of each client don't count. A command that fits these is never cut off.
pub const FREE: usize = 1 << 13;

// The counts are relaxed, since no other memory is read by what they say. Only the thread that takes seats adds to `taken`. If that thread does
// not see yet that a seat is free, it refuses a client.
pub struct Seats {
    taken: AtomicUsize,
    books: Arc<Books>,
    places: Box<[Place]>,
    /// Where a free place is sought.
    next: AtomicUsize,
    holders: Mutex<Holders>,
    /// The open files where the server listens.
    listeners: OnceLock<Vec<RawFd>>,
}

/// What others see of a client.
struct Place {
    /// Its open file, or `NOBODY` if the place is free.
    file: AtomicI32,
    /// When it last had a turn, in seconds since the server started.
    turn: AtomicU32,
    state: AtomicUsize,
}

const NOBODY: RawFd = -1;

/// What a client waits for.
#[derive(Clone, Copy)]
pub enum State {
    Command,
    Block,
    Skipped,
    Sent,
}

/// The same in memcached's words.
const STATES: [&str; 4] = ["conn_read", "conn_nread", "conn_swallow", "conn_mwrite"];

/// What others see of a client: its open file, when it last had a turn, and what it waits for.
pub struct Seen {
    pub file: RawFd,
    pub turn: u32,
    pub state: &'static str,
}

/// A client's seat, until it is dropped.
pub struct Seat {
    seats: Arc<Seats>,
    index: usize,
    /// What the client's buffers take.
    bytes: u64,
    /// Whether it is among those that hold much.
    is_noted: bool,
    home: Option<Home>,
}

impl Seats {
    pub fn new(most: usize, books: Arc<Books>) -> Arc<Seats> {
        let place = |_| Place { file: AtomicI32::new(NOBODY), turn: AtomicU32::new(0), state: AtomicUsize::new(0) };
        Arc::new(Seats {
            taken: AtomicUsize::new(0),
            books,
            places: (0..most).map(place).collect(),
            next: AtomicUsize::new(0),
            holders: Mutex::default(),
            listeners: OnceLock::new(),
        })
    }

    /// Takes a seat for the client with this open file, if one is free. Only one thread calls it.
    pub fn take(self: &Arc<Seats>, file: RawFd) -> Option<Seat> {
        let first = self.next.load(Relaxed);
        let places = (first..self.places.len()).chain(0..first);
        // Acquire: who had the seat is done with it.
        let is_free = |index: &usize| self.places[*index].file.load(Acquire) == NOBODY;
        let index = (self.taken() < self.places.len()).then(|| places).into_iter().flatten().find(is_free)?;
        self.places[index].file.store(file, Relaxed);
        self.next.store(index + 1, Relaxed);
        self.taken.fetch_add(1, Relaxed);
        Some(Seat { seats: Arc::clone(self), index, bytes: 0, is_noted: false, home: None })
    }

    pub fn taken(&self) -> usize {
        self.taken.load(Relaxed)
    }

    /// Cuts clients off if all hold too much.
    pub fn look(&self) {
        let budget = &self.books.budget;
        if budget.buffers() > budget.most_buffers {
            self.holders().cut(budget.most_buffers);
        }
    }

    /// The next client of this worker that is to be cut off.
    pub fn next_cut(&self, worker: &Arc<Waker>) -> Option<Token> {
        self.holders().next_cut(worker)
    }

    /// Lets others see where the server listens.
    pub fn show_listeners(&self, files: Vec<RawFd>) {
        self.listeners.get_or_init(|| files);
    }

    /// The open files where the server listens.
    pub fn listeners(&self) -> &[RawFd] {
        self.listeners.get().map_or(&[], Vec::as_slice)
    }

    /// The first client at this place or behind it, and its place.
    pub fn seen_from(&self, place: usize) -> Option<(usize, Seen)> {
        let places = self.places.iter().enumerate().skip(place);
        places.map(|(index, place)| (index, place.seen())).find(|(_, seen)| seen.file >= 0)
    }

    fn holders(&self) -> MutexGuard<'_, Holders> {
        self.holders.lock().unwrap_or_else(PoisonError::into_inner)
    }
}

impl Place {
    fn seen(&self) -> Seen {
        Seen { file: self.file.load(Relaxed), turn: self.turn.load(Relaxed), state: STATES[self.state.load(Relaxed)] }
    }
}

impl Seat {
    /// Who serves the client.
    pub fn settle(&mut self, home: Home) {
        self.home = Some(home);
    }

    /// Notes a turn of the client, in seconds since the server started, and what it waits for.
    pub fn note(&self, turn: u32, state: State) {
        let (place, state) = (self.place(), state as usize);
        // Most turns change neither: clients of other workers share the cache line.
        if place.turn.load(Relaxed) != turn {
            place.turn.store(turn, Relaxed);
        }
        if place.state.load(Relaxed) != state {
            place.state.store(state, Relaxed);
        }
    }

    pub fn turn(&self) -> u32 {
        self.place().turn.load(Relaxed)
    }

    /// Counts what the client's buffers take from now on.
    pub fn count(&mut self, bytes: usize) {
        let (bytes, before) = (bytes as u64, self.bytes);
        if bytes != before {
            self.bytes = bytes;
            self.seats.books.budget.change_buffers(before, bytes);
        }
    }

    /// The same, and the item that it is sent. If all clients hold too much, some are cut off.
    pub fn hold(&mut self, bytes: usize, item: Option<&Held>) {
        self.count(bytes);
        if bytes <= FREE && item.is_none() {
            return self.leave();
        }
        let mut holders = self.seats.holders();
        self.is_noted = holders.note(self.index, self.home.as_ref(), (bytes.saturating_sub(FREE)) as u64, item);
        holders.cut(self.seats.books.budget.most_buffers);
    }

    /// Whether it is to be cut off, and what it has held since when.
    pub fn cut(&self) -> Option<Cut> {
        self.is_noted.then(|| self.seats.holders().cut_of(self.index)).flatten()
    }

    /// It holds nothing that counts, until it says so anew.
    pub fn leave(&mut self) {
        if mem::take(&mut self.is_noted) {
            self.seats.holders().remove(self.index);
        }
    }

    fn place(&self) -> &Place {
        &self.seats.places[self.index]
    }
}

impl Drop for Seat {
    fn drop(&mut self) {
        self.leave();
        self.count(0);
        self.place().file.store(NOBODY, Release);
        self.seats.taken.fetch_sub(1, Relaxed);
    }
}
