//! Items give way to others.
use crate::allocator;
use crate::books::cost_of;
use crate::budget::Claim;
use crate::rss_limit::{PART_OF_CUT, TIMES_OF_CUT};
use crate::slabs::{address_of, look_around};
use crate::store::{Fault, Store};
use cefrodil_map::Reason;
use std::cell::Cell;
use std::mem;
use std::sync::atomic::Ordering::Relaxed;
use std::thread::{sleep, yield_now};
use std::time::Duration;

/// How often no item could be removed before there is no room. Other threads may be about to put some.
const FAILURES: u32 = 100;

/// How often a command waits, and how long, until items are freed that have left: a second at least, as for the turn at a shard. It sleeps, so that
/// a thread that was stopped while it reads them gets the processor. If many threads wait for processors, a sleep takes longer, and so does the wait.
const WAITS: u32 = 5000;
const WAIT: Duration = Duration::from_micros(200);

/// How often a command looks at the memory and evicts, at most, if the process exceeds its limit.
const LOOKS_OF_A_PUT: u32 = 4;

impl Store {
    /// Counts the bytes of an item that is about to be put, and makes room for it.
    pub(crate) fn make_room(&self, bytes: u64) -> Result<Claim<'_>, Fault> {
        let mut claim = self.claim(bytes)?;
        if self.books.budget.is_time_to_look() {
            claim.expect();
        }
        if self.balance(bytes) && self.wait_for_frees() {
            Ok(claim)
        } else {
            Err(Fault::NoRoom)
        }
    }

    /// Counts the bytes of an item that is about to replace another one. There need not be room for both: `balance` must follow.
    pub(crate) fn make_room_later(&self, bytes: u64) -> Result<Claim<'_>, Fault> {
        if self.wait_for_frees() {
            self.claim(bytes)
        } else {
            Err(Fault::NoRoom)
        }
    }

    fn claim(&self, bytes: u64) -> Result<Claim<'_>, Fault> {
        if bytes > self.books.budget.limit() {
            return Err(Fault::NoRoom);
        }
        Ok(self.books.budget.claim(bytes))
    }

    /// Evicts items until the others are within the budget, with an item of so many bytes that is about to be put or was. Returns whether they are.
    pub(crate) fn balance(&self, bytes: u64) -> bool {
        if self.books.budget.is_time_to_look() {
            self.look_at_memory(bytes);
        }
        self.evict_enough(|| self.index.evict(&mut |_| ()))
    }

    /// Looks at the memory of the process. If that exceeds its limit, items give way with their neighbours.
    fn look_at_memory(&self, bytes: u64) {
        for _ in 0..LOOKS_OF_A_PUT {
            if !self.books.budget.look(bytes) {
                break;
            }
            self.evict_enough(|| self.evict_with_neighbours());
            self.index.sweep();
        }
    }

    /// The system has refused memory for so many bytes. Makes a call again when some items have given way, unless that did not help lately.
    pub fn with_more_memory<T>(&self, bytes: usize, again: impl FnOnce() -> Option<T>) -> Option<T> {
        // Relaxed: a guess.
        if self.helpless.load(Relaxed) == self.books.clock.uptime() {
            return None;
        }
        let (cut, gone) = ((TIMES_OF_CUT * bytes as u64).min(self.books.budget.limit() / PART_OF_CUT), Cell::new(0));
        self.evict_while(|| gone.get() < cut, || self.index.evict(&mut |item| gone.set(gone.get() + cost_of(item))));
        self.index.sweep();
        allocator::trim();
        let result = again();
        if result.is_none() {
            self.note_helpless();
        }
        result
    }

    /// The same for a command that then begins anew. It fails the second time.
    pub(crate) fn make_way(&self, bytes: usize, was_refused: &mut bool) -> Result<(), Fault> {
        if mem::replace(was_refused, true) {
            self.note_helpless();
            return Err(Fault::NoRoom);
        }
        self.with_more_memory(bytes, || Some(())).ok_or(Fault::NoRoom)
    }

    fn note_helpless(&self) {
        self.helpless.store(self.books.clock.uptime(), Relaxed);
    }

    /// Evicts items by this call, which returns whether it has, until the others are within the limit. Returns whether they are.
    fn evict_enough(&self, evict: impl Fn() -> bool) -> bool {
        self.evict_while(|| self.books.budget.is_over(), evict)
    }

    fn evict_while(&self, is_needed: impl Fn() -> bool, evict: impl Fn() -> bool) -> bool {
        let mut failed = 0;
        while is_needed() {
            if evict() {
                continue;
            }
            failed += 1;
            if failed == FAILURES {
                return false;
            }
            yield_now();
        }
        true
    }

    /// Frees items that have left, if they take much. If they take too much, waits until they are freed. Returns whether there is room.
    fn wait_for_frees(&self) -> bool {
        if self.books.budget.has_many_waiting() {
            self.index.sweep();
        }
        for _ in 0..WAITS {
            if !self.books.budget.is_crowded() {
                return true;
            }
            sleep(WAIT);
            self.index.sweep();
        }
        false
    }

    /// Evicts an item and its neighbours in memory: then the system gets that memory back. Returns whether it has.
    fn evict_with_neighbours(&self) -> bool {
        let mut neighbours = Vec::new();
        let has_evicted = self.index.evict(&mut |item| {
            look_around(item, |other| neighbours.push((self.index.hash_of(other.key()), address_of(other))));
        });
        neighbours.into_iter().for_each(|(hash, address)| self.evict_at(hash, address));
        has_evicted
    }

    /// Evicts the item with this hash if it lies at this address. If it can't be removed, it stays.
    fn evict_at(&self, hash: u64, address: usize) {
        let mut found = None;
        self.index.peek(hash, &mut |item, token| found = (address_of(item) == address).then_some(token));
        if let Some(token) = found {
            let _ = self.index.remove(hash, token, Reason::Evicted);
        }
    }
}
