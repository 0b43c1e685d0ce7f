//! The memory that the server may take, for items and for what clients hold, and what it does take.
use crate::allocator;
use crate::large::left;
use crate::log::Seldom;
use crate::rss_limit::RssLimit;
use std::io;
use std::mem;
use std::sync::atomic::{AtomicU64, Ordering::Relaxed};
use std::sync::{Mutex, OnceLock};

/// What an item takes beside its key and its value: 30 bytes before them, and about 18 that an allocator adds.
const OVERHEAD: u64 = 48;

/// Items that have left the index and are not freed yet may take this part of the limit, beside what it leaves.
const PART_OF_RESERVE: u64 = 32;

/// If they take more than this part, it is looked whether they can be freed.
const PART_OF_WAITING: u64 = 128;

/// The memory of the process is looked at whenever items have been put that take this part of its limit.
const PART_OF_LOOK: u64 = 256;

/// The bytes of items and of clients' buffers.
// All accesses are relaxed. Each change is one atomic step, so none is lost, and an item's bytes are added before it is put and so before they
// are subtracted. No other memory is read by what the words say.
#[derive(Default)]
pub struct Budget {
    limit: AtomicU64,
    /// Those of items that are in the index or about to be put.
    used: AtomicU64,
    /// Those of items that have left the index and are not freed yet, since a thread may be reading them.
    waiting: AtomicU64,
    /// Those of items that were about to be put since the last look at the memory of the process.
    taken: AtomicU64,
    /// Those of items that are about to be put, and of which that look must know.
    expected: AtomicU64,
    /// The most bytes of clients' buffers, and those that they take.
    pub most_buffers: u64,
    buffers: AtomicU64,
    rss: OnceLock<RssLimit>,
    /// One thread at a time looks at the memory of the process.
    turn: Mutex<()>,
}

/// The bytes of an item that is about to be put. If it isn't, they are given back when this is dropped.
pub struct Claim<'a> {
    budget: &'a Budget,
    pub bytes: u64,
    is_expected: bool,
    is_kept: bool,
}

/// The bytes of an item.
pub fn cost(key: usize, value: usize) -> u64 {
    key as u64 + value as u64 + OVERHEAD
}

impl Budget {
    pub fn new(limit: u64, most_buffers: u64) -> Budget {
        Budget { limit: AtomicU64::new(limit), most_buffers, ..Budget::default() }
    }

    /// Bounds the memory of the process from now on, but for clients' buffers. All that it does not take yet is for items. Returns how much that is.
    pub fn bound_process(&self, bytes: u64) -> io::Result<u64> {
        let limit = RssLimit::new(bytes)?;
        let most = limit.most;
        self.set_limit(most);
        self.rss.get_or_init(|| limit);
        Ok(most)
    }

    pub fn set_limit(&self, limit: u64) {
        self.limit.store(limit, Relaxed);
    }

    pub fn limit(&self) -> u64 {
        self.limit.load(Relaxed)
    }

    pub fn used(&self) -> u64 {
        self.used.load(Relaxed)
    }

    pub fn waiting(&self) -> u64 {
        self.waiting.load(Relaxed)
    }

    pub fn claim(&self, bytes: u64) -> Claim<'_> {
        self.taken.fetch_add(bytes, Relaxed);
        self.used.fetch_add(bytes, Relaxed);
        Claim { budget: self, bytes, is_expected: false, is_kept: false }
    }

    pub fn leave(&self, bytes: u64) {
        self.used.fetch_sub(bytes, Relaxed);
        self.waiting.fetch_add(bytes, Relaxed);
    }

    pub fn free(&self, bytes: u64) {
        self.waiting.fetch_sub(bytes, Relaxed);
    }

    pub fn is_over(&self) -> bool {
        self.used() > self.limit()
    }

    /// Whether items that have left take so much that they should be freed before many more have left.
    pub fn has_many_waiting(&self) -> bool {
        self.waiting() > self.limit() / PART_OF_WAITING
    }

    /// Whether no item may be put before some are freed that have left.
    pub fn is_crowded(&self) -> bool {
        self.used() + self.waiting() > self.limit() + self.reserve()
    }

    fn reserve(&self) -> u64 {
        self.limit() / PART_OF_RESERVE
    }

    /// What clients' buffers take, and the items that are kept for clients alone.
    pub fn buffers(&self) -> u64 {
        self.buffers.load(Relaxed) + left()
    }

    /// A client's buffers take so many bytes now, and took so many before.
    pub fn change_buffers(&self, before: u64, now: u64) {
        self.buffers.fetch_add(now.wrapping_sub(before), Relaxed);
    }

    /// Whether enough was put since the last look at the memory of the process for another one.
    pub fn is_time_to_look(&self) -> bool {
        // A guess: if two threads look, the second one has no more to do.
        self.rss.get().is_some_and(|rss| self.taken.load(Relaxed) >= rss.bytes / PART_OF_LOOK)
    }

    /// Looks at the memory of the process before or after an item of so many bytes is put, and changes the limit of items if it must. Returns
    /// whether the process takes too much.
    pub fn look(&self, bytes: u64) -> bool {
        let Some(rss) = self.rss.get() else { return false };
        let _turn = self.turn.lock();
        self.taken.store(0, Relaxed);
        let taken = match self.taken_by_process(rss) {
            Ok(taken) => taken,
            Err(why) => {
                static SELDOM: Seldom = Seldom::new(1);
                SELDOM.log(format_args!("the server's memory can't be read: {why}"));
                return false;
            }
        };
        self.set_limit(rss.next_limit(taken, self.used(), bytes));
        taken > rss.bytes
    }

    /// What the process takes of its limit. If that is too much, the allocator returns first what it can.
    fn taken_by_process(&self, rss: &RssLimit) -> io::Result<u64> {
        // Items that wait to be freed have room of their own, as far as it goes. They are freed without a cut of the limit.
        let apart = self.buffers() + self.waiting().min(self.reserve());
        let taken = || Ok((rss.resident()? + self.expected.load(Relaxed)).saturating_sub(apart));
        match taken()? {
            much if much > rss.bytes => {
                allocator::trim();
                taken()
            }
            taken => Ok(taken),
        }
    }
}

impl Claim<'_> {
    /// Looks at the memory of the process count these bytes as taken, until this is dropped.
    pub fn expect(&mut self) {
        if !mem::replace(&mut self.is_expected, true) {
            self.budget.expected.fetch_add(self.bytes, Relaxed);
        }
    }

    pub fn keep(mut self) {
        self.is_kept = true;
    }
}

impl Drop for Claim<'_> {
    fn drop(&mut self) {
        if self.is_expected {
            self.budget.expected.fetch_sub(self.bytes, Relaxed);
        }
        if !self.is_kept {
            self.budget.used.fetch_sub(self.bytes, Relaxed);
        }
    }
}
