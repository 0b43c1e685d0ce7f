//! What the requests came to. Each worker counts for itself, without a step that others wait for.
use std::cell::Cell;
use std::sync::atomic::{AtomicU64, Ordering::Relaxed};

macro_rules! counts {
    ($($name:ident $text:literal,)*) => {
        /// What is counted.
        #[derive(Clone, Copy, Debug)]
        #[allow(missing_docs)]
        pub enum Count { $($name,)* }

        const TEXTS: &[&str] = &[$($text,)*];
    };
}

counts! {
    Gets "cmd_get",
    Sets "cmd_set",
    Flushes "cmd_flush",
    Touches "cmd_touch",
    MetaCommands "cmd_meta",
    GetHits "get_hits",
    GetMisses "get_misses",
    GetExpired "get_expired",
    GetFlushed "get_flushed",
    DeleteMisses "delete_misses",
    DeleteHits "delete_hits",
    IncrMisses "incr_misses",
    IncrHits "incr_hits",
    DecrMisses "decr_misses",
    DecrHits "decr_hits",
    CasMisses "cas_misses",
    CasHits "cas_hits",
    CasBadValue "cas_badval",
    TouchHits "touch_hits",
    TouchMisses "touch_misses",
    TooLarge "store_too_large",
    NoMemory "store_no_memory",
    Stored "total_items",
    Expired "crawler_reclaimed",
    Evicted "evictions",
    EvictedUnfetched "evicted_unfetched",
    Reclaimed "reclaimed",
    ExpiredUnfetched "expired_unfetched",
    Busy "busy",
    Held "held",
    Refused "refused",
    Logins "auth_cmds",
    BadLogins "auth_errors",
    BytesRead "bytes_read",
    BytesWritten "bytes_written",
    Connections "total_connections",
    Rejected "rejected_connections",
    IdleKicks "idle_kicks",
    NoBuffers "connections_out_of_memory",
}

const KINDS: usize = Count::NoBuffers as usize + 1;

thread_local! {
    static PLACE: Cell<Option<usize>> = const { Cell::new(None) };
}

/// Gives this thread a place of its own in all counts. No other thread may take the same one.
pub fn take_place(index: usize) {
    PLACE.set(Some(index));
}

#[repr(align(128))]
struct Place([AtomicU64; KINDS]);

/// The counts of all threads.
// They are relaxed: no other memory is read by what they say. `stats` may miss the latest ones.
pub struct Counts {
    own: Box<[Place]>,
    /// What threads without a place of their own add to.
    shared: Place,
    /// The sums at the last reset. The places only ever grow: another thread may be adding to one.
    at_reset: Place,
}

impl Place {
    fn new() -> Place {
        Place(std::array::from_fn(|_| AtomicU64::new(0)))
    }
}

impl Counts {
    /// Counts for so many threads with a place of their own, and for all others.
    pub fn new(threads: usize) -> Counts {
        Counts { own: (0..threads).map(|_| Place::new()).collect(), shared: Place::new(), at_reset: Place::new() }
    }

    pub fn add(&self, count: Count) {
        self.add_many(count, 1);
    }

    pub fn add_if(&self, is_hit: bool, hit: Count, miss: Count) {
        self.add(if is_hit { hit } else { miss });
    }

    pub fn add_many(&self, count: Count, number: u64) {
        match PLACE.get().and_then(|index| self.own.get(index)) {
            // Only this thread changes it.
            Some(Place(own)) => own[count as usize].store(own[count as usize].load(Relaxed) + number, Relaxed),
            None => drop(self.shared.0[count as usize].fetch_add(number, Relaxed)),
        }
    }

    pub fn get(&self, count: Count) -> u64 {
        self.since_reset(count as usize)
    }

    pub fn sums(&self) -> impl Iterator<Item = (&'static str, u64)> + '_ {
        TEXTS.iter().enumerate().map(|(kind, text)| (*text, self.since_reset(kind)))
    }

    fn since_reset(&self, kind: usize) -> u64 {
        // First: another thread may reset it meanwhile.
        let before = self.at_reset.0[kind].load(Relaxed);
        self.sum(kind).saturating_sub(before)
    }

    pub fn reset(&self) {
        self.at_reset.0.iter().enumerate().for_each(|(kind, at_reset)| at_reset.store(self.sum(kind), Relaxed));
    }

    fn sum(&self, kind: usize) -> u64 {
        self.own.iter().chain([&self.shared]).map(|place| place.0[kind].load(Relaxed)).sum()
    }
}
