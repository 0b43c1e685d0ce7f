//! What the index and the commands share: the memory of items, what is counted, and which items are live.
use crate::budget::{cost, Budget};
use crate::clock::Clock;
use crate::counts::{Count, Counts};
use crate::flushes::Flushes;
use crate::item::Item;
use crate::options::Options;
use cefrodil_map::Reason;

/// The buffers of all connections may take this part of the memory limit, beside it.
const PART_OF_BUFFERS: usize = 2;

/// The budget, the counts, and what decides which items are live.
pub struct Books {
    pub budget: Budget,
    pub counts: Counts,
    pub clock: Clock,
    pub flushes: Flushes,
}

impl Books {
    /// Those of a server whose items may take so many bytes.
    pub fn new(limit: u64, options: &Options) -> Books {
        let budget = Budget::new(limit, (options.memory / PART_OF_BUFFERS) as u64);
        Books { budget, counts: Counts::new(options.threads), clock: Clock::new(), flushes: Flushes::default() }
    }

    pub fn is_live(&self, item: &Item) -> bool {
        item.is_live(self.clock.now(), &self.flushes)
    }

    /// An item has left the index. One that no client removed is counted.
    pub fn left(&self, item: &Item, reason: Reason) {
        self.budget.leave(cost_of(item));
        let is_live = match reason {
            Reason::Evicted | Reason::Expired => self.is_live(item),
            _ => return,
        };
        match reason {
            Reason::Expired => self.counts.add(Count::Expired),
            _ => self.counts.add_if(is_live, Count::Evicted, Count::Reclaimed),
        }
        if !item.was_fetched() {
            self.counts.add_if(is_live, Count::EvictedUnfetched, Count::ExpiredUnfetched);
        }
    }

    pub fn freed(&self, item: &Item) {
        self.budget.free(cost_of(item));
    }
}

pub(crate) fn cost_of(item: &Item) -> u64 {
    cost(item.key().len(), item.value().len())
}
