//! What pins keep of a map when it has left that.
use crate::stats::Stats;
use std::sync::atomic::{AtomicU64, Ordering::Relaxed};
use std::sync::Arc;

/// How many objects that is, and what they weigh. Relaxed: a number says nothing of other memory.
#[derive(Default)]
pub(crate) struct Kept {
    number: AtomicU64,
    weight: AtomicU64,
}

impl Kept {
    pub fn add_to(&self, stats: &mut Stats) {
        (stats.pinned, stats.pinned_weight) = (self.number.load(Relaxed), self.weight.load(Relaxed));
    }
}

/// One of these objects, until this is dropped.
pub(crate) struct Keeping {
    kept: Arc<Kept>,
    weight: u64,
}

impl Keeping {
    pub fn begin(kept: &Arc<Kept>, weight: u64) -> Keeping {
        kept.number.fetch_add(1, Relaxed);
        kept.weight.fetch_add(weight, Relaxed);
        Keeping { kept: Arc::clone(kept), weight }
    }
}

impl Drop for Keeping {
    fn drop(&mut self) {
        self.kept.number.fetch_sub(1, Relaxed);
        self.kept.weight.fetch_sub(self.weight, Relaxed);
    }
}
