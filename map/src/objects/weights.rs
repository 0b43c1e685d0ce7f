//! The bound on what objects weigh together, and how many objects each shard has.
use crate::bound::SHARD;
use std::sync::atomic::{AtomicU64, AtomicUsize, Ordering::Relaxed, Ordering::SeqCst};

/// What an object weighs.
pub(crate) type Weigher<O> = Box<dyn Fn(&O) -> u64 + Send + Sync>;

/// What objects may weigh together, and what they do.
pub(crate) struct Weights<O> {
    most: AtomicU64,
    pub weigher: Weigher<O>,
    // Of the objects in the map, and of those that are about to be put.
    sum: AtomicU64,
    // How many of them each shard has. Relaxed: they only say where to evict.
    numbers: Box<[AtomicU64]>,
    // The shard that the next eviction looks at first, so that none is favoured.
    next: AtomicUsize,
}

/// The weight of an object that is about to be put under this hash. If it isn't put, this is dropped.
pub(crate) struct Claim<'a, O>(Option<(&'a Weights<O>, u64, u64)>);

/// No bound is above this, so no sum of weights wraps.
const HIGHEST: u64 = 1 << 48;

/// So many shards are compared at an eviction. That keeps all nearly alike, and takes no longer where there are many.
const COMPARED: usize = 8;

impl<O> Weights<O> {
    /// Of so many shards, a power of two.
    pub fn new(most: u64, weigher: Weigher<O>, shards: u32) -> Weights<O> {
        let numbers = (0..shards).map(|_| AtomicU64::new(0)).collect();
        Weights { most: AtomicU64::new(most.min(HIGHEST)), weigher, sum: AtomicU64::new(0), numbers, next: AtomicUsize::new(0) }
    }

    /// Changes what they may weigh together.
    pub fn set_most(&self, most: u64) {
        self.most.store(most.min(HIGHEST), SeqCst);
    }

    /// What all objects weigh.
    pub fn sum(&self) -> u64 {
        self.sum.load(SeqCst)
    }

    /// Whether they weigh more than they may.
    pub fn is_over(&self) -> bool {
        self.sum() > self.most.load(SeqCst)
    }

    /// All shards, each by a key of it: first the one of the next few with the most objects.
    pub fn fullest_first(&self) -> impl Iterator<Item = u64> + '_ {
        let (first, count) = (self.next.fetch_add(1, Relaxed), self.numbers.len());
        let round = (first..first + count).map(move |shard| shard % count);
        let fullest = round.clone().take(COMPARED).max_by_key(|shard| self.numbers[*shard].load(Relaxed));
        fullest.into_iter().chain(round).map(|shard| (shard as u64) << SHARD)
    }

    /// An object of this weight has left the map. It was under this hash, or one of the same shard.
    pub fn give_back(&self, hash: u64, weight: u64) {
        self.number(hash).fetch_sub(1, Relaxed);
        self.sum.fetch_sub(weight, SeqCst);
    }

    fn number(&self, hash: u64) -> &AtomicU64 {
        &self.numbers[(hash >> SHARD) as usize & (self.numbers.len() - 1)]
    }
}

impl<'a, O> Claim<'a, O> {
    /// Counts the weight of an object that is about to be put, if weights are counted. `None`: it is heavier than all together may be.
    pub fn of(weights: Option<&'a Weights<O>>, hash: u64, weight: u64) -> Option<Claim<'a, O>> {
        if let Some(weights) = weights {
            if weight > weights.most.load(SeqCst) {
                return None;
            }
            weights.sum.fetch_add(weight, SeqCst);
            weights.number(hash).fetch_add(1, Relaxed);
        }
        Some(Claim(weights.map(|weights| (weights, hash, weight))))
    }

    /// The object was put.
    pub fn keep(mut self) {
        self.0 = None;
    }
}

impl<O> Drop for Claim<'_, O> {
    fn drop(&mut self) {
        if let Some((weights, hash, weight)) = self.0 {
            weights.give_back(hash, weight);
        }
    }
}
