//! What the builders of all maps choose.
use crate::error::OpenError;
use cefrodil::{Mix, Shape};
use std::collections::hash_map::RandomState;
use std::fmt::{self, Formatter};
use std::time::Duration;

/// How many threads have a handle of their own, by default.
const THREADS: usize = 64;

/// The most threads that can have one, and how many handles can be opened after the opening.
const MOST_THREADS: usize = 1023;
const SPARE_HANDLES: usize = 64;

/// How many entries a shard has at least, and how many shards there are at most, by default.
const ENTRIES_OF_A_SHARD: usize = 62;
const MOST_SHARDS: usize = 16;

/// The most stripes that all shards have together, but each may have `STRIPES_OF_A_SHARD`. Each stripe has a version of 8 bytes, and more of
/// them would leave less room for entries in the processor's caches.
const STRIPES: u32 = 4096;
const STRIPES_OF_A_SHARD: u32 = 64;

pub(crate) struct Settings<S> {
    pub capacity: usize,
    pub shards: Option<u32>,
    pub threads: usize,
    pub hasher: S,
    /// Whether a key is hashed once for its two words: not by a hasher of the user's.
    pub once: bool,
    pub life: Option<Duration>,
    pub idle: Option<Duration>,
    /// How long a call waits for what another thread or task computes.
    pub most_wait: Duration,
}

impl Settings<RandomState> {
    pub fn new(capacity: usize) -> Settings<RandomState> {
        let (hasher, most_wait) = (RandomState::new(), Duration::MAX);
        Settings { capacity, shards: None, threads: THREADS, hasher, once: true, life: None, idle: None, most_wait }
    }
}

impl<S> Settings<S> {
    pub fn hasher<T>(self, hasher: T) -> Settings<T> {
        let Settings { capacity, shards, threads, life, idle, most_wait, .. } = self;
        Settings { capacity, shards, threads, hasher, once: false, life, idle, most_wait }
    }

    /// The shape of each shard, and how many shards to open.
    pub fn shape(&self) -> Result<(Shape, u32), OpenError> {
        let shards = self.shards.unwrap_or_else(|| shards_for(self.capacity));
        let capacity = u32::try_from(self.capacity).unwrap_or(u32::MAX);
        let mut shape = Shape::for_items(capacity, shards).map_err(OpenError::of)?;
        shape.stripes = shape.stripes.min((STRIPES / shards).max(STRIPES_OF_A_SHARD));
        // The map mixes what a hasher of the user's may have spread badly.
        shape.mix = Mix::None;
        Ok((shape, shards))
    }

    /// The bound on the number of entries with which the map begins: their room, or a tenth more than was asked for if that is less.
    pub fn bound(&self, shape: &Shape, shards: u32) -> usize {
        (shape.items as usize * shards as usize).min(self.capacity + self.capacity / 10)
    }

    /// How many handles to open: one that threads share, and one for each thread whose handle can't be opened when it comes.
    pub fn handles(&self) -> Result<usize, OpenError> {
        match self.threads {
            0..=MOST_THREADS => Ok(1 + self.threads.saturating_sub(SPARE_HANDLES)),
            _ => Err(OpenError::Threads),
        }
    }

    /// Writes the builder of this name.
    pub fn fmt(&self, name: &str, text: &mut Formatter) -> fmt::Result {
        text.debug_struct(name)
            .field("capacity", &self.capacity)
            .field("shards", &self.shards)
            .field("threads", &self.threads)
            .field("time_to_live", &self.life)
            .field("time_to_idle", &self.idle)
            .finish_non_exhaustive()
    }
}

fn shards_for(capacity: usize) -> u32 {
    let shards = (capacity / ENTRIES_OF_A_SHARD).clamp(1, MOST_SHARDS);
    1 << shards.ilog2()
}
