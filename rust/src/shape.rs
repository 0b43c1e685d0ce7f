//! The shape of a table.
use crate::error::OpenError;
use crate::open_handle::same_version;
use crate::raw::{self, RawShape};

/// Whether the library hashes keys, or takes them as they are.
#[derive(Clone, Copy, Debug, Default, PartialEq, Eq, Hash)]
pub enum Mix {
    /// Hashes keys by the finalizer of `MurmurHash3`.
    #[default]
    Full,
    /// Takes keys as they are. For tests, and for keys that are hashes all of whose bits are well spread.
    None,
}

/// Which key a full shard evicts for a new one. A key is used when a lookup finds it, other than by `peek` and `try_peek`, and when a put
/// overwrites its value.
#[derive(Clone, Copy, Debug, Default, PartialEq, Eq, Hash)]
pub enum Policy {
    /// Evicts a key that was not used since its put. So a scan evicts few keys that are in use. If more than nine in ten keys were used, it
    /// evicts one of these. A key that is put again soon after its eviction counts as used.
    #[default]
    ScanResistant,
    /// A hand goes round the keys, and evicts the first that was neither put nor used since it last passed. So a scan may evict every key.
    Clock,
}

/// The sizes of a shard's table and the limits of its calls. [`Shape::for_items`] chooses one.
/// A minor version may add a field: change one by `Shape { items: 2, ..Shape::for_items(100, 1)? }`.
#[derive(Clone, Copy, Debug, PartialEq, Eq, Hash)]
pub struct Shape {
    /// Most version changes in the table's life, 0 to 2^62. Each write makes at least two.
    pub limit: u64,
    /// A power of two, 2 to 2^20. Each bucket has four slots.
    pub buckets: u32,
    /// Most keys, 1 to four times the buckets. Keep it below nine tenths of that.
    pub items: u32,
    /// Number of version counters, a power of two, 1 to 2^16. The keys that share one are a stripe.
    pub stripes: u32,
    /// Most keys that one put may move, 0 to 8.
    pub depth: u32,
    /// Most tries of one lookup, 1 to 64.
    pub tries: u32,
    /// Whether keys are hashed.
    pub mix: Mix,
    /// Which key gives way to a new one.
    pub policy: Policy,
}

impl Shape {
    /// Chooses the shape of each of `shards` shards that hold `items` items together. One shard has room for just these. Each of several gets its
    /// mean share and five standard deviations more, because the hash gives some shards more keys than others.
    ///
    /// # Errors
    ///
    /// [`OpenError::Shards`] if the number of shards is no power of two from 1 to 256. [`OpenError::Items`] if there are no items, or more than
    /// 3,774,873 in a shard. [`OpenError::Version`] or [`OpenError::Processor`] if no cache can be opened.
    ///
    /// # Examples
    ///
    /// ```
    /// use cefrodil::{OpenError, Shape};
    ///
    /// assert_eq!(Shape::for_items(1000, 1)?.items, 1000);
    /// assert_eq!(Shape::for_items(16_000, 16)?.items, 1160);
    /// assert_eq!(Shape::for_items(16_000, 10), Err(OpenError::Shards));
    /// # Ok::<(), OpenError>(())
    /// ```
    pub fn for_items(items: u32, shards: u32) -> Result<Shape, OpenError> {
        same_version()?;
        let mut shape = RawShape { limit: 0, buckets: 0, items: 0, stripes: 0, depth: 0, tries: 0, mix: 0, policy: 0 };
        // SAFETY: `shape` is a borrow that lasts for the call.
        let status = unsafe { raw::cefrodil_shape_for_items(items, shards, &mut shape) };
        if status != raw::OK {
            return Err(OpenError::of(status));
        }
        Ok(Shape::of(&shape))
    }

    fn of(shape: &RawShape) -> Shape {
        Shape {
            limit: shape.limit,
            buckets: shape.buckets,
            items: shape.items,
            stripes: shape.stripes,
            depth: shape.depth,
            tries: shape.tries,
            mix: if shape.mix == 0 { Mix::Full } else { Mix::None },
            policy: if shape.policy == 0 { Policy::ScanResistant } else { Policy::Clock },
        }
    }

    pub(crate) fn raw(&self) -> RawShape {
        RawShape {
            limit: self.limit,
            buckets: self.buckets,
            items: self.items,
            stripes: self.stripes,
            depth: self.depth,
            tries: self.tries,
            mix: match self.mix {
                Mix::Full => 0,
                Mix::None => 1,
            },
            policy: match self.policy {
                Policy::ScanResistant => 0,
                Policy::Clock => 1,
            },
        }
    }
}
