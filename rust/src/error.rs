//! Why a call failed.
use crate::handle::Handle;
use crate::memory::NoMemory;
use crate::raw;
use crate::reply::not_told;
use std::error::Error;
use std::fmt::{self, Display, Formatter};

/// Why no cache was opened: the first of these, in this order, that applies.
#[derive(Clone, Copy, Debug, PartialEq, Eq, Hash)]
#[non_exhaustive]
pub enum OpenError {
    /// The program is linked with an archive whose structs and calls may differ from those of this crate: before version 1.0, one of
    /// another minor version. Both versions are 10,000 times the major version, 100 times the minor one, and the patch.
    Version {
        /// The version of the archive.
        archive: u32,
        /// The version of this crate.
        crate_version: u32,
    },
    /// The processor is older than x86-64-v2: it can run no cache.
    Processor,
    /// The number of shards must be a power of two, 1 to 256.
    Shards,
    /// `buckets` of the shape is out of range.
    Buckets,
    /// `items` of the shape is out of range, or the argument of [`Shape::for_items`](crate::Shape::for_items).
    Items,
    /// `stripes` of the shape is out of range.
    Stripes,
    /// `depth` of the shape is out of range.
    Depth,
    /// `tries` of the shape is out of range.
    Tries,
    /// `limit` of the shape is out of range.
    Limit,
    /// There must be 1 to 1024 handles.
    Handles,
    /// Out of memory. If the crate finds none for its own lists, only [`OpenError::Version`] comes before it.
    NoMemory,
}

/// Why a cache got no more handles.
#[derive(Clone, Copy, Debug, PartialEq, Eq, Hash)]
#[non_exhaustive]
pub enum MoreError {
    /// Another thread takes spare handles of the cache at the same moment. Try again.
    Held,
    /// There must be one at least, and no more than the cache has to spare.
    Handles,
    /// Out of memory. Some spare handles may be used up.
    NoMemory,
}

/// Why a put failed.
#[derive(Clone, Copy, Debug, PartialEq, Eq, Hash)]
#[non_exhaustive]
pub enum PutError {
    /// Both buckets of the key are full, and no moves of up to `depth` keys free a slot. If it is frequent, take more buckets.
    NoPath,
    /// The cache is full, and a key to evict was not found: the put looked at items, twice as often as there are items, and lookups had used
    /// each again. Put again, or leave the key uncached. It is frequent only if the items are few.
    AllRecent,
    /// The put could exceed the `limit` of the shape. An earlier value stays. Open a new cache: a limit of 2^62 takes centuries.
    Spent,
}

/// Why no key was evicted: the first of these, in this order, that applies.
#[derive(Clone, Copy, Debug, PartialEq, Eq, Hash)]
#[non_exhaustive]
pub enum EvictError {
    /// The limit on version changes could be exceeded.
    Spent,
    /// A key to evict was not found, as in [`PutError::AllRecent`].
    AllRecent,
}

/// Why a conditional put failed: the first of these, in this order, that applies.
#[derive(Clone, Copy, Debug, PartialEq, Eq, Hash)]
#[non_exhaustive]
pub enum PutIfError {
    /// The limit on version changes could be exceeded.
    Spent,
    /// The key is not there.
    NotThere {
        /// The number of changes to the key's shard when that was true.
        at: u64,
    },
    /// The key's last put was another one.
    Changed {
        /// The moment of the key's last put.
        since: u64,
    },
}

/// Why a put of a key that must be absent failed.
#[derive(Clone, Copy, Debug, PartialEq, Eq, Hash)]
#[non_exhaustive]
pub enum PutIfAbsentError {
    /// The key is there.
    Present {
        /// The moment of the key's last put.
        since: u64,
    },
    /// The key is absent, and its put failed.
    Put(PutError),
}

/// Why an entry was left out when a cache was opened with entries.
#[derive(Clone, Copy, Debug, PartialEq, Eq, Hash)]
#[non_exhaustive]
pub enum Why {
    /// Both buckets of the key are full, and no moves of up to `depth` keys free a slot.
    NoPath,
    /// Every item is in use.
    NoItem,
    /// The limit on version changes could be exceeded.
    Spent,
}

/// The limit on version changes could be exceeded.
#[derive(Clone, Copy, Debug, PartialEq, Eq, Hash)]
pub struct Spent;

/// Why entries were not listed or counted.
#[derive(Clone, Copy, Debug, PartialEq, Eq, Hash)]
#[non_exhaustive]
pub enum ListError {
    /// Out of memory. The cache stays open; list later.
    NoMemory,
}

/// A handle does not hold: one of its tries for the turns did not win. Try again.
#[derive(Clone, Copy, Debug, PartialEq, Eq, Hash)]
pub struct Held;

/// A handle that does not hold, since one of its tries for the turns did not win.
#[derive(Debug)]
pub struct NotHeld<const WORDS: usize> {
    /// The handle, as it was.
    pub handle: Handle<WORDS>,
}

/// Why a try for the turn failed. There will be no third reason, so a `match` may list both.
#[derive(Clone, Copy, Debug, PartialEq, Eq, Hash)]
pub enum TurnError<E> {
    /// The try did not win. Nothing was done.
    Held,
    /// The try won, and the call returned this error.
    Call(E),
}

/// What a try for a turn may fail with: [`Held`] or a [`TurnError`]. No other type has this trait.
pub trait MayBeHeld: sealed::Sealed {
    /// Whether the try did not win: then nothing was done.
    fn is_held(&self) -> bool;
}

mod sealed {
    pub trait Sealed {}
    impl Sealed for super::Held {}
    impl<E> Sealed for super::TurnError<E> {}
}

impl MayBeHeld for Held {
    fn is_held(&self) -> bool {
        true
    }
}

impl<E> MayBeHeld for TurnError<E> {
    fn is_held(&self) -> bool {
        matches!(self, TurnError::Held)
    }
}

// An error that is a status of the archive: from that, and with its text.
macro_rules! statuses {
    ($error:ident $($status:ident => $variant:ident $($text:literal)?,)*) => {
        impl $error {
            pub(crate) fn of(status: u32) -> $error {
                match status {
                    $(raw::$status => $error::$variant,)*
                    // By the types, values have 1 to 8 words, mixes and policies are known, and handles are open or empty as they should be.
                    other => not_told(other),
                }
            }

            #[allow(unreachable_patterns)]
            fn text(self) -> &'static str {
                match self {
                    $($($error::$variant => $text,)?)*
                    _ => unreachable!("an error with a text of its own"),
                }
            }
        }
    };
}

// .ci/calls: errors
statuses! { EvictError
    ALL_RECENT => AllRecent "all recent",
    SPENT => Spent "spent",
}
statuses! { ListError
    NO_MEMORY => NoMemory "no memory",
}
statuses! { MoreError
    HELD => Held "held",
    NO_MEMORY => NoMemory "no memory",
    BAD_HANDLES => Handles "handles must be from 1 to 1024, and no more than there are to spare",
}
statuses! { OpenError
    NO_MEMORY => NoMemory "no memory",
    BAD_BUCKETS => Buckets "buckets must be a power of two from 2 to 1048576",
    BAD_ITEMS => Items "items must be from 1 to four times the buckets",
    BAD_STRIPES => Stripes "stripes must be a power of two from 1 to 65536",
    BAD_DEPTH => Depth "depth must be from 0 to 8",
    BAD_TRIES => Tries "tries must be from 1 to 64",
    BAD_LIMIT => Limit "limit must be from 0 to 4611686018427387904",
    BAD_HANDLES => Handles,
    BAD_SHARDS => Shards "shards must be a power of two from 1 to 256",
    PROCESSOR => Processor "the processor is older than x86-64-v2",
}
statuses! { PutError
    NO_PATH => NoPath "no path",
    ALL_RECENT => AllRecent "all recent",
    SPENT => Spent "spent",
}
statuses! { Why
    NO_PATH => NoPath "no path",
    SPENT => Spent "spent",
    NO_ITEM => NoItem "no item",
}
// .ci/calls: end

impl From<NoMemory> for MoreError {
    fn from(_: NoMemory) -> MoreError {
        MoreError::NoMemory
    }
}

impl From<NoMemory> for OpenError {
    fn from(_: NoMemory) -> OpenError {
        OpenError::NoMemory
    }
}

impl From<NoMemory> for TurnError<ListError> {
    fn from(_: NoMemory) -> TurnError<ListError> {
        TurnError::Call(ListError::NoMemory)
    }
}

impl<E> From<Held> for TurnError<E> {
    fn from(_: Held) -> TurnError<E> {
        TurnError::Held
    }
}

// A version as it is written: 200 is 0.2.0.
fn dotted(version: u32) -> String {
    format!("{}.{}.{}", version / 10_000, version / 100 % 100, version % 100)
}

impl Display for OpenError {
    fn fmt(&self, text: &mut Formatter) -> fmt::Result {
        match *self {
            OpenError::Version { archive, crate_version } => {
                write!(text, "libcefrodil.a has version {}, and the crate {}", dotted(archive), dotted(crate_version))
            }
            OpenError::Handles => text.write_str("handles must be from 1 to 1024"),
            other => text.write_str(other.text()),
        }
    }
}

// Errors that have the texts of their statuses.
macro_rules! has_text {
    ($($error:ident)*) => {
        $(
            impl Display for $error {
                fn fmt(&self, text: &mut Formatter) -> fmt::Result {
                    text.write_str(self.text())
                }
            }
        )*
    };
}

has_text!(MoreError PutError EvictError Why ListError);

impl Display for PutIfError {
    fn fmt(&self, text: &mut Formatter) -> fmt::Result {
        match self {
            PutIfError::Spent => text.write_str("spent"),
            PutIfError::NotThere { at } => write!(text, "not there at {at}"),
            PutIfError::Changed { since } => write!(text, "changed since {since}"),
        }
    }
}

impl Display for PutIfAbsentError {
    fn fmt(&self, text: &mut Formatter) -> fmt::Result {
        match self {
            PutIfAbsentError::Present { since } => write!(text, "present since {since}"),
            PutIfAbsentError::Put(why) => why.fmt(text),
        }
    }
}

impl Display for Spent {
    fn fmt(&self, text: &mut Formatter) -> fmt::Result {
        text.write_str("spent")
    }
}

impl Display for Held {
    fn fmt(&self, text: &mut Formatter) -> fmt::Result {
        text.write_str("held")
    }
}

impl<const WORDS: usize> Display for NotHeld<WORDS> {
    fn fmt(&self, text: &mut Formatter) -> fmt::Result {
        Held.fmt(text)
    }
}

impl<E: Display> Display for TurnError<E> {
    fn fmt(&self, text: &mut Formatter) -> fmt::Result {
        match self {
            TurnError::Held => text.write_str("held"),
            TurnError::Call(why) => why.fmt(text),
        }
    }
}

impl Error for OpenError {}
impl Error for MoreError {}
impl Error for PutError {}
impl Error for EvictError {}
impl Error for Why {}
impl Error for PutIfError {}
impl Error for PutIfAbsentError {}
impl Error for Spent {}
impl Error for Held {}
impl Error for ListError {}
impl<E: Error> Error for TurnError<E> {}
impl<const WORDS: usize> Error for NotHeld<WORDS> {}
