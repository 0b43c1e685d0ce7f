//! Why a call failed.
use cefrodil::{ListError, PutError, PutIfAbsentError, Spent, TurnError};
use std::error::Error;
use std::fmt::{self, Display, Formatter};

/// Why no map was opened.
#[derive(Clone, Copy, Debug, PartialEq, Eq, Hash)]
#[non_exhaustive]
pub enum OpenError {
    /// The capacity must be at least 1, and at most some 3.7 million for each shard.
    Capacity,
    /// The number of shards must be a power of two, 1 to 256.
    Shards,
    /// At most 1,023 threads can have a handle of their own.
    Threads,
    /// Out of memory. Take a smaller capacity, or try later.
    NoMemory,
    /// The index can't be used here: the processor is too old, or the archive has another version. The error is one of the crate
    /// `cefrodil`: [`cefrodil::OpenError`].
    Index(cefrodil::OpenError),
}

/// Why a lookup gave no answer.
#[derive(Clone, Copy, Debug, PartialEq, Eq, Hash)]
#[non_exhaustive]
pub enum GetError {
    /// Writes disturbed each try. This says nothing of the map: treat it as a miss, or call again.
    Busy,
    /// Another thread computes the value.
    Computing,
}

/// Why a value was not put. The key has the value that it had before, if any.
#[derive(Clone, Copy, Debug, PartialEq, Eq, Hash)]
#[non_exhaustive]
pub enum InsertError {
    /// Other threads were writing to the key's shard, or to a key of the same lock, at each try. Call again.
    Held,
    /// There is no place for the key: its buckets are full, and no moves free a slot. Go on without, or take a larger capacity.
    NoPlace,
    /// The shard is full, and lookups used each entry again while the call sought one to evict. Call again, or go on without.
    AllRecent,
    /// The map was opened without a time to live, so a value can't have one. See [`Builder::time_to_live`](crate::Builder::time_to_live).
    NoTimeToLive,
    /// The entry alone weighs more than all entries of the `ObjectMap` together may.
    TooHeavy,
    /// A listener made the put, in a call within fifteen others of listeners. Without an end to that the thread would have no stack left.
    TooDeep,
    /// The shard has made 2^62 changes of versions. Open a new map. It takes centuries to get there.
    Spent,
}

/// Why a key was not removed. It may still have its value: call again. [`Map::remove`](crate::Map::remove) says what to do until then.
#[derive(Clone, Copy, Debug, PartialEq, Eq, Hash)]
#[non_exhaustive]
pub enum RemoveError {
    /// Writes disturbed each try to look the key up.
    Busy,
    /// Other threads were writing to the key's shard at each try, or had its lock.
    Held,
    /// Other threads changed the key's value between the lookup and the removal, each time.
    Contended,
    /// As [`InsertError::Spent`].
    Spent,
}

/// Why a value was not changed. The key has the value that it had before, or that another thread gave it.
#[derive(Clone, Copy, Debug, PartialEq, Eq, Hash)]
#[non_exhaustive]
pub enum UpdateError {
    /// Writes disturbed each try to look the key up. Call again.
    Busy,
    /// The key's value was changed between the lookup and the put, each time. Call again, unless `change` itself writes the key.
    Contended,
    /// The new value was not put.
    Insert(InsertError),
}

/// Why the entries were not listed or removed. By `clear` some may be left: call again, or don't rely on the map.
#[derive(Clone, Copy, Debug, PartialEq, Eq, Hash)]
#[non_exhaustive]
pub enum ClearError {
    /// Other threads were writing to a shard at each try, or had a key's lock.
    Held,
    /// Out of memory for the list of keys.
    NoMemory,
    /// As [`InsertError::Spent`].
    Spent,
}

/// Why a map's capacity did not change, or could not be kept at once.
#[derive(Clone, Copy, Debug, PartialEq, Eq, Hash)]
#[non_exhaustive]
pub enum CapacityError {
    /// The capacity must be at least 1, and at most the room with which the map was opened. It stays as it was.
    Range,
    /// The capacity is the new one, but there are still more entries. The next puts of new keys evict them.
    Evict(RemoveError),
}

impl OpenError {
    pub(crate) fn of(why: cefrodil::OpenError) -> OpenError {
        match why {
            cefrodil::OpenError::Items => OpenError::Capacity,
            cefrodil::OpenError::Shards => OpenError::Shards,
            cefrodil::OpenError::Handles => OpenError::Threads,
            cefrodil::OpenError::NoMemory => OpenError::NoMemory,
            why => OpenError::Index(why),
        }
    }
}

impl InsertError {
    pub(crate) fn of(why: TurnError<PutError>) -> InsertError {
        match why {
            TurnError::Held => InsertError::Held,
            TurnError::Call(PutError::NoPath) => InsertError::NoPlace,
            TurnError::Call(PutError::AllRecent) => InsertError::AllRecent,
            TurnError::Call(_) => InsertError::Spent,
        }
    }

    /// Why nothing was put where nothing was to be. `None`: the key is present.
    pub(crate) fn of_absent(why: TurnError<PutIfAbsentError>) -> Option<InsertError> {
        match why {
            TurnError::Held => Some(InsertError::Held),
            TurnError::Call(PutIfAbsentError::Present { .. }) => None,
            TurnError::Call(PutIfAbsentError::Put(why)) => Some(InsertError::of(TurnError::Call(why))),
            TurnError::Call(_) => Some(InsertError::Spent),
        }
    }
}

impl From<InsertError> for UpdateError {
    fn from(why: InsertError) -> UpdateError {
        UpdateError::Insert(why)
    }
}

impl ClearError {
    pub(crate) fn of_list(why: TurnError<ListError>) -> ClearError {
        match why {
            TurnError::Held => ClearError::Held,
            TurnError::Call(_) => ClearError::NoMemory,
        }
    }

    pub(crate) fn of_removal(why: TurnError<Spent>) -> ClearError {
        match why {
            TurnError::Held => ClearError::Held,
            TurnError::Call(Spent) => ClearError::Spent,
        }
    }
}

pub(crate) const BUSY: &str = "writes disturbed each lookup";
pub(crate) const HELD: &str = "other threads held the shard's turn";
pub(crate) const CONTENDED: &str = "other threads changed the key each time";
pub(crate) const TOO_HEAVY: &str = "the entry weighs more than the map may hold";
pub(crate) const TOO_DEEP: &str = "a listener's put within too many calls of listeners";
const NO_MEMORY: &str = "no memory";
pub(crate) const SPENT: &str = "the shard has made all its changes";

// The texts of an error.
macro_rules! texts {
    ($error:ident: $($case:pat => $text:expr,)*) => {
        impl Display for $error {
            fn fmt(&self, text: &mut Formatter) -> fmt::Result {
                match self {
                    $($case => write!(text, "{}", $text),)*
                }
            }
        }

        impl Error for $error {}
    };
}
#[cfg(feature = "objects")]
pub(crate) use texts;

texts! { OpenError:
    OpenError::Capacity => "the capacity must be at least 1, and at most 3774873 for each shard",
    OpenError::Shards => "shards must be a power of two from 1 to 256",
    OpenError::Threads => "at most 1023 threads can have a handle of their own",
    OpenError::NoMemory => NO_MEMORY,
    OpenError::Index(why) => why,
}

texts! { GetError:
    GetError::Busy => BUSY,
    GetError::Computing => "another thread computes the value",
}

texts! { InsertError:
    InsertError::Held => HELD,
    InsertError::NoPlace => "there is no place for the key",
    InsertError::AllRecent => "the shard is full, and each entry was used again",
    InsertError::NoTimeToLive => "the map was opened without a time to live",
    InsertError::TooHeavy => TOO_HEAVY,
    InsertError::TooDeep => TOO_DEEP,
    InsertError::Spent => SPENT,
}

texts! { RemoveError:
    RemoveError::Busy => BUSY,
    RemoveError::Held => HELD,
    RemoveError::Contended => CONTENDED,
    RemoveError::Spent => SPENT,
}

texts! { UpdateError:
    UpdateError::Busy => BUSY,
    UpdateError::Contended => CONTENDED,
    UpdateError::Insert(why) => why,
}

texts! { CapacityError:
    CapacityError::Range => "the capacity must be at least 1, and at most the room with which the map was opened",
    CapacityError::Evict(why) => why,
}

texts! { ClearError:
    ClearError::Held => HELD,
    ClearError::NoMemory => NO_MEMORY,
    ClearError::Spent => SPENT,
}
