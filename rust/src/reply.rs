//! Answers of calls.
use crate::error::{EvictError, PutError, PutIfAbsentError, PutIfError, Spent, TurnError};
use crate::open_handle::OpenHandle;
use crate::raw::{self, RawAnswer, RawPut, RawReply};

/// The answer of a lookup. `at` is its moment: the number of changes to the key's shard when the answer was true. A count, not a time.
#[derive(Clone, Copy, Debug, Default, PartialEq, Eq, Hash)]
pub enum Reply<const WORDS: usize> {
    /// The key has this value.
    Found {
        /// The value.
        value: [u64; WORDS],
        /// The moment.
        at: u64,
        /// The moment of the key's last put. Serves as a CAS token.
        since: u64,
    },
    /// The key is not there.
    Absent {
        /// The moment.
        at: u64,
    },
    /// Writes spoiled every try of the lookup. Says nothing about the table.
    #[default]
    Busy,
}

/// What a put did. `at` is its moment: the number of changes to the key's shard, its own included.
///
/// A minor version may add a variant, so a `match` has an arm for the rest:
///
/// ```compile_fail,E0004
/// fn moves(put: cefrodil::Put) -> u32 {
///     match put {
///         cefrodil::Put::Stored { moves, .. } => moves,
///         cefrodil::Put::Renewed { .. } => 0,
///     }
/// }
/// ```
#[derive(Clone, Copy, Debug, PartialEq, Eq, Hash)]
#[non_exhaustive]
pub enum Put {
    /// The key is new.
    Stored {
        /// The moment.
        at: u64,
        /// How many keys were moved for the new one.
        moves: u32,
        /// The key that was evicted for the new one.
        evicted: Option<u64>,
    },
    /// The key was there; its value was overwritten.
    Renewed {
        /// The moment.
        at: u64,
    },
}

/// What a removal did. `at` is its moment: the number of changes to the key's shard after it.
#[derive(Clone, Copy, Debug, PartialEq, Eq, Hash)]
pub enum Removal {
    /// The key was removed.
    Removed {
        /// The moment.
        at: u64,
    },
    /// The key was not there.
    NotThere {
        /// The moment.
        at: u64,
    },
}

/// An entry: one of a list, or one that a write took out of the cache, as it was just before.
#[derive(Clone, Copy, Debug, PartialEq, Eq, Hash)]
pub struct Entry<const WORDS: usize> {
    /// The key.
    pub key: u64,
    /// The value.
    pub value: [u64; WORDS],
    /// The moment of the key's last put: a count of the changes to its shard.
    pub since: u64,
}

/// What a put did, and the entry that gave way to it.
#[derive(Clone, Copy, Debug, PartialEq, Eq, Hash)]
pub struct Swapped<const WORDS: usize> {
    /// What the put did.
    pub put: Put,
    /// The key's earlier entry, or that of the key that was evicted. `None` if the key is new and evicted no other.
    pub old: Option<Entry<WORDS>>,
}

/// What a conditional put did.
#[derive(Clone, Copy, Debug, PartialEq, Eq, Hash)]
pub struct Replaced<const WORDS: usize> {
    /// The moment of the put.
    pub at: u64,
    /// The key's earlier entry.
    pub old: Entry<WORDS>,
}

/// What a removal did that returns the entry. `at` is its moment: the number of changes to the key's shard after it.
#[derive(Clone, Copy, Debug, PartialEq, Eq, Hash)]
pub enum Take<const WORDS: usize> {
    /// The key was removed.
    Taken {
        /// The moment.
        at: u64,
        /// The entry.
        old: Entry<WORDS>,
    },
    /// The key was not there.
    NotThere {
        /// The moment.
        at: u64,
    },
}

/// What an eviction did that is not part of a put. `at` is its moment: the number of changes to the shard after it.
#[derive(Clone, Copy, Debug, PartialEq, Eq, Hash)]
pub enum Evict<const WORDS: usize> {
    /// A key was evicted.
    Evicted {
        /// The moment.
        at: u64,
        /// Its entry.
        old: Entry<WORDS>,
    },
    /// The shard has no key.
    Empty {
        /// The moment.
        at: u64,
    },
}

pub(crate) type Told = (u32, RawReply);

// Other statuses mean a handle that holds or does not, or another width. The types of this crate exclude them. A handle is closed only in a forked
// child, if the parent opened it.
#[cold]
pub(crate) fn not_told(status: u32) -> ! {
    assert!(status != raw::CLOSED, "a forked child makes no call by a handle of its parent");
    unreachable!("this call gives no status {status}")
}

impl<const WORDS: usize> Reply<WORDS> {
    /// The value, if the key was found.
    #[must_use]
    pub fn value(self) -> Option<[u64; WORDS]> {
        match self {
            Reply::Found { value, .. } => Some(value),
            Reply::Absent { .. } | Reply::Busy => None,
        }
    }

    /// The reply to a lookup.
    #[inline]
    pub(crate) fn by(look: impl FnOnce(&mut [u64; WORDS]) -> Told) -> Reply<WORDS> {
        let mut reply = Reply::Busy;
        reply.set(look);
        reply
    }

    /// Replaces this reply by that of a lookup. The lookup writes the value in place, so it is not copied.
    #[inline]
    pub(crate) fn set(&mut self, look: impl FnOnce(&mut [u64; WORDS]) -> Told) {
        *self = Reply::Found { value: [0; WORDS], at: 0, since: 0 };
        let Reply::Found { value, at, since } = self else { unreachable!("it was just made") };
        let (status, told) = look(value);
        match status {
            raw::OK => (*at, *since) = (told.at, told.since),
            raw::ABSENT => *self = Reply::Absent { at: told.at },
            raw::BUSY => *self = Reply::Busy,
            other => not_told(other),
        }
    }

    pub(crate) fn of(told: Told, value: [u64; WORDS]) -> Reply<WORDS> {
        Reply::by(|place| {
            *place = value;
            told
        })
    }
}

// How many keys one call of the archive gets.
const KEYS_A_CALL: usize = 32;

/// Looks the keys up in order.
pub(crate) fn many<const WORDS: usize>(handle: &mut OpenHandle, keys: &[u64], replies: &mut [Reply<WORDS>]) {
    assert_eq!(keys.len(), replies.len(), "there must be as many replies as keys");
    for (keys, replies) in keys.chunks(KEYS_A_CALL).zip(replies.chunks_mut(KEYS_A_CALL)) {
        let mut values = [[0; WORDS]; KEYS_A_CALL];
        let mut answers = [RawAnswer::default(); KEYS_A_CALL];
        let count = keys.len();
        let status = handle.get_many(keys, values[..count].as_flattened_mut(), &mut answers[..count]);
        if status != raw::OK {
            not_told(status);
        }
        for ((reply, answer), value) in replies.iter_mut().zip(answers).zip(values) {
            *reply = match answer.status {
                raw::OK => Reply::Found { value, at: answer.at, since: answer.since },
                raw::ABSENT => Reply::Absent { at: answer.at },
                raw::BUSY => Reply::Busy,
                other => not_told(other),
            };
        }
    }
}

/// Puts the entries in order. `of` makes an answer of what was told.
pub(crate) fn put_many<T, const WORDS: usize>(
    handle: &mut OpenHandle,
    entries: &[(u64, [u64; WORDS])],
    answers: &mut [T],
    of: impl Fn(Told) -> T,
) {
    assert_eq!(entries.len(), answers.len(), "there must be as many answers as entries");
    for (entries, answers) in entries.chunks(KEYS_A_CALL).zip(answers.chunks_mut(KEYS_A_CALL)) {
        let mut keys = [0; KEYS_A_CALL];
        let mut values = [[0; WORDS]; KEYS_A_CALL];
        for ((key, value), entry) in keys.iter_mut().zip(&mut values).zip(entries) {
            (*key, *value) = *entry;
        }
        let mut told = [RawPut::default(); KEYS_A_CALL];
        let count = entries.len();
        let status = handle.put_many(&keys[..count], values[..count].as_flattened(), &mut told[..count]);
        if status != raw::OK {
            not_told(status);
        }
        for (answer, told) in answers.iter_mut().zip(told) {
            *answer = of((told.status, told.reply));
        }
    }
}

impl Put {
    /// The moment of the put, which is the key's token for the next `put_if`.
    #[must_use]
    pub fn at(self) -> u64 {
        match self {
            Put::Stored { at, .. } | Put::Renewed { at } => at,
        }
    }

    fn done(reply: RawReply) -> Put {
        let RawReply { at, moves, evicted, .. } = reply;
        match reply.put {
            raw::PUT_RENEWED => Put::Renewed { at },
            raw::PUT_EVICTED => Put::Stored { at, moves, evicted: Some(evicted) },
            _ => Put::Stored { at, moves, evicted: None },
        }
    }

    #[inline]
    pub(crate) fn of((status, reply): Told) -> Result<Put, PutError> {
        match status {
            raw::OK => Ok(Put::done(reply)),
            status => Err(PutError::of(status)),
        }
    }
}

impl Removal {
    pub(crate) fn of((status, reply): Told) -> Result<Removal, Spent> {
        match status {
            raw::OK => Ok(Removal::Removed { at: reply.at }),
            raw::ABSENT => Ok(Removal::NotThere { at: reply.at }),
            raw::SPENT => Err(Spent),
            other => not_told(other),
        }
    }
}

/// The answer of a conditional put: its moment.
pub(crate) fn put_if((status, reply): Told) -> Result<u64, PutIfError> {
    match status {
        raw::OK => Ok(reply.at),
        raw::ABSENT => Err(PutIfError::NotThere { at: reply.at }),
        raw::CHANGED => Err(PutIfError::Changed { since: reply.since }),
        raw::SPENT => Err(PutIfError::Spent),
        other => not_told(other),
    }
}

/// The answer of a call whose key must be absent, if it was: then of `put`.
pub(crate) fn if_absent<T>(told: Told, put: impl FnOnce(Told) -> Result<T, PutError>) -> Result<T, PutIfAbsentError> {
    match told {
        (raw::PRESENT, reply) => Err(PutIfAbsentError::Present { since: reply.since }),
        told => put(told).map_err(PutIfAbsentError::Put),
    }
}

impl<const WORDS: usize> Swapped<WORDS> {
    pub(crate) fn of(key: u64, value: [u64; WORDS], told: Told) -> Result<Swapped<WORDS>, PutError> {
        let put = Put::of(told)?;
        let entry = |key| Some(Entry { key, value, since: told.1.since });
        let old = match put {
            Put::Renewed { .. } => entry(key),
            Put::Stored { evicted, .. } => evicted.and_then(entry),
        };
        Ok(Swapped { put, old })
    }
}

impl<const WORDS: usize> Replaced<WORDS> {
    pub(crate) fn of(key: u64, value: [u64; WORDS], told: Told) -> Result<Replaced<WORDS>, PutIfError> {
        let at = put_if(told)?;
        Ok(Replaced { at, old: Entry { key, value, since: told.1.since } })
    }
}

impl<const WORDS: usize> Take<WORDS> {
    pub(crate) fn of(key: u64, value: [u64; WORDS], told: Told) -> Result<Take<WORDS>, Spent> {
        Ok(match Removal::of(told)? {
            Removal::Removed { at } => Take::Taken { at, old: Entry { key, value, since: told.1.since } },
            Removal::NotThere { at } => Take::NotThere { at },
        })
    }
}

impl<const WORDS: usize> Evict<WORDS> {
    pub(crate) fn of(value: [u64; WORDS], (status, reply): Told) -> Result<Evict<WORDS>, EvictError> {
        let RawReply { at, since, evicted: key, .. } = reply;
        match status {
            raw::OK => Ok(Evict::Evicted { at, old: Entry { key, value, since } }),
            raw::ABSENT => Ok(Evict::Empty { at }),
            status => Err(EvictError::of(status)),
        }
    }
}

impl<const WORDS: usize> Entry<WORDS> {
    /// The entry that lies at a place of the table.
    pub(crate) fn shown(value: [u64; WORDS], (status, reply): Told) -> Option<Entry<WORDS>> {
        match status {
            raw::OK => Some(Entry { key: reply.evicted, value, since: reply.since }),
            raw::ABSENT => None,
            other => not_told(other),
        }
    }
}

/// A number that the handle knows.
pub(crate) fn number((status, number): (u32, u64)) -> u64 {
    match status {
        raw::OK => number,
        other => not_told(other),
    }
}

/// The answer of a try for the turn. With the turn, it is the answer of the call.
pub(crate) fn turn<T, E>(told: Told, answer: impl FnOnce(Told) -> Result<T, E>) -> Result<T, TurnError<E>> {
    if told.0 == raw::HELD {
        return Err(TurnError::Held);
    }
    answer(told).map_err(TurnError::Call)
}
