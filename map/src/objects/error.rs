//! Why a call on objects failed.
use crate::error::{texts, InsertError, BUSY, CONTENDED, HELD, SPENT, TOO_DEEP, TOO_HEAVY};
use std::error::Error;
use std::fmt::{self, Debug, Display, Formatter};

/// A key and a value that were not put, and why. The map has what it had before.
pub struct Refused<K, V, E = InsertError> {
    /// Why they were not put.
    pub why: E,
    /// The key.
    pub key: K,
    /// The value.
    pub value: V,
}

/// Why the value of a key that must be absent was not put.
#[derive(Clone, Copy, Debug, PartialEq, Eq, Hash)]
#[non_exhaustive]
pub enum AbsentError {
    /// The key has a value, which was put at this moment.
    Present {
        /// The moment.
        since: u64,
    },
    /// Writes disturbed each try to look the key up. Call again.
    Busy,
    /// The key has no value, and other threads changed what was there each time. Call again.
    Contended,
    /// The key has no value, and its put failed.
    Insert(InsertError),
}

/// Why a call that names the moment of the key's last put did nothing.
#[derive(Clone, Copy, Debug, PartialEq, Eq, Hash)]
#[non_exhaustive]
pub enum IfError {
    /// The key is absent.
    NotThere {
        /// The moment when that was true.
        at: u64,
    },
    /// The key's last put was another one.
    Changed {
        /// The moment of that put.
        since: u64,
    },
    /// Writes disturbed each try to look the key up. Call again.
    Busy,
    /// Other threads were writing to the key's shard at each try. Call again.
    Held,
    /// As [`InsertError::TooHeavy`].
    TooHeavy,
    /// As [`InsertError::TooDeep`].
    TooDeep,
    /// As [`InsertError::Spent`].
    Spent,
}

impl From<InsertError> for AbsentError {
    fn from(why: InsertError) -> AbsentError {
        AbsentError::Insert(why)
    }
}

impl<K, V, E: Debug> Debug for Refused<K, V, E> {
    fn fmt(&self, text: &mut Formatter) -> fmt::Result {
        text.debug_struct("Refused").field("why", &self.why).finish_non_exhaustive()
    }
}

impl<K, V, E: Display> Display for Refused<K, V, E> {
    fn fmt(&self, text: &mut Formatter) -> fmt::Result {
        Display::fmt(&self.why, text)
    }
}

impl<K, V, E: Error> Error for Refused<K, V, E> {}

texts! { AbsentError:
    AbsentError::Present { .. } => "the key has a value",
    AbsentError::Busy => BUSY,
    AbsentError::Contended => CONTENDED,
    AbsentError::Insert(why) => why,
}

texts! { IfError:
    IfError::NotThere { .. } => "the key is absent",
    IfError::Changed { .. } => "the key was put since",
    IfError::Busy => BUSY,
    IfError::Held => HELD,
    IfError::TooHeavy => TOO_HEAVY,
    IfError::TooDeep => TOO_DEEP,
    IfError::Spent => SPENT,
}
