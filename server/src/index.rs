//! What the server asks of an index of items.
use crate::item::{Item, NewItem};
use cefrodil_map::{AbsentError, IfError, InsertError, Reason};
use std::time::Duration;

/// Which put of a key stored its item: memcached's `cas unique`. Never compare those of two keys.
pub type Token = u64;

/// Why the index did nothing.
#[derive(Clone, Copy, Debug, PartialEq, Eq)]
pub enum Refused {
    /// There is no place for the key.
    Full,
    /// Other threads disturbed each try.
    Held,
    /// The key has another token than the one that was asked for, or has one though it must be absent.
    Changed,
    /// The key is absent.
    Absent,
}

impl From<AbsentError> for Refused {
    fn from(why: AbsentError) -> Refused {
        match why {
            AbsentError::Present { .. } => Refused::Changed,
            AbsentError::Busy | AbsentError::Contended | AbsentError::Insert(InsertError::Held) => Refused::Held,
            _ => Refused::Full,
        }
    }
}

impl From<IfError> for Refused {
    fn from(why: IfError) -> Refused {
        match why {
            IfError::NotThere { .. } => Refused::Absent,
            IfError::Changed { .. } => Refused::Changed,
            IfError::Busy | IfError::Held => Refused::Held,
            _ => Refused::Full,
        }
    }
}

/// What a key must have if an item is to be put.
#[derive(Clone, Copy)]
pub enum Over {
    Any,
    Nothing,
    Token(Token),
}

/// What a lookup sees of a key: its item and token, if it is there.
pub type Seen<'a> = Result<Option<(&'a Item, Token)>, Refused>;

/// An index of items, for all workers. Items may vanish at any time. Each call that changes it either does all it says or nothing.
pub trait Index: Send + Sync {
    /// The hash by which the index knows the key.
    fn hash_of(&self, key: &[u8]) -> u64;

    /// Looks the keys up in order, and calls `each` with the position of each.
    fn look(&self, keys: &[&[u8]], each: &mut dyn FnMut(usize, Seen<'_>));

    /// Calls `see` with the item with this hash and its token, if it is there and others don't disturb that. It is no use of the item.
    fn peek(&self, hash: u64, see: &mut dyn FnMut(&Item, Token));

    /// Puts the item, if its key has this.
    fn put(&self, item: NewItem, over: Over) -> Result<Token, Refused>;

    /// Removes the item with this hash, for this reason, if it has this token.
    fn remove(&self, hash: u64, token: Token, reason: Reason) -> Result<Token, Refused>;

    /// Removes the item that is to give way next in a shard with many items, and calls `see` with it. Returns whether it has removed one.
    fn evict(&self, see: &mut dyn FnMut(&Item)) -> bool;

    /// How many items there are.
    fn len(&self) -> usize;

    /// For how long calls have given up, since a thread stopped within a change of the index. Zero unless one did lately.
    fn stalled(&self) -> Duration;

    /// Frees the memory of items that have left the index, as far as nobody reads them any more.
    fn sweep(&self);
}
