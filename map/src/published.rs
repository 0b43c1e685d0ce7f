//! What became of a value that was loaded.
use crate::error::UpdateError;

/// What became of a value that a task has loaded: see [`Lead::try_publish`](crate::Lead::try_publish).
#[derive(Clone, Copy, Debug, PartialEq, Eq, Hash)]
#[non_exhaustive]
pub enum Published<V> {
    /// It was put.
    Put(V),
    /// It was not put: the key has this value by now.
    Other(V),
    /// It was not put, since it may be too old: the key was written or removed after the load had begun, or the map was cleared or invalidated.
    Outdated(V),
    /// It was not put, for this reason.
    Refused {
        /// The value that was loaded.
        value: V,
        /// Why it was not put.
        why: UpdateError,
    },
}

impl<V> Published<V> {
    /// The value that was loaded, or the one that the key has by now.
    pub fn value(self) -> V {
        match self {
            Published::Put(value) | Published::Other(value) | Published::Outdated(value) | Published::Refused { value, .. } => {
                value
            }
        }
    }
}
