//! Objects of any type behind the index: the map's entry is the address of an object on the heap.
mod board;
mod builder;
mod bytes;
mod bytes_map;
mod change;
mod compute;
mod epochs;
mod error;
mod evict;
mod freeing;
mod inner;
mod kept;
mod load;
mod look;
mod map;
mod object;
mod pin;
mod pinned;
mod put;
mod remove;
mod sweep;
mod weights;

pub use board::{ObjectLead, ObjectWait};
pub use builder::{ObjectBuilder, Reason};
pub use bytes::{Block, Bytes, Head};
pub use bytes_map::{BytesBuilder, BytesMap};
pub use error::{AbsentError, IfError, Refused};
pub use look::Look;
pub use map::ObjectMap;
pub use pin::Pinned;
pub use put::Put;

#[cfg(test)]
pub(crate) use epochs::{Epochs, BATCH};
#[cfg(test)]
pub(crate) use object::Held;
#[cfg(test)]
pub(crate) use pinned::{Over, State};
#[cfg(test)]
pub(crate) use weights::{Claim, Weights};
