#![doc = include_str!("../README.md")]
#![deny(missing_docs, missing_debug_implementations, unsafe_op_in_unsafe_fn)]

mod board;
mod bound;
mod builder;
mod clear;
mod clock;
mod compute;
mod core;
mod deadlocks;
mod each;
mod ended;
mod error;
mod extend;
mod flight;
mod forks;
mod generation;
mod handle;
mod inner;
mod iter;
mod key;
mod key_locks;
mod load;
mod loading;
mod map;
mod minute;
#[cfg(feature = "objects")]
mod objects;
mod print;
mod prometheus;
mod published;
mod settings;
mod sip;
mod slots;
mod stalls;
mod stats;
mod update;
mod wait;
mod wakers;
mod words;

#[cfg(test)]
#[path = "../tests/inside/mod.rs"]
mod inside;

pub use board::{Board, Lead, Wait};
pub use builder::Builder;
pub use error::{CapacityError, ClearError, GetError, InsertError, OpenError, RemoveError, UpdateError};
pub use key::{Hashed, Key, Number};
pub use map::{Inserted, Map};
#[cfg(feature = "objects")]
pub use objects::{
    AbsentError, Block, Bytes, BytesBuilder, BytesMap, Head, IfError, Look, ObjectBuilder, ObjectLead, ObjectMap, ObjectWait,
    Pinned, Put, Reason, Refused,
};
pub use prometheus::prometheus;
pub use published::Published;
pub use stats::Stats;
