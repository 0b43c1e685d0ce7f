#![doc = include_str!("../README.md")]
//!
//! A [`Handle`] belongs to one thread at a time. Move it between threads like any value, or lend it by a [`Pool`]. A [`Writing`] holds the
//! turns, so it writes without trying. Several writers that try want several shards, so that they rarely want the same turn.
//! A [`Filler`] is for a cache beside a store that changes, a [`Meter`] for metrics, an [`AuditLog`] for a check of what was answered.
//! A forked child may drop its parent's handles, which frees nothing, and open caches of its own. Any other call by its parent's panics, but
//! for [`Handle::prefetch`] and [`Handle::meter`].
//! Without memory an opening, a list and [`Handle::more`] are errors. [`Filler::new`], [`Pool::new`] and [`prometheus`] end the process, as
//! std's own types do.
//! `docs/USING.md` has sizing, patterns and what to do about each answer.
#![deny(missing_docs, missing_debug_implementations, unsafe_op_in_unsafe_fn)]

#[cfg(not(all(
    any(target_arch = "x86_64", target_arch = "aarch64"),
    target_os = "linux",
    target_pointer_width = "64",
    target_endian = "little"
)))]
compile_error!("Cefrodil runs on 64-bit Linux on x86-64 and aarch64 alone");

mod audit;
mod bounded;
mod cache;
mod counts;
mod error;
mod filler;
mod handle;
mod hold;
mod lists;
mod loads;
mod memory;
mod open_handle;
mod pool;
mod raw;
mod reply;
mod shape;
mod width;
mod within;
mod writing;

pub use audit::AuditLog;
pub use bounded::BoundedError;
pub use cache::{Cache, Opened};
pub use counts::{prometheus, Counts, Meter};
pub use error::{
    EvictError, Held, ListError, MayBeHeld, MoreError, NotHeld, OpenError, PutError, PutIfAbsentError, PutIfError, Spent,
    TurnError, Why,
};
pub use filler::{FillError, Filler, Ticket, Tickets};
pub use handle::Handle;
pub use open_handle::version;
pub use pool::{Lent, Pool};
pub use reply::{Entry, Evict, Put, Removal, Replaced, Reply, Swapped, Take};
pub use shape::{Mix, Policy, Shape};
pub use width::Value;
pub use writing::Writing;
