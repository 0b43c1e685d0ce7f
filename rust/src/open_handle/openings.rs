//! The calls that open handles. The header of `open_handle.rs` says why they are safe.
use super::{same_version, OpenHandle, EMPTY};
use crate::counts::Counter;
use crate::error::{MoreError, OpenError};
use crate::handle::Handle;
use crate::loads::Loads;
use crate::memory::{room, NoMemory};
use crate::raw::{self, RawHandle, RawShape};

/// The most handles of a cache.
const MOST: usize = 1024;

// What an opening takes memory for before it calls the archive: empty handles, their counters, and room for what they become.
struct Opening<const WORDS: usize> {
    raw: Vec<RawHandle>,
    counters: Vec<Counter>,
    opened: Vec<Handle<WORDS>>,
}

impl<const WORDS: usize> Opening<WORDS> {
    // For `count` handles; for none if the archive allows no such number. It refuses none for the same reason.
    fn of(count: usize) -> Result<Opening<WORDS>, NoMemory> {
        let count = if count <= MOST { count } else { 0 };
        let (mut raw, opened) = (room(count)?, room(count)?);
        raw.extend((0..count).map(|_| EMPTY));
        Ok(Opening { raw, counters: Counter::many(count)?, opened })
    }

    // The handles, if a call with this status opened them.
    fn opened(self, status: u32) -> Result<Vec<Handle<WORDS>>, u32> {
        let Opening { raw, counters, mut opened } = self;
        if status != raw::OK {
            return Err(status);
        }
        opened.extend(raw.into_iter().zip(counters).map(|(raw, counter)| Handle(OpenHandle { raw, counter })));
        Ok(opened)
    }
}

/// Opens a cache: its handles, or why not.
pub fn open<const WORDS: usize>(shape: &RawShape, shards: u32, handles: usize) -> Result<Vec<Handle<WORDS>>, OpenError> {
    same_version()?;
    let mut all = Opening::of(handles)?;
    // SAFETY: `all.raw` is an array of as many empty handles as are passed with it.
    let status = unsafe { raw::cefrodil_open(shape, shards, WORDS, all.raw.as_mut_ptr(), all.raw.len()) };
    all.opened(status).map_err(OpenError::of)
}

/// Opens a cache with entries, each of which gets its status.
pub fn open_with<const WORDS: usize>(
    shape: &RawShape,
    shards: u32,
    handles: usize,
    loads: &mut Loads,
) -> Result<Vec<Handle<WORDS>>, OpenError> {
    same_version()?;
    let mut all = Opening::of(handles)?;
    let Loads { words, statuses } = loads;
    // SAFETY: as in `open`; the lengths of the two arrays are passed with them.
    let status = unsafe {
        raw::cefrodil_open_with(
            shape,
            shards,
            WORDS,
            words.as_ptr(),
            words.len(),
            statuses.as_mut_ptr(),
            statuses.len(),
            all.raw.as_mut_ptr(),
            all.raw.len(),
        )
    };
    all.opened(status).map_err(OpenError::of)
}

/// Opens more handles of the cache that this one is of, or says why not.
pub fn more<const WORDS: usize>(handle: &mut OpenHandle, count: usize) -> Result<Vec<Handle<WORDS>>, MoreError> {
    let mut all = Opening::of(count)?;
    // SAFETY: as in `open`; by `&mut`, no other call uses `handle`.
    let status = unsafe { raw::cefrodil_more(&mut handle.raw, all.raw.as_mut_ptr(), all.raw.len()) };
    if status == raw::OK {
        handle.counter.take_in(&mut all.counters);
    }
    all.opened(status).map_err(MoreError::of)
}
