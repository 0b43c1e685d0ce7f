//! Lists of entries.
use crate::error::{ListError, TurnError};
use crate::memory::room;
use crate::open_handle::OpenHandle;
use crate::raw;
use crate::reply::{not_told, Entry};

/// What a list is, or why there is none.
pub(crate) type Listed<T> = Result<Vec<T>, TurnError<ListError>>;

/// The entries of a cache, at most `most` of them.
pub(crate) fn entries<const WORDS: usize>(handle: &mut OpenHandle, most: usize) -> Listed<(u64, [u64; WORDS])> {
    listed(1 + WORDS, most, |words| handle.entries(words), entry)
}

/// The entries with their stamps.
pub(crate) fn stamped_entries<const WORDS: usize>(handle: &mut OpenHandle, most: usize) -> Listed<Entry<WORDS>> {
    listed(2 + WORDS, most, |words| handle.stamped_entries(words), stamped)
}

/// A list by a handle that holds, which needs no turn.
pub(crate) fn without_turn<T>(list: Listed<T>) -> Result<Vec<T>, ListError> {
    list.map_err(|why| match why {
        TurnError::Call(why) => why,
        TurnError::Held => not_told(raw::HELD),
    })
}

// The list of entries of `each` words, by one call with room for them all.
fn listed<T>(each: usize, most: usize, list: impl FnOnce(&mut [u64]) -> (u32, u64), entry: impl Fn(&[u64]) -> T) -> Listed<T> {
    let most = most * each;
    let mut words = room(most)?;
    words.resize(most, 0);
    let (status, count) = list(&mut words);
    if status != raw::OK {
        return Err(no_list(status));
    }
    let mut entries = room(count as usize)?;
    entries.extend(words.chunks_exact(each).take(count as usize).map(entry));
    Ok(entries)
}

// Why a handle did not list.
fn no_list(status: u32) -> TurnError<ListError> {
    match status {
        raw::HELD => TurnError::Held,
        status => TurnError::Call(ListError::of(status)),
    }
}

// A key, and after it the words of its value.
fn entry<const WORDS: usize>(words: &[u64]) -> (u64, [u64; WORDS]) {
    let mut value = [0; WORDS];
    value.copy_from_slice(&words[1..]);
    (words[0], value)
}

// A key, after it the words of its value, and then its stamp.
fn stamped<const WORDS: usize>(words: &[u64]) -> Entry<WORDS> {
    let (key, value) = entry(&words[..1 + WORDS]);
    Entry { key, value, since: words[1 + WORDS] }
}
