//! A handle of the archive, with its calls. All `unsafe` of this crate is here and in `openings`, except the call of `Shape::for_items`, and
//! that of `memory::Shared`.
//!
//! This module keeps what the header asks of a caller. A handle begins zeroed, and only the archive writes it. It is private and
//! not `Clone`, and a call borrows it as `&mut`, so one call at a time uses it. The pointers of a call come from borrows, which
//! last for the call and don't overlap.
//!
//! A call by an open handle is counted.
use crate::counts::{Counter, Meter};
use crate::error::OpenError;
use crate::raw::{self, RawAnswer, RawHandle, RawPut, RawReply};
use std::ptr;

pub mod openings;

/// A handle, open or empty, and its counter. Dropping it closes it.
pub struct OpenHandle {
    raw: RawHandle,
    counter: Counter,
}

// SAFETY: it is proved that an archive's handle may move to another thread: what it owns may move, and what it shares may be
// shared.
unsafe impl Send for OpenHandle {}

// SAFETY: through a `&OpenHandle` the archive's handle is not read and no call is made, so it may be shared. Its fields are private to this
// module. Here `meter` alone takes `&self`, and it clones a `Shared` of the counter. The openings take no handle, and each other function
// takes `&mut self`, `drop` too. It is not `Clone`, nor does it implement any trait with a method that takes `&self`. The types around it
// add none that reaches it but for `meter`: `Debug` of `Handle`, `Writing` and `Filler` writes a name alone, and `Pool::take` hands on whole
// handles under a lock.
unsafe impl Sync for OpenHandle {}

/// The version of the archive: 10,000 times the major version, 100 times the minor one, and the patch.
#[must_use]
pub fn version() -> u32 {
    // SAFETY: the call takes nothing and has no condition.
    unsafe { raw::cefrodil_version() }
}

/// The version of this crate, as an archive writes it.
const VERSION: u32 = 10_000 * number(env!("CARGO_PKG_VERSION_MAJOR"))
    + 100 * number(env!("CARGO_PKG_VERSION_MINOR"))
    + number(env!("CARGO_PKG_VERSION_PATCH"));

const fn number(digits: &str) -> u32 {
    let (digits, mut number, mut n) = (digits.as_bytes(), 0, 0);
    while n < digits.len() {
        number = 10 * number + (digits[n] - b'0') as u32;
        n += 1;
    }
    number
}

/// Refuses an archive whose structs and calls may be others, before any of them is used. Before version 1.0 another minor version may
/// differ in them, so a patch alone may be another.
pub fn same_version() -> Result<(), OpenError> {
    match version() {
        archive if archive / 100 == VERSION / 100 => Ok(()),
        archive => Err(OpenError::Version { archive, crate_version: VERSION }),
    }
}

const EMPTY: RawHandle = RawHandle { at: ptr::null_mut(), live: false };

impl Drop for OpenHandle {
    fn drop(&mut self) {
        // SAFETY: by `&mut`, no other call uses this handle. If it is not open, the call returns a status.
        unsafe { raw::cefrodil_close(&mut self.raw) };
    }
}

impl OpenHandle {
    /// One that is not open. It counts nothing.
    pub fn closed() -> OpenHandle {
        OpenHandle { raw: EMPTY, counter: Counter::none() }
    }

    /// Reads what the calls by all handles of this cache came to.
    pub fn meter(&self) -> Meter {
        self.counter.meter()
    }
}

// SAFETY of each call here: `&mut` keeps other calls from the handle. Each pointer comes from a borrow that lasts for the call. The length of an
// array is passed with it, or is the width that the call's name says.
#[rustfmt::skip]
impl OpenHandle {
    // .ci/calls: calls
    #[inline]
    pub fn get<const WORDS: usize>(&mut self, key: u64, value: &mut [u64; WORDS]) -> (u32, RawReply) {
        let mut reply = RawReply::default();
        let status = unsafe { raw::get_of_width!(WORDS, &mut self.raw, key, value.as_mut_ptr(), &mut reply) };
        self.counter.looked(status);
        (status, reply)
    }

    pub fn get_many(&mut self, keys: &[u64], values: &mut [u64], answers: &mut [RawAnswer]) -> u32 {
        let key_count = keys.len();
        let value_words = values.len();
        let answer_count = answers.len();
        let status = unsafe { raw::cefrodil_get_many(&mut self.raw, keys.as_ptr(), key_count, values.as_mut_ptr(), value_words, answers.as_mut_ptr(), answer_count) };
        if status == raw::OK { self.counter.looked_up(answers); }
        status
    }

    pub fn prefetch(&mut self, key: u64) -> u32 {
        let status = unsafe { raw::cefrodil_prefetch(&mut self.raw, key) };
        self.counter.tried(status);
        status
    }

    #[inline]
    pub fn get_or_turn<const WORDS: usize>(&mut self, key: u64, value: &mut [u64; WORDS]) -> (u32, RawReply) {
        let mut reply = RawReply::default();
        let status = unsafe { raw::get_or_turn_of_width!(WORDS, &mut self.raw, key, value.as_mut_ptr(), &mut reply) };
        self.counter.looked(status);
        (status, reply)
    }

    pub fn peek(&mut self, key: u64, value: &mut [u64]) -> (u32, RawReply) {
        let mut reply = RawReply::default();
        let words = value.len();
        let status = unsafe { raw::cefrodil_peek(&mut self.raw, key, value.as_mut_ptr(), words, &mut reply) };
        self.counter.tried(status);
        (status, reply)
    }

    pub fn put<const WORDS: usize>(&mut self, key: u64, value: &[u64; WORDS]) -> (u32, RawReply) {
        let mut reply = RawReply::default();
        let status = unsafe { raw::put_of_width!(WORDS, &mut self.raw, key, value.as_ptr(), &mut reply) };
        self.counter.wrote(status, &reply);
        (status, reply)
    }

    pub fn put_if(&mut self, key: u64, since: u64, value: &[u64]) -> (u32, RawReply) {
        let mut reply = RawReply::default();
        let words = value.len();
        let status = unsafe { raw::cefrodil_put_if(&mut self.raw, key, since, value.as_ptr(), words, &mut reply) };
        self.counter.wrote(status, &reply);
        (status, reply)
    }

    pub fn put_if_absent(&mut self, key: u64, value: &[u64]) -> (u32, RawReply) {
        let mut reply = RawReply::default();
        let words = value.len();
        let status = unsafe { raw::cefrodil_put_if_absent(&mut self.raw, key, value.as_ptr(), words, &mut reply) };
        self.counter.wrote(status, &reply);
        (status, reply)
    }

    pub fn put_bounded(&mut self, key: u64, most: u32, value: &[u64]) -> (u32, RawReply) {
        let mut reply = RawReply::default();
        let words = value.len();
        let status = unsafe { raw::cefrodil_put_bounded(&mut self.raw, key, most, value.as_ptr(), words, &mut reply) };
        self.counter.wrote(status, &reply);
        (status, reply)
    }

    pub fn put_if_absent_bounded(&mut self, key: u64, most: u32, value: &[u64]) -> (u32, RawReply) {
        let mut reply = RawReply::default();
        let words = value.len();
        let status = unsafe { raw::cefrodil_put_if_absent_bounded(&mut self.raw, key, most, value.as_ptr(), words, &mut reply) };
        self.counter.wrote(status, &reply);
        (status, reply)
    }

    pub fn remove(&mut self, key: u64) -> (u32, RawReply) {
        let mut reply = RawReply::default();
        let status = unsafe { raw::cefrodil_remove(&mut self.raw, key, &mut reply) };
        self.counter.wrote(status, &reply);
        (status, reply)
    }

    pub fn put_many(&mut self, keys: &[u64], values: &[u64], answers: &mut [RawPut]) -> u32 {
        let key_count = keys.len();
        let value_words = values.len();
        let answer_count = answers.len();
        let status = unsafe { raw::cefrodil_put_many(&mut self.raw, keys.as_ptr(), key_count, values.as_ptr(), value_words, answers.as_mut_ptr(), answer_count) };
        if status == raw::OK { self.counter.wrote_all(answers); }
        status
    }

    pub fn put_within(&mut self, tries: u32, key: u64, value: &[u64]) -> (u32, RawReply) {
        let mut reply = RawReply::default();
        let words = value.len();
        let status = unsafe { raw::cefrodil_put_within(&mut self.raw, tries, key, value.as_ptr(), words, &mut reply) };
        self.counter.wrote(status, &reply);
        (status, reply)
    }

    pub fn swap(&mut self, key: u64, value: &[u64], old: &mut [u64]) -> (u32, RawReply) {
        let mut reply = RawReply::default();
        let words = value.len();
        let old_words = old.len();
        let status = unsafe { raw::cefrodil_swap(&mut self.raw, key, value.as_ptr(), words, old.as_mut_ptr(), old_words, &mut reply) };
        self.counter.wrote(status, &reply);
        (status, reply)
    }

    pub fn swap_if(&mut self, key: u64, since: u64, value: &[u64], old: &mut [u64]) -> (u32, RawReply) {
        let mut reply = RawReply::default();
        let words = value.len();
        let old_words = old.len();
        let status = unsafe { raw::cefrodil_swap_if(&mut self.raw, key, since, value.as_ptr(), words, old.as_mut_ptr(), old_words, &mut reply) };
        self.counter.wrote(status, &reply);
        (status, reply)
    }

    pub fn swap_if_absent(&mut self, key: u64, value: &[u64], old: &mut [u64]) -> (u32, RawReply) {
        let mut reply = RawReply::default();
        let words = value.len();
        let old_words = old.len();
        let status = unsafe { raw::cefrodil_swap_if_absent(&mut self.raw, key, value.as_ptr(), words, old.as_mut_ptr(), old_words, &mut reply) };
        self.counter.wrote(status, &reply);
        (status, reply)
    }

    pub fn swap_bounded(&mut self, key: u64, most: u32, value: &[u64], old: &mut [u64]) -> (u32, RawReply) {
        let mut reply = RawReply::default();
        let words = value.len();
        let old_words = old.len();
        let status = unsafe { raw::cefrodil_swap_bounded(&mut self.raw, key, most, value.as_ptr(), words, old.as_mut_ptr(), old_words, &mut reply) };
        self.counter.wrote(status, &reply);
        (status, reply)
    }

    pub fn swap_if_absent_bounded(&mut self, key: u64, most: u32, value: &[u64], old: &mut [u64]) -> (u32, RawReply) {
        let mut reply = RawReply::default();
        let words = value.len();
        let old_words = old.len();
        let status = unsafe { raw::cefrodil_swap_if_absent_bounded(&mut self.raw, key, most, value.as_ptr(), words, old.as_mut_ptr(), old_words, &mut reply) };
        self.counter.wrote(status, &reply);
        (status, reply)
    }

    pub fn take(&mut self, key: u64, old: &mut [u64]) -> (u32, RawReply) {
        let mut reply = RawReply::default();
        let old_words = old.len();
        let status = unsafe { raw::cefrodil_take(&mut self.raw, key, old.as_mut_ptr(), old_words, &mut reply) };
        self.counter.wrote(status, &reply);
        (status, reply)
    }

    pub fn take_if(&mut self, key: u64, since: u64, old: &mut [u64]) -> (u32, RawReply) {
        let mut reply = RawReply::default();
        let old_words = old.len();
        let status = unsafe { raw::cefrodil_take_if(&mut self.raw, key, since, old.as_mut_ptr(), old_words, &mut reply) };
        self.counter.wrote(status, &reply);
        (status, reply)
    }

    pub fn evict(&mut self, near: u64, old: &mut [u64]) -> (u32, RawReply) {
        let mut reply = RawReply::default();
        let old_words = old.len();
        let status = unsafe { raw::cefrodil_evict(&mut self.raw, near, old.as_mut_ptr(), old_words, &mut reply) };
        self.counter.wrote(status, &reply);
        (status, reply)
    }

    pub fn entry_at(&mut self, near: u64, item: u32, value: &mut [u64]) -> (u32, RawReply) {
        let mut reply = RawReply::default();
        let words = value.len();
        let status = unsafe { raw::cefrodil_entry_at(&mut self.raw, near, item, value.as_mut_ptr(), words, &mut reply) };
        self.counter.tried(status);
        (status, reply)
    }

    pub fn hold(&mut self) -> u32 {
        let status = unsafe { raw::cefrodil_hold(&mut self.raw) };
        self.counter.tried(status);
        status
    }

    pub fn release(&mut self) -> u32 {
        let status = unsafe { raw::cefrodil_release(&mut self.raw) };
        self.counter.tried(status);
        status
    }

    pub fn moment(&mut self) -> (u32, u64) {
        let mut moment = 0;
        let status = unsafe { raw::cefrodil_moment(&mut self.raw, &mut moment) };
        self.counter.tried(status);
        (status, moment)
    }

    pub fn len(&mut self) -> (u32, u64) {
        let mut len = 0;
        let status = unsafe { raw::cefrodil_len(&mut self.raw, &mut len) };
        self.counter.tried(status);
        (status, len)
    }

    pub fn capacity(&mut self) -> (u32, u64) {
        let mut capacity = 0;
        let status = unsafe { raw::cefrodil_capacity(&mut self.raw, &mut capacity) };
        self.counter.tried(status);
        (status, capacity)
    }

    pub fn entries(&mut self, entries: &mut [u64]) -> (u32, u64) {
        let mut count = 0;
        let entry_words = entries.len();
        let status = unsafe { raw::cefrodil_entries(&mut self.raw, entries.as_mut_ptr(), entry_words, &mut count) };
        self.counter.tried(status);
        (status, count)
    }

    pub fn stamped_entries(&mut self, entries: &mut [u64]) -> (u32, u64) {
        let mut count = 0;
        let entry_words = entries.len();
        let status = unsafe { raw::cefrodil_stamped_entries(&mut self.raw, entries.as_mut_ptr(), entry_words, &mut count) };
        self.counter.tried(status);
        (status, count)
    }
    // .ci/calls: end
}
