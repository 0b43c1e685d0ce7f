//! The exports of the archive, as `cefrodil.h` declares them.
#![allow(dead_code)] // A status that no call of this crate gets has its name here, too.
use std::ffi::c_void;

/// A handle, open or empty. It begins zeroed; after that only the archive writes it.
#[repr(C)]
pub struct RawHandle {
    pub at: *mut c_void,
    pub live: bool,
}

#[repr(C)]
pub struct RawShape {
    pub limit: u64,
    pub buckets: u32,
    pub items: u32,
    pub stripes: u32,
    pub depth: u32,
    pub tries: u32,
    pub mix: u32,
    pub policy: u32,
}

#[repr(C)]
#[derive(Clone, Copy, Default)]
pub struct RawReply {
    pub at: u64,
    pub since: u64,
    pub evicted: u64,
    pub moves: u32,
    pub put: u32,
}

#[repr(C)]
#[derive(Clone, Copy, Default)]
pub struct RawAnswer {
    pub at: u64,
    pub since: u64,
    pub status: u32,
    pub unused: u32,
}

#[repr(C)]
#[derive(Clone, Copy, Default)]
pub struct RawPut {
    pub reply: RawReply,
    pub status: u32,
    pub unused: u32,
}

// .ci/calls: statuses
pub const OK: u32 = 0;
pub const ABSENT: u32 = 1;
pub const BUSY: u32 = 2;
pub const NO_PATH: u32 = 3;
pub const ALL_RECENT: u32 = 4;
pub const SPENT: u32 = 5;
pub const CHANGED: u32 = 6;
pub const HELD: u32 = 7;
pub const CLOSED: u32 = 8;
pub const HOLDS: u32 = 9;
pub const WIDTH: u32 = 10;
pub const IN_USE: u32 = 11;
pub const NO_MEMORY: u32 = 12;
pub const BAD_WORDS: u32 = 13;
pub const BAD_MIX: u32 = 14;
pub const BAD_BUCKETS: u32 = 15;
pub const BAD_ITEMS: u32 = 16;
pub const BAD_STRIPES: u32 = 17;
pub const BAD_DEPTH: u32 = 18;
pub const BAD_TRIES: u32 = 19;
pub const BAD_LIMIT: u32 = 20;
pub const BAD_HANDLES: u32 = 21;
pub const BAD_COUNT: u32 = 22;
pub const NO_ITEM: u32 = 23;
pub const BAD_SHARDS: u32 = 24;
pub const PRESENT: u32 = 25;
pub const HOLDS_NOT: u32 = 26;
pub const PROCESSOR: u32 = 27;
pub const BAD_POLICY: u32 = 28;
// .ci/calls: end

pub const PUT_EVICTED: u32 = 2;
pub const PUT_RENEWED: u32 = 3;

/// The name by which a linker finds a call that a program makes first: it has the series, as in the header.
macro_rules! of_series {
    ($call:literal) => {
        concat!($call, "_", env!("CARGO_PKG_VERSION_MAJOR"), "_", env!("CARGO_PKG_VERSION_MINOR"))
    };
}

unsafe extern "C" {
    // .ci/calls: declarations
    pub fn cefrodil_version() -> u32;
    #[link_name = of_series!("cefrodil_shape_for_items")]
    pub fn cefrodil_shape_for_items(items: u32, shards: u32, shape: *mut RawShape) -> u32;
    #[link_name = of_series!("cefrodil_open")]
    pub fn cefrodil_open(shape: *const RawShape, shards: u32, words: usize, handles: *mut RawHandle, count: usize) -> u32;
    #[link_name = of_series!("cefrodil_open_with")]
    pub fn cefrodil_open_with(
        shape: *const RawShape,
        shards: u32,
        words: usize,
        entries: *const u64,
        entry_words: usize,
        statuses: *mut u32,
        status_count: usize,
        handles: *mut RawHandle,
        count: usize,
    ) -> u32;
    pub fn cefrodil_more(handle: *mut RawHandle, handles: *mut RawHandle, count: usize) -> u32;
    pub fn cefrodil_get(handle: *mut RawHandle, key: u64, value: *mut u64, words: usize, reply: *mut RawReply) -> u32;
    pub fn cefrodil_get_1(handle: *mut RawHandle, key: u64, value: *mut u64, reply: *mut RawReply) -> u32;
    pub fn cefrodil_get_2(handle: *mut RawHandle, key: u64, value: *mut u64, reply: *mut RawReply) -> u32;
    pub fn cefrodil_get_3(handle: *mut RawHandle, key: u64, value: *mut u64, reply: *mut RawReply) -> u32;
    pub fn cefrodil_get_4(handle: *mut RawHandle, key: u64, value: *mut u64, reply: *mut RawReply) -> u32;
    pub fn cefrodil_get_5(handle: *mut RawHandle, key: u64, value: *mut u64, reply: *mut RawReply) -> u32;
    pub fn cefrodil_get_6(handle: *mut RawHandle, key: u64, value: *mut u64, reply: *mut RawReply) -> u32;
    pub fn cefrodil_get_7(handle: *mut RawHandle, key: u64, value: *mut u64, reply: *mut RawReply) -> u32;
    pub fn cefrodil_get_8(handle: *mut RawHandle, key: u64, value: *mut u64, reply: *mut RawReply) -> u32;
    pub fn cefrodil_get_many(
        handle: *mut RawHandle,
        keys: *const u64,
        key_count: usize,
        values: *mut u64,
        value_words: usize,
        answers: *mut RawAnswer,
        answer_count: usize,
    ) -> u32;
    pub fn cefrodil_prefetch(handle: *mut RawHandle, key: u64) -> u32;
    pub fn cefrodil_get_or_turn(handle: *mut RawHandle, key: u64, value: *mut u64, words: usize, reply: *mut RawReply) -> u32;
    pub fn cefrodil_get_or_turn_1(handle: *mut RawHandle, key: u64, value: *mut u64, reply: *mut RawReply) -> u32;
    pub fn cefrodil_get_or_turn_2(handle: *mut RawHandle, key: u64, value: *mut u64, reply: *mut RawReply) -> u32;
    pub fn cefrodil_get_or_turn_3(handle: *mut RawHandle, key: u64, value: *mut u64, reply: *mut RawReply) -> u32;
    pub fn cefrodil_get_or_turn_4(handle: *mut RawHandle, key: u64, value: *mut u64, reply: *mut RawReply) -> u32;
    pub fn cefrodil_get_or_turn_5(handle: *mut RawHandle, key: u64, value: *mut u64, reply: *mut RawReply) -> u32;
    pub fn cefrodil_get_or_turn_6(handle: *mut RawHandle, key: u64, value: *mut u64, reply: *mut RawReply) -> u32;
    pub fn cefrodil_get_or_turn_7(handle: *mut RawHandle, key: u64, value: *mut u64, reply: *mut RawReply) -> u32;
    pub fn cefrodil_get_or_turn_8(handle: *mut RawHandle, key: u64, value: *mut u64, reply: *mut RawReply) -> u32;
    pub fn cefrodil_peek(handle: *mut RawHandle, key: u64, value: *mut u64, words: usize, reply: *mut RawReply) -> u32;
    pub fn cefrodil_put(handle: *mut RawHandle, key: u64, value: *const u64, words: usize, reply: *mut RawReply) -> u32;
    pub fn cefrodil_put_1(handle: *mut RawHandle, key: u64, value: *const u64, reply: *mut RawReply) -> u32;
    pub fn cefrodil_put_2(handle: *mut RawHandle, key: u64, value: *const u64, reply: *mut RawReply) -> u32;
    pub fn cefrodil_put_3(handle: *mut RawHandle, key: u64, value: *const u64, reply: *mut RawReply) -> u32;
    pub fn cefrodil_put_4(handle: *mut RawHandle, key: u64, value: *const u64, reply: *mut RawReply) -> u32;
    pub fn cefrodil_put_5(handle: *mut RawHandle, key: u64, value: *const u64, reply: *mut RawReply) -> u32;
    pub fn cefrodil_put_6(handle: *mut RawHandle, key: u64, value: *const u64, reply: *mut RawReply) -> u32;
    pub fn cefrodil_put_7(handle: *mut RawHandle, key: u64, value: *const u64, reply: *mut RawReply) -> u32;
    pub fn cefrodil_put_8(handle: *mut RawHandle, key: u64, value: *const u64, reply: *mut RawReply) -> u32;
    pub fn cefrodil_put_if(
        handle: *mut RawHandle,
        key: u64,
        since: u64,
        value: *const u64,
        words: usize,
        reply: *mut RawReply,
    ) -> u32;
    pub fn cefrodil_put_if_absent(handle: *mut RawHandle, key: u64, value: *const u64, words: usize, reply: *mut RawReply)
        -> u32;
    pub fn cefrodil_put_bounded(
        handle: *mut RawHandle,
        key: u64,
        most: u32,
        value: *const u64,
        words: usize,
        reply: *mut RawReply,
    ) -> u32;
    pub fn cefrodil_put_if_absent_bounded(
        handle: *mut RawHandle,
        key: u64,
        most: u32,
        value: *const u64,
        words: usize,
        reply: *mut RawReply,
    ) -> u32;
    pub fn cefrodil_remove(handle: *mut RawHandle, key: u64, reply: *mut RawReply) -> u32;
    pub fn cefrodil_put_many(
        handle: *mut RawHandle,
        keys: *const u64,
        key_count: usize,
        values: *const u64,
        value_words: usize,
        answers: *mut RawPut,
        answer_count: usize,
    ) -> u32;
    pub fn cefrodil_put_within(
        handle: *mut RawHandle,
        tries: u32,
        key: u64,
        value: *const u64,
        words: usize,
        reply: *mut RawReply,
    ) -> u32;
    pub fn cefrodil_swap(
        handle: *mut RawHandle,
        key: u64,
        value: *const u64,
        words: usize,
        old: *mut u64,
        old_words: usize,
        reply: *mut RawReply,
    ) -> u32;
    pub fn cefrodil_swap_if(
        handle: *mut RawHandle,
        key: u64,
        since: u64,
        value: *const u64,
        words: usize,
        old: *mut u64,
        old_words: usize,
        reply: *mut RawReply,
    ) -> u32;
    pub fn cefrodil_swap_if_absent(
        handle: *mut RawHandle,
        key: u64,
        value: *const u64,
        words: usize,
        old: *mut u64,
        old_words: usize,
        reply: *mut RawReply,
    ) -> u32;
    pub fn cefrodil_swap_bounded(
        handle: *mut RawHandle,
        key: u64,
        most: u32,
        value: *const u64,
        words: usize,
        old: *mut u64,
        old_words: usize,
        reply: *mut RawReply,
    ) -> u32;
    pub fn cefrodil_swap_if_absent_bounded(
        handle: *mut RawHandle,
        key: u64,
        most: u32,
        value: *const u64,
        words: usize,
        old: *mut u64,
        old_words: usize,
        reply: *mut RawReply,
    ) -> u32;
    pub fn cefrodil_take(handle: *mut RawHandle, key: u64, old: *mut u64, old_words: usize, reply: *mut RawReply) -> u32;
    pub fn cefrodil_take_if(
        handle: *mut RawHandle,
        key: u64,
        since: u64,
        old: *mut u64,
        old_words: usize,
        reply: *mut RawReply,
    ) -> u32;
    pub fn cefrodil_evict(handle: *mut RawHandle, near: u64, old: *mut u64, old_words: usize, reply: *mut RawReply) -> u32;
    pub fn cefrodil_entry_at(
        handle: *mut RawHandle,
        near: u64,
        item: u32,
        value: *mut u64,
        words: usize,
        reply: *mut RawReply,
    ) -> u32;
    pub fn cefrodil_hold(handle: *mut RawHandle) -> u32;
    pub fn cefrodil_release(handle: *mut RawHandle) -> u32;
    pub fn cefrodil_moment(handle: *mut RawHandle, moment: *mut u64) -> u32;
    pub fn cefrodil_len(handle: *mut RawHandle, len: *mut u64) -> u32;
    pub fn cefrodil_capacity(handle: *mut RawHandle, capacity: *mut u64) -> u32;
    pub fn cefrodil_entries(handle: *mut RawHandle, entries: *mut u64, entry_words: usize, count: *mut u64) -> u32;
    pub fn cefrodil_stamped_entries(handle: *mut RawHandle, entries: *mut u64, entry_words: usize, count: *mut u64) -> u32;
    pub fn cefrodil_close(handle: *mut RawHandle) -> u32;
    // .ci/calls: end
}

// The calls that have an export for each width.
// .ci/calls: widths
macro_rules! get_of_width {
    ($words:expr, $handle:expr, $key:expr, $value:expr, $reply:expr) => {
        match $words {
            1 => raw::cefrodil_get_1($handle, $key, $value, $reply),
            2 => raw::cefrodil_get_2($handle, $key, $value, $reply),
            3 => raw::cefrodil_get_3($handle, $key, $value, $reply),
            4 => raw::cefrodil_get_4($handle, $key, $value, $reply),
            5 => raw::cefrodil_get_5($handle, $key, $value, $reply),
            6 => raw::cefrodil_get_6($handle, $key, $value, $reply),
            7 => raw::cefrodil_get_7($handle, $key, $value, $reply),
            8 => raw::cefrodil_get_8($handle, $key, $value, $reply),
            _ => raw::cefrodil_get($handle, $key, $value, $words, $reply),
        }
    };
}
pub(crate) use get_of_width;
macro_rules! get_or_turn_of_width {
    ($words:expr, $handle:expr, $key:expr, $value:expr, $reply:expr) => {
        match $words {
            1 => raw::cefrodil_get_or_turn_1($handle, $key, $value, $reply),
            2 => raw::cefrodil_get_or_turn_2($handle, $key, $value, $reply),
            3 => raw::cefrodil_get_or_turn_3($handle, $key, $value, $reply),
            4 => raw::cefrodil_get_or_turn_4($handle, $key, $value, $reply),
            5 => raw::cefrodil_get_or_turn_5($handle, $key, $value, $reply),
            6 => raw::cefrodil_get_or_turn_6($handle, $key, $value, $reply),
            7 => raw::cefrodil_get_or_turn_7($handle, $key, $value, $reply),
            8 => raw::cefrodil_get_or_turn_8($handle, $key, $value, $reply),
            _ => raw::cefrodil_get_or_turn($handle, $key, $value, $words, $reply),
        }
    };
}
pub(crate) use get_or_turn_of_width;
macro_rules! put_of_width {
    ($words:expr, $handle:expr, $key:expr, $value:expr, $reply:expr) => {
        match $words {
            1 => raw::cefrodil_put_1($handle, $key, $value, $reply),
            2 => raw::cefrodil_put_2($handle, $key, $value, $reply),
            3 => raw::cefrodil_put_3($handle, $key, $value, $reply),
            4 => raw::cefrodil_put_4($handle, $key, $value, $reply),
            5 => raw::cefrodil_put_5($handle, $key, $value, $reply),
            6 => raw::cefrodil_put_6($handle, $key, $value, $reply),
            7 => raw::cefrodil_put_7($handle, $key, $value, $reply),
            8 => raw::cefrodil_put_8($handle, $key, $value, $reply),
            _ => raw::cefrodil_put($handle, $key, $value, $words, $reply),
        }
    };
}
pub(crate) use put_of_width;
// .ci/calls: end
