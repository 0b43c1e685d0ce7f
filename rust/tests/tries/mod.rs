//! Each call of a `Handle` that tries for a turn.
use cefrodil::{Handle, MayBeHeld};

fn is_held<T, E: MayBeHeld>(told: Result<T, E>) -> bool {
    told.is_err_and(|why| why.is_held())
}

/// A call with its name, by a handle of a cache that has the key 7: whether it is held.
pub type Try = (&'static str, fn(&mut Handle<1>) -> bool);

#[rustfmt::skip]
pub const TRIES: &[Try] = &[
    // .ci/calls: tries
    ("try_peek", |handle| is_held(handle.try_peek(7))),
    ("try_put", |handle| is_held(handle.try_put(7, &[71]))),
    ("try_put_if", |handle| is_held(handle.try_put_if(7, 1, &[71]))),
    ("try_put_if_absent", |handle| is_held(handle.try_put_if_absent(7, &[71]))),
    ("try_put_bounded", |handle| is_held(handle.try_put_bounded(7, 1, &[71]))),
    ("try_put_if_absent_bounded", |handle| is_held(handle.try_put_if_absent_bounded(7, 1, &[71]))),
    ("try_remove", |handle| is_held(handle.try_remove(7))),
    ("put_within", |handle| is_held(handle.put_within(3, 7, &[71]))),
    ("try_swap", |handle| is_held(handle.try_swap(7, &[71]))),
    ("try_swap_if", |handle| is_held(handle.try_swap_if(7, 1, &[71]))),
    ("try_swap_if_absent", |handle| is_held(handle.try_swap_if_absent(7, &[71]))),
    ("try_swap_bounded", |handle| is_held(handle.try_swap_bounded(7, 1, &[71]))),
    ("try_swap_if_absent_bounded", |handle| is_held(handle.try_swap_if_absent_bounded(7, 1, &[71]))),
    ("try_take", |handle| is_held(handle.try_take(7))),
    ("try_take_if", |handle| is_held(handle.try_take_if(7, 1))),
    ("try_evict", |handle| is_held(handle.try_evict(7))),
    ("try_entry_at", |handle| is_held(handle.try_entry_at(7, 0))),
    ("hold", |handle| is_held(handle.hold())),
    ("try_moment", |handle| is_held(handle.try_moment())),
    ("try_len", |handle| is_held(handle.try_len())),
    ("try_entries", |handle| is_held(handle.try_entries())),
    ("try_stamped_entries", |handle| is_held(handle.try_stamped_entries())),
    // .ci/calls: end
];
