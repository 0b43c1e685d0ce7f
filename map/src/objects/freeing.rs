//! What calls free of a map. A destructor may call the map, too: what that call is to free, it leaves to the outer one. So a chain of destructors takes no
//! more stack than one of them.
use std::cell::RefCell;
use std::mem;

/// The calls of a thread that free something, each within the one before: their map, and what other calls leave to them.
type Calls = Vec<(usize, Vec<u64>)>;

thread_local! {
    static CALLS: RefCell<Calls> = const { RefCell::new(Vec::new()) };
}

// At the end of a thread there are none.
fn with_calls<T>(act: impl FnOnce(&mut Calls) -> T) -> Option<T> {
    CALLS.try_with(|calls| act(&mut calls.borrow_mut())).ok()
}

/// Calls `free` with each of these words, and with those that calls within it leave to this one; or leaves them to an outer call of the same map. A map is
/// known by a number. `free` does not panic.
pub(crate) fn free_all(map: usize, mut words: Vec<u64>, mut free: impl FnMut(u64)) {
    if words.is_empty() {
        return;
    }
    let begins = with_calls(|calls| match calls.iter_mut().find(|(other, _)| *other == map) {
        Some((_, left)) => {
            left.append(&mut words);
            false
        }
        None => {
            calls.push((map, Vec::new()));
            true
        }
    });
    while !words.is_empty() {
        for word in mem::take(&mut words) {
            free(word);
        }
        words = with_calls(|calls| calls.last_mut().map(|(_, left)| mem::take(left))).flatten().unwrap_or_default();
    }
    if begins == Some(true) {
        with_calls(Vec::pop);
    }
}
