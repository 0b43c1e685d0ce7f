//! The memory of items: what is counted, and when others give way.
mod plain;
use cefrodild::budget::cost;
use cefrodild::counts::Count;
use cefrodild::memory::{may_fail, Spare};
use cefrodild::request::How;
use cefrodild::rss_limit::RssLimit;
use cefrodild::store::{Answer, Fault};
use plain::client::{exceed, order, Client, MEGABYTE};
use std::alloc::{GlobalAlloc, Layout};
use std::mem::forget;
use std::ptr;
use std::sync::atomic::Ordering::SeqCst;

const FULL: &str = "SERVER_ERROR out of memory storing object\n";

/// A client with room for so many items that have keys and values of one byte, and for some bytes more.
fn room_for(items: u64, more: u64) -> Client {
    Client::new((items * cost(1, 1) + more) as usize)
}

/// Stores these keys with a value of one byte.
fn set(client: &mut Client, keys: &str) {
    for key in keys.chars() {
        assert_eq!(client.ask(&format!("set {key} 0 0 1\n5\n")), "STORED\n");
    }
}

/// Which of these keys are there. This marks them as read.
fn there(client: &mut Client, keys: &str) -> String {
    keys.chars().filter(|key| client.ask(&format!("get {key}\n")) != "END\n").collect()
}

#[test]
fn memory_is_bounded() {
    let mut client = Client::new(100_000);
    for number in 0..10_000 {
        assert_eq!(client.ask(&format!("set {number} 0 0 {}\n{}\n", number % 500, "x".repeat(number % 500))), "STORED\n");
        assert!(client.store.books.budget.used() <= 100_000);
    }
    assert!(client.store.books.budget.used() > 90_000);
    assert_eq!(
        client.ask(&format!("set big 0 0 200000\n{}\n", "x".repeat(200_000))),
        "SERVER_ERROR out of memory storing object\n"
    );
}

#[test]
fn an_item_that_finds_no_room_is_not_counted() {
    let mut client = room_for(2, 0);
    set(&mut client, "ab");
    client.control.refuses_removals.store(true, SeqCst);
    assert_eq!(client.ask("set c 0 0 1\n5\n"), FULL);
    assert_eq!((client.store.index.len(), client.store.books.budget.used()), (2, 2 * cost(1, 1)));
    client.control.refuses_removals.store(false, SeqCst);
    set(&mut client, "c");
    assert_eq!(there(&mut client, "abc"), "bc");
}

#[test]
fn a_command_waits_for_room_while_others_disturb_it() {
    let mut client = room_for(2, 0);
    set(&mut client, "ab");
    client.control.removals_to_refuse.store(50, SeqCst);
    set(&mut client, "c");
    assert_eq!((client.store.index.len(), client.store.books.counts.get(Count::Evicted)), (2, 1));
}

#[test]
fn nothing_gives_way_to_an_item_that_a_command_could_not_change() {
    let mut client = room_for(2, 0);
    set(&mut client, "ab");
    client.control.refuses_puts.store(true, SeqCst);
    assert_eq!(client.ask("incr a 5\n"), FULL);
    client.control.refuses_puts.store(false, SeqCst);
    assert_eq!((there(&mut client, "ab"), client.store.books.budget.used()), ("ab".to_owned(), 2 * cost(1, 1)));
}

#[test]
fn what_an_item_counts() {
    assert_eq!((cost(0, 0), cost(3, 5)), (48, 56));
}

/// A command that changes what `a` has, and its answer.
const CHANGES: [(&str, &str); 6] = [
    ("append a 0 0 1\n5\n", "STORED\n"),
    ("prepend a 0 0 1\n5\n", "STORED\n"),
    ("replace a 0 0 2\n55\n", "STORED\n"),
    ("cas a 0 0 2 1\n55\n", "STORED\n"),
    ("incr a 5\n", "10\n"),
    ("ma a D5 v\n", "VA 2\n10\n"),
];

#[test]
fn the_item_that_a_command_changes_does_not_give_way_to_it() {
    for (change, answer) in CHANGES {
        // The first item, `a`, has the token 1. The change needs the room of one other item.
        let mut client = room_for(3, 0);
        set(&mut client, "abc");
        assert_eq!(client.ask(change), answer, "{change}");
        assert_eq!(there(&mut client, "abc"), "ac", "{change}");
    }
}

#[test]
fn nothing_gives_way_if_there_is_no_room_for_the_next_value_alone() {
    // `a`, the second item, has the token 2. With each command there is one byte too few.
    let digits = "1".repeat(150);
    for (command, more) in [
        (format!("append a 0 0 150\n{digits}\n"), 149),
        (format!("replace a 0 0 150\n{digits}\n"), 148),
        (format!("cas a 0 0 150 2\n{digits}\n"), 148),
    ] {
        let mut client = Client::new(cost(1, 1) as usize + more);
        set(&mut client, "a");
        client.ask("cas a 0 0 1 1\n5\n");
        assert_eq!(client.ask(&command), FULL, "{command}");
        assert_eq!(client.ask("get a\n"), "VALUE a 0 1\n5\nEND\n", "{command}");
        assert_eq!((client.store.index.len(), client.store.books.budget.used()), (1, cost(1, 1)), "{command}");
    }
}

#[test]
fn an_expired_item_gives_way_to_the_next_one_of_its_key() {
    let mut client = room_for(1, 100);
    assert_eq!(client.ask("set a 0 -1 1\n5\nadd a 0 0 1\n6\n"), "STORED\nSTORED\n");
    assert_eq!(client.store.index.len(), 1);
}

#[test]
fn large_values_that_left_are_freed_at_once() {
    let mut client = Client::new(MEGABYTE);
    for (size, sweeps) in [(10, 0), (100_000, 1), (10, 1), (100_000, 2), (100_000, 3)] {
        assert_eq!(client.ask(&format!("set a 0 0 {size}\n{}\n", "x".repeat(size))), "STORED\n");
        assert_eq!(client.control.sweeps.load(SeqCst), sweeps);
    }
}

/// Another thread that reads the limit meanwhile must not take it for the one of later puts.
#[test]
fn items_that_give_way_as_the_system_refuses_memory_leave_the_limit_as_it_is() {
    let mut client = room_for(10, 0);
    set(&mut client, "abcdefghij");
    let limit = client.store.books.budget.limit();
    assert_eq!(client.store.with_more_memory(1_000, || Some(client.store.index.len())), Some(9));
    assert_eq!(*client.control.limits.lock().unwrap(), [limit]);
}

/// Nothing beside the limit is for an item, though what has left may take a little more.
#[test]
fn an_item_is_refused_if_no_other_one_goes() {
    let mut client = Client::new(100 * cost(2, 1) as usize);
    (0..100).for_each(|key| assert_eq!(client.ask(&format!("set {key:02} 0 0 1\n5\n")), "STORED\n"));
    client.control.refuses_removals.store(true, SeqCst);
    assert_eq!(client.ask("set a 0 0 1\n5\n"), FULL);
    assert!(client.store.books.budget.used() <= client.store.books.budget.limit());
}

/// Stores a value of so many bytes.
fn store(client: &Client, key: &str, length: usize) -> Result<Answer, Fault> {
    client.store.store(&order(How::Set, key.as_bytes(), length), &vec![b'x'; length])
}

#[test]
fn what_gives_way_as_the_process_exceeds_its_limit_is_freed() {
    let client = Client::new(0);
    exceed(&client.store, MEGABYTE);
    assert!(store(&client, "a", 1).is_ok());
    assert!(client.control.sweeps.load(SeqCst) > 0);
}

/// Each look takes up to four times its bytes from the others.
#[test]
fn more_gives_way_to_a_large_item_as_the_process_exceeds_its_limit() {
    let client = Client::new(8 * MEGABYTE);
    (0..300).for_each(|key| assert!(store(&client, &key.to_string(), 10_000).is_ok()));
    exceed(&client.store, 4 * MEGABYTE);
    assert!(store(&client, "large", 100_000).is_ok());
    let used = client.store.books.budget.used();
    assert!((1_400_000..2_000_000).contains(&used), "{used}");
}

/// The process would exceed its limit when the item is there.
#[test]
fn an_item_is_refused_for_which_the_process_has_no_memory() {
    const ALL: usize = 64 * MEGABYTE;
    let (client, values) = (Client::with(0, "-t1 -m 256 -I 64m"), vec![b'x'; ALL]);
    let store = |length| client.store.store(&order(How::Set, b"a", length), &values[..length]);
    let taken = RssLimit::new(0).and_then(|limit| limit.resident()).expect("the system tells");
    let budget = &client.store.books.budget;
    budget.bound_process(taken + ALL as u64).expect("the system tells");
    // It takes half of that for something else.
    let mut other = budget.claim(ALL as u64 / 2);
    other.expect();
    forget(other);
    budget.leave(ALL as u64 / 2);
    budget.free(ALL as u64 / 2);
    assert_eq!(store(3 * ALL / 4), Err(Fault::NoRoom));
    assert!(matches!(store(ALL / 4), Ok(Answer::Done(_))));
}

#[test]
fn a_worker_looks_at_the_memory_though_nothing_is_stored() {
    let client = Client::new(0);
    let limit = exceed(&client.store, 64 * MEGABYTE);
    client.store.tidy_up();
    assert!(client.store.books.budget.limit() < limit);
}

/// Though the next value has the place of another one.
#[test]
fn no_value_is_changed_while_too_much_waits_to_be_freed() {
    let mut client = room_for(100, 0);
    set(&mut client, "a");
    let store = client.store.clone();
    let (budget, bytes) = (&store.books.budget, 2 * store.books.budget.limit());
    budget.claim(bytes).keep();
    budget.leave(bytes);
    assert_eq!(client.ask("append a 0 0 1\n6\n"), FULL);
    assert_eq!(client.ask("get a\n"), "VALUE a 0 1\n5\nEND\n");
    budget.free(bytes);
    assert_eq!(client.ask("append a 0 0 1\n6\nget a\n"), "STORED\nVALUE a 0 2\n56\nEND\n");
}

/// Has no memory.
struct Nothing;

// SAFETY: it returns no block.
unsafe impl GlobalAlloc for Nothing {
    unsafe fn alloc(&self, _: Layout) -> *mut u8 {
        ptr::null_mut()
    }

    unsafe fn dealloc(&self, _: *mut u8, _: Layout) {
        unreachable!("it has no block")
    }
}

#[test]
fn a_call_that_may_fail_gets_nothing_of_the_reserve_behind_another_one_within_it() {
    static SPARE: Spare<Nothing> = Spare::new(Nothing);
    // SAFETY: the layout has a size.
    let take = || unsafe { SPARE.alloc(Layout::new::<u64>()) };
    may_fail(|| {
        may_fail(|| assert!(take().is_null()));
        assert!(take().is_null());
    });
    assert!(!take().is_null(), "all else gets it");
}
