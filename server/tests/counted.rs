//! What each command counts, of all that `stats` has: this much, and nothing else.
mod plain;
use plain::client::{Client, MEGABYTE};
use std::sync::atomic::{AtomicBool, Ordering::SeqCst};

/// A client of a store with a number, a text and an expired value, which have the tokens 1, 2 and 3.
fn client() -> Client {
    let mut client = Client::with(8 * MEGABYTE, "-I1k");
    assert_eq!(client.ask("set n 0 0 1\n5\nset t 0 0 1\nx\nset gone 0 -1 1\n5\n"), "STORED\n".repeat(3));
    client
}

fn sums(client: &Client) -> Vec<(&'static str, u64)> {
    client.store.books.counts.sums().collect()
}

/// Which counts this text adds one to, or so many, in the order of `stats`.
fn counted(client: &mut Client, text: &str) -> String {
    let before = sums(client);
    client.ask(text);
    let change = |((name, after), (_, before)): (&(&'static str, u64), &(_, u64))| match after - before {
        0 => None,
        1 => Some((*name).to_owned()),
        more => Some(format!("{more}*{name}")),
    };
    sums(client).iter().zip(&before).filter_map(change).collect::<Vec<_>>().join(" ")
}

fn assert_counts(table: &[(&str, &str)]) {
    for (text, counts) in table {
        assert_eq!(counted(&mut client(), text), *counts, "{text}");
    }
}

#[test]
fn lookups_and_new_times_to_live() {
    assert_counts(&[
        ("get n\n", "cmd_get get_hits"),
        ("get none\n", "cmd_get get_misses"),
        ("get gone\n", "cmd_get get_misses get_expired"),
        ("flush_all\nget n none\n", "2*cmd_get cmd_flush 2*get_misses get_flushed"),
        ("flush_all\nmg n\n", "cmd_get cmd_flush cmd_meta get_misses get_flushed"),
        ("gets n t none\n", "3*cmd_get 2*get_hits get_misses"),
        ("gat 0 n t none\n", "3*cmd_get 3*cmd_touch 2*get_hits get_misses 2*touch_hits touch_misses"),
        ("gats 0 gone\n", "cmd_get cmd_touch get_misses get_expired touch_misses"),
        ("touch n 0\n", "cmd_touch touch_hits"),
        ("touch n 0 noreply\n", "cmd_touch touch_hits"),
        ("touch none 0\n", "cmd_touch touch_misses"),
        ("touch gone 0\n", "cmd_touch touch_misses"),
        ("mg n\n", "cmd_get cmd_meta get_hits"),
        ("mg none q\n", "cmd_get cmd_meta get_misses"),
        ("mg none N30\n", "cmd_get cmd_set cmd_meta get_misses total_items"),
        ("mg none N30 C9\n", "cmd_get cmd_set cmd_meta get_misses total_items"),
        ("md n I\nmg n\nmg n\n", "2*cmd_get 3*cmd_meta 2*get_hits"),
        ("me n\nme none\nme gone\n", "3*cmd_meta"),
        ("mg n T0\n", "cmd_get cmd_touch cmd_meta get_hits touch_hits"),
        ("mg none T0\n", "cmd_get cmd_touch cmd_meta get_misses touch_misses"),
    ]);
}

/// Each of these answers is sent before the next key is looked at.
#[test]
fn lookups_of_large_values() {
    let mut client = Client::new(MEGABYTE);
    client.ask(&format!("set large 0 0 20000\n{}\n", "x".repeat(20_000)));
    assert_eq!(counted(&mut client, "get large large large\n"), "3*cmd_get 3*get_hits");
}

#[test]
fn values() {
    assert_counts(&[
        ("set n 0 0 1\n6\n", "cmd_set total_items"),
        ("set n 0 0 1 noreply\n6\n", "cmd_set total_items"),
        ("add none 0 0 1\n6\n", "cmd_set total_items"),
        ("add n 0 0 1\n6\n", "cmd_set"),
        ("replace n 0 0 1\n6\n", "cmd_set total_items"),
        ("replace gone 0 0 1\n6\n", "cmd_set"),
        ("append n 0 0 1\n6\n", "cmd_set total_items"),
        ("prepend none 0 0 1\n6\n", "cmd_set"),
        ("cas n 0 0 1 1\n6\n", "cmd_set cas_hits total_items"),
        ("cas n 0 0 1 9\n6\n", "cmd_set cas_badval"),
        ("cas none 0 0 1 9\n6\n", "cmd_set cas_misses"),
        ("cas gone 0 0 1 3\n6\n", "cmd_set cas_misses"),
        ("ms n 1\n6\n", "cmd_set cmd_meta total_items"),
        ("ms n 1 q\n6\n", "cmd_set cmd_meta total_items"),
        ("ms n 1 ME\n6\n", "cmd_set cmd_meta"),
        ("ms n 1 C1\n6\n", "cmd_set cmd_meta cas_hits total_items"),
        ("ms n 1 C9\n6\n", "cmd_set cmd_meta cas_badval"),
        ("ms none 1 C9\n6\n", "cmd_set cmd_meta cas_misses"),
    ]);
}

#[test]
fn numbers() {
    assert_counts(&[
        ("incr n 1\n", "incr_hits"),
        ("incr n 1 noreply\n", "incr_hits"),
        ("incr none 1\n", "incr_misses"),
        ("incr gone 1\n", "incr_misses"),
        ("incr t 1\n", ""),
        ("decr n 1\n", "decr_hits"),
        ("decr none 1\n", "decr_misses"),
        ("decr t 1\n", ""),
        ("ma n\n", "cmd_meta incr_hits"),
        ("ma n q\n", "cmd_meta incr_hits"),
        ("ma n MD\n", "cmd_meta decr_hits"),
        ("ma none\n", "cmd_meta incr_misses"),
        ("ma none MD\n", "cmd_meta decr_misses"),
        ("ma none N0\n", "cmd_set cmd_meta total_items"),
        ("ma none N0 C9\n", "cmd_set cmd_meta total_items"),
        ("ma none N0 MD\n", "cmd_set cmd_meta total_items"),
        ("ma n N0\n", "cmd_meta incr_hits"),
        ("ma n C9\n", "cmd_meta"),
        ("ma t\n", "cmd_meta"),
    ]);
}

#[test]
fn removals() {
    assert_counts(&[
        ("delete n\n", "delete_hits"),
        ("delete n noreply\n", "delete_hits"),
        ("delete none\n", "delete_misses"),
        ("delete gone\n", "delete_misses"),
        ("md n\n", "cmd_meta delete_hits"),
        ("md n C1 q\n", "cmd_meta delete_hits"),
        ("md n C9\n", "cmd_meta"),
        ("md none\n", "cmd_meta delete_misses"),
        ("md n I\n", "cmd_meta"),
        ("md none I\n", "cmd_meta delete_misses"),
        ("flush_all\n", "cmd_flush"),
        ("flush_all 100\n", "cmd_flush"),
        ("flush_all noreply\n", "cmd_flush"),
    ]);
}

#[test]
fn lines_that_do_nothing() {
    for text in
        ["stats\n", "stats settings\n", "stats x\n", "version\n", "verbosity 1\n", "mn\n", "x\n", "get\n", "mg\n", "mg n !\n"]
    {
        assert_eq!(counted(&mut client(), text), "", "{text}");
    }
    for text in
        ["set n 0 0 1\n66\n", "set n x 0 1\n", "ms n 1 MX\n6\n", "incr n x\n", "touch n x\n", "delete n x\n", "flush_all x\n"]
    {
        assert_eq!(counted(&mut client(), text), "", "{text}");
    }
}

#[test]
fn values_that_are_too_long() {
    let long = "x".repeat(1025);
    for verb in ["set", "add", "replace", "append", "prepend"] {
        assert_eq!(counted(&mut client(), &format!("{verb} n 0 0 1025\n{long}\n")), "store_too_large", "{verb}");
    }
    assert_eq!(counted(&mut client(), &format!("ms n 1025\n{long}\n")), "store_too_large");
    assert_eq!(counted(&mut client(), &format!("append n 0 0 1024\n{}\n", &long[1..])), "cmd_set store_too_large");
}

/// The same, where the index refuses what these flags say.
fn assert_counts_of_refused(flags: fn(&Client) -> Vec<&AtomicBool>, table: &[(&str, &str)]) {
    for (text, counts) in table {
        let mut client = client();
        flags(&client).iter().for_each(|flag| flag.store(true, SeqCst));
        assert_eq!(counted(&mut client, text), *counts, "{text}");
    }
}

#[test]
fn commands_that_find_no_place() {
    assert_counts_of_refused(
        |client| vec![&client.control.refuses_puts],
        &[
            ("set n 0 0 1\n6\n", "cmd_set store_no_memory refused"),
            ("add none 0 0 1\n6\n", "cmd_set store_no_memory refused"),
            ("cas n 0 0 1 1\n6\n", "cmd_set store_no_memory refused"),
            ("ms n 1\n6\n", "cmd_set cmd_meta store_no_memory refused"),
            ("incr n 1\n", "refused"),
            ("ma n\n", "cmd_meta refused"),
        ],
    );
}

#[test]
fn commands_that_could_not_remove_a_value() {
    assert_counts_of_refused(
        |client| vec![&client.control.refuses_removals],
        &[("delete n\n", "held"), ("md n\n", "cmd_meta held"), ("set n 0 0 2000\n\n", "store_too_large held")],
    );
    assert_counts_of_refused(
        |client| vec![&client.control.refuses_puts, &client.control.refuses_removals],
        &[("set n 0 0 1\n6\n", "cmd_set store_no_memory held refused")],
    );
}

#[test]
fn commands_that_were_disturbed() {
    assert_counts_of_refused(
        |client| vec![&client.control.refuses_looks],
        &[
            ("get n none\n", "2*cmd_get 2*get_misses 2*busy"),
            ("gat 0 n\n", "cmd_get cmd_touch get_misses touch_misses busy"),
            ("mg n\n", "cmd_get cmd_meta get_misses busy"),
            ("touch n 0\n", "cmd_touch busy"),
            ("add none 0 0 1\n6\n", "cmd_set busy"),
            ("append n 0 0 1\n6\n", "cmd_set busy"),
            ("cas n 0 0 1 1\n6\n", "cmd_set busy"),
            ("incr n 1\n", "busy"),
            ("ma n\n", "cmd_meta busy"),
            ("delete n\n", "busy"),
            ("md n\n", "cmd_meta busy"),
        ],
    );
}
