//! Which items give way, by commands over the index of the server.
mod plain;
use cefrodild::budget::cost;
use cefrodild::counts::Count;
use plain::client::Client;
use std::ops::Range;

/// So many items have room.
const ITEMS: usize = 60;

/// Keys of scans begin here.
const SCANNED: usize = 1_000;

/// Popular keys.
fn popular() -> Range<usize> {
    0..15
}

/// The index has one shard, and room for more items than the memory.
fn client() -> Client {
    Client::over_map(ITEMS * cost(4, 1) as usize, "-t1 -n120")
}

/// Stores a value of one byte.
fn set(client: &mut Client, key: usize) {
    assert_eq!(client.ask(&format!("set {key:04} 0 0 1\n5\n")), "STORED\n");
}

/// Whether the key is there. This is a use of it.
fn has(client: &mut Client, key: usize) -> bool {
    client.ask(&format!("get {key:04}\n")) != "END\n"
}

/// Stores so many new keys, as a scan does. No two scans of a test have the same ones.
fn scan(client: &mut Client, first: &mut usize, count: usize) {
    (*first..*first + count).for_each(|key| set(client, key));
    *first += count;
}

/// A full store, in which the popular keys were read.
fn full(client: &mut Client, first: &mut usize) {
    popular().for_each(|key| set(client, key));
    assert!(popular().all(|key| has(client, key)));
    scan(client, first, 2 * ITEMS);
    assert_eq!(client.store.index.len(), ITEMS);
}

#[test]
fn scans_evict_no_key_that_is_read_between() {
    let (mut client, mut first) = (client(), SCANNED);
    full(&mut client, &mut first);
    for _ in 0..4 {
        scan(&mut client, &mut first, 5 * ITEMS / 2);
        assert_eq!(there(&mut client, popular()), popular().len());
    }
    assert_eq!(client.store.index.len(), ITEMS, "it stays full");
}

/// How many of these keys are there.
fn there(client: &mut Client, keys: Range<usize>) -> usize {
    keys.filter(|key| has(client, *key)).count()
}

/// The index remembers a key unless a later one has its place, and seldom takes one for another. So this is right of many keys, and not of each.
#[test]
fn most_keys_that_come_back_are_kept_and_those_that_do_not_are_evicted() {
    let (mut kept, mut others) = (0, 0);
    for _ in 0..20 {
        let (mut client, mut first) = (client(), SCANNED);
        full(&mut client, &mut first);
        (300..320).for_each(|key| set(&mut client, key));
        scan(&mut client, &mut first, ITEMS);
        others += there(&mut client, 300..320);
        (300..340).for_each(|key| set(&mut client, key));
        scan(&mut client, &mut first, ITEMS);
        kept += there(&mut client, 300..320);
        others += there(&mut client, 320..340);
    }
    assert!(kept > 100 && others < 20, "of 400 keys {kept} are kept, and of 800 others {others}");
}

/// Commands that use the key 0007.
const USES: [&str; 11] = [
    "get 0007\n",
    "touch 0007 100\n",
    "gat 100 0007\n",
    "mg 0007 T100\n",
    "set 0007 0 0 1\n6\n",
    "replace 0007 0 0 1\n6\n",
    "append 0007 0 0 0\n\n",
    "prepend 0007 0 0 0\n\n",
    "incr 0007 1\n",
    "ma 0007\n",
    "ms 0007 1\n6\n",
];

#[test]
fn a_new_key_that_is_used_is_kept() {
    for command in USES {
        let (mut client, mut first) = (client(), SCANNED);
        full(&mut client, &mut first);
        (306..308).for_each(|key| set(&mut client, key));
        client.ask(&command.replace("0007", "0307"));
        scan(&mut client, &mut first, 2 * ITEMS);
        assert!(has(&mut client, 307) && !has(&mut client, 306), "{command}");
    }
}

#[test]
fn an_item_gives_way_though_all_were_read() {
    let mut client = Client::over_map(1_500 * cost(4, 1) as usize, "-t1 -n3000");
    for key in 1_000..2_500 {
        assert_eq!(client.ask(&format!("set {key} 0 0 1\n5\nmg {key}\n")), "STORED\nHD\n");
    }
    assert_eq!(client.ask("set last 0 0 1\n5\n"), "STORED\n");
    assert_eq!((client.store.books.counts.get(Count::Evicted), client.store.index.len()), (1, 1_500));
}

#[test]
fn a_value_that_was_changed_does_not_give_way_to_itself() {
    let (mut client, mut first) = (Client::over_map(500_000, "-t1 -n10000"), SCANNED);
    for (command, length) in [("append", 50_000), ("prepend", 20_000), ("append", 70_000)] {
        scan(&mut client, &mut first, 12_000);
        client.ask(&format!("set main 0 0 1\nx\n{command} main 0 0 {length}\n{}\n", "x".repeat(length)));
        assert_eq!(client.ask("mg main s\n"), format!("HD s{}\n", length + 1));
        assert!(client.store.books.budget.used() <= 500_000);
    }
}
