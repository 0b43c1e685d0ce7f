//! Lists of items, by `stats cachedump` and `lru_crawler metadump`.
mod plain;
use cefrodild::clock::unix_time;
use plain::both::Both;
use plain::client::{Client, MEGABYTE};

/// The lines of a list, in the order of their keys.
fn list(client: &mut Client, command: &str) -> Vec<String> {
    let answer = client.ask(&format!("{command}\n"));
    let mut lines: Vec<_> = answer.strip_suffix("END\n").expect(&answer).lines().map(str::to_owned).collect();
    lines.sort_unstable();
    lines
}

#[test]
fn each_item_is_listed_once() {
    let mut client = Client::new(MEGABYTE);
    assert_eq!(list(&mut client, "stats cachedump 1 0"), [""; 0]);
    client.ask("set a 0 0 1\n1\nset b 7 0 0\n\nset c 0 0 3\n123\nset a 0 0 2\n12\ndelete c\nget a b\n");
    client.ask("delete b\nset b 7 0 0\n\n");
    assert_eq!(list(&mut client, "stats cachedump 1 0"), ["ITEM a [2 b; 0 s]", "ITEM b [0 b; 0 s]"]);
    assert_eq!(list(&mut client, "stats cachedump 1 0 more"), ["ITEM a [2 b; 0 s]", "ITEM b [0 b; 0 s]"]);
    assert_eq!(list(&mut client, "stats cachedump 1 1").len(), 1);
    assert_eq!(list(&mut client, "stats cachedump 1 2").len(), 2);
    for class in [0, 2, 63] {
        assert_eq!(list(&mut client, &format!("stats cachedump {class} 0")), [""; 0]);
    }
}

#[test]
fn items_of_all_sizes_are_listed() {
    let (mut client, sizes) = (Client::new(8 * MEGABYTE), [0, 10, 900, 1_000, 20_000, 1_000_000]);
    for size in sizes {
        assert_eq!(client.ask(&format!("set {size:07} 0 0 {size}\n{}\n", "x".repeat(size))), "STORED\n");
    }
    assert_eq!(list(&mut client, "stats cachedump 1 0"), sizes.map(|size| format!("ITEM {size:07} [{size} b; 0 s]")));
    sizes.iter().for_each(|size| assert_eq!(client.ask(&format!("touch {size:07} -1\n")), "TOUCHED\n"));
    client.expire();
    assert_eq!(client.store.index.len(), 0);
}

#[test]
fn a_large_item_is_listed_where_another_one_has_left() {
    let (mut client, large) = (Client::new(MEGABYTE), "x".repeat(2_000));
    for key in ["a", "b", "c"] {
        client.ask(&format!("set {key} 0 0 2000\n{large}\n"));
        assert_eq!(list(&mut client, "stats cachedump 1 0"), [format!("ITEM {key} [2000 b; 0 s]")]);
        client.ask(&format!("delete {key}\n"));
    }
}

#[test]
fn all_large_items_are_listed() {
    let (mut client, large) = (Client::new(MEGABYTE), "x".repeat(2_000));
    (0..300).for_each(|key| drop(client.ask(&format!("set {key:03} 0 0 2000\n{large}\n"))));
    let lines = list(&mut client, "stats cachedump 1 0");
    assert!(lines.into_iter().eq((0..300).map(|key| format!("ITEM {key:03} [2000 b; 0 s]"))));
}

/// Another store of this process has items with the same keys.
#[test]
fn items_of_another_index_are_not_listed() {
    let (mut client, mut other) = (Client::new(MEGABYTE), Client::new(MEGABYTE));
    for one in [&mut client, &mut other] {
        one.ask(&format!("set a 0 0 1\n1\nset b 0 0 2000\n{}\n", "x".repeat(2_000)));
    }
    other.ask("set c 0 0 1\n1\n");
    assert_eq!(list(&mut client, "stats cachedump 1 0"), ["ITEM a [1 b; 0 s]", "ITEM b [2000 b; 0 s]"]);
}

#[test]
fn items_that_are_not_live_are_not_listed() {
    let mut client = Client::new(MEGABYTE);
    client.ask("set a 0 -1 1\n1\nset b 0 100 1\n1\n");
    let before = unix_time();
    let [line] = &list(&mut client, "stats cachedump 1 0")[..] else { panic!("one item is live") };
    let end =
        line.strip_prefix("ITEM b [1 b; ").and_then(|rest| rest.strip_suffix(" s]")).expect(line).parse::<u64>().expect(line);
    assert!((before + 99..=unix_time() + 101).contains(&end), "{line}");
    client.ask("flush_all\n");
    assert_eq!(list(&mut client, "stats cachedump 1 0"), [""; 0]);
}

/// It comes in parts, so that others have their turns meanwhile.
#[test]
fn a_long_list_is_whole() {
    const ITEMS: usize = 6_000;
    let mut client = Client::new(64 * MEGABYTE);
    let key = |number: usize| format!("{number:0200}");
    (0..ITEMS).for_each(|number| drop(client.ask(&format!("set {} 0 0 1\n1\n", key(number)))));
    let lines = list(&mut client, "stats cachedump 1 0");
    assert!(lines.into_iter().eq((0..ITEMS).map(|number| format!("ITEM {} [1 b; 0 s]", key(number)))));
    let lines = list(&mut client, "lru_crawler metadump all");
    assert!(lines.len() == ITEMS && lines[7].starts_with(&format!("key={} exp=-1 la=", key(7))), "{}", lines[7]);
    // So is that of a client whose connection goes on by itself, since nothing more comes.
    let answer = Both::of(&client.store).ask(&client.store, b"stats cachedump 1 0\r\n");
    assert!(answer.ends_with(b"END\r\n") && answer.split(|byte| *byte == b'\n').count() == ITEMS + 2, "{} bytes", answer.len());
}

/// All but the time of the last access, which is that when the item was stored here.
fn crawl(client: &mut Client, classes: &str) -> Vec<String> {
    let (before, lines) = (unix_time(), list(client, &format!("lru_crawler metadump {classes}")));
    let without_time = |line: String| {
        let (key, rest) = line.split_once(" la=").expect("a time");
        let (time, rest) = rest.split_once(' ').expect("more");
        assert!((before - 2..=unix_time()).contains(&time.parse().expect("a number")), "{line}");
        format!("{key} {rest}")
    };
    lines.into_iter().map(without_time).collect()
}

#[test]
fn a_crawler_s_list() {
    let mut client = Client::new(MEGABYTE);
    client.ask("set a 5 0 3\nabc\nset b%c 0 0 1\n1\nset gone 0 -1 1\n1\nset \u{e4}-._~ 0 0 1\n1\nget a\n");
    let size = |key: usize, value: usize| 30 + key + value;
    let all = [
        format!("key=%C3%A4-._~ exp=-1 cas=4 fetch=no cls=1 size={}", size(6, 1)),
        format!("key=a exp=-1 cas=1 fetch=yes cls=1 size={}", size(1, 3).max(32)),
        format!("key=b%25c exp=-1 cas=2 fetch=no cls=1 size={}", size(3, 1).max(32)),
    ];
    for classes in ["all", "hash", "1", "2,1", "1,2"] {
        assert_eq!(crawl(&mut client, classes), all, "{classes}");
    }
    assert_eq!(client.ask("lru_crawler metadump 2,63\n"), "END\n");
    client.ask("touch a 100\n");
    let (now, [_, line, _]) = (unix_time(), &crawl(&mut client, "all")[..]) else { panic!("three items are live") };
    let end: u64 = line.split(['=', ' ']).nth(3).and_then(|end| end.parse().ok()).expect(line);
    assert!((now + 98..=now + 101).contains(&end), "{line}");
    for classes in ["0", "64", "x", "1,", "1,x", "all,1"] {
        assert_eq!(client.ask(&format!("lru_crawler metadump {classes}\n")), "BADCLASS invalid class id\n", "{classes}");
    }
    assert_eq!(client.ask("lru_crawler metadump\nlru_crawler metadump all x\nlru_crawler tocrawl 1\n"), "ERROR\n".repeat(3));
}

#[test]
fn what_is_no_list() {
    for (words, answer) in [
        ("", "CLIENT_ERROR bad command line"),
        (" 1", "CLIENT_ERROR bad command line"),
        (" 64 0", "CLIENT_ERROR Illegal slab id"),
        (" x 0", "CLIENT_ERROR bad command line format"),
        (" 1 x", "CLIENT_ERROR bad command line format"),
    ] {
        assert_eq!(Client::new(MEGABYTE).ask(&format!("stats cachedump{words}\n")), format!("{answer}\n"), "{words}");
    }
}
