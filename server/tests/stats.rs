//! What `stats` counts.
mod plain;
use cefrodild::budget::cost;
use cefrodild::clock::unix_time;
use cefrodild::counts::{take_place, Count, Counts};
use plain::client::{Client, MEGABYTE};
use std::process;
use std::sync::atomic::Ordering::SeqCst;
use std::thread;
use std::time::{Duration, Instant};

/// The values of these names in what `stats` answers, with this word behind it.
fn stats(client: &mut Client, what: &str, names: &str) -> String {
    let answer = client.ask(&format!("stats {what}\n"));
    assert!(answer.ends_with("END\n"), "{answer}");
    let value = |name: &str| answer.lines().find_map(|line| line.strip_prefix(&format!("STAT {name} "))).expect(name).to_owned();
    names.split(' ').map(value).collect::<Vec<_>>().join(" ")
}

#[test]
fn keys_that_are_left_for_later_are_not_counted_before() {
    let mut client = Client::new(2 * MEGABYTE);
    client.ask(&format!("set k 0 0 {MEGABYTE}\n{}\nget k k k x\n", "x".repeat(MEGABYTE)));
    assert_eq!(stats(&mut client, "", "cmd_get get_hits get_misses"), "4 3 1");
}

#[test]
fn for_how_long_calls_have_given_up() {
    let mut client = Client::new(MEGABYTE);
    assert_eq!(stats(&mut client, "", "stalled_seconds"), "0");
    client.control.stalled.store(7, SeqCst);
    assert_eq!(stats(&mut client, "", "stalled_seconds"), "7");
}

#[test]
fn memory() {
    let mut client = Client::new(2 * cost(1, 10) as usize);
    client.ask("set a 0 0 10\n1234567890\n");
    assert_eq!(stats(&mut client, "", "bytes curr_items evictions"), format!("{} 1 0", cost(1, 10)));
    client.ask("set b 0 0 10\n1234567890\nset c 0 0 10\n1234567890\n");
    assert_eq!(stats(&mut client, "", "bytes curr_items evictions"), format!("{} 2 1", 2 * cost(1, 10)));
    client.ask(&format!("set d 0 0 2000000\n{}\nset d 0 0 1000\n{}\n", "x".repeat(2_000_000), "x".repeat(1_000)));
    assert_eq!(stats(&mut client, "", "store_too_large store_no_memory curr_items"), "1 1 2");
}

/// The names in what `stats` answers, with this word behind it.
fn names(client: &mut Client, what: &str) -> Vec<String> {
    let answer = client.ask(&format!("stats {what}\n"));
    let lines = answer.strip_suffix("END\n").expect("an end").lines();
    let mut names: Vec<_> = lines.map(|line| line.split(' ').nth(1).expect("a name").to_owned()).collect();
    names.sort();
    names
}

#[test]
fn each_name_is_told_once() {
    let mut client = Client::new(MEGABYTE);
    let mut expected: Vec<_> = "pid uptime time version cefrodild pointer_size max_connections curr_connections threads evictions bytes curr_items \
        limit_maxbytes cmd_get cmd_set cmd_flush cmd_touch cmd_meta get_hits get_misses get_expired get_flushed delete_misses delete_hits incr_misses incr_hits \
        decr_misses decr_hits cas_misses cas_hits cas_badval touch_hits touch_misses store_too_large store_no_memory total_items auth_cmds auth_errors busy held \
        refused crawler_reclaimed connections_out_of_memory idle_kicks buffer_bytes bytes_limit bytes_waiting bytes_read bytes_written total_connections rejected_connections \
        stalled_seconds rusage_user rusage_system accepting_conns listen_disabled_num connection_structures \
        evicted_unfetched reclaimed expired_unfetched"
        .split_whitespace()
        .collect();
    expected.sort_unstable();
    assert_eq!(names(&mut client, ""), expected);
    let expected = "cas_enabled evictions idle_timeout item_size_max maxbytes maxconns num_threads udpport verbosity";
    assert_eq!(names(&mut client, "settings").join(" "), expected);
}

#[test]
fn what_was_asked_for() {
    let mut client = Client::new(MEGABYTE);
    assert_eq!(stats(&mut client, "", "threads max_connections limit_maxbytes curr_connections"), "1 1024 67108864 0");
    assert_eq!(stats(&mut client, "settings", "maxbytes maxconns item_size_max num_threads"), "67108864 1024 1048576 1");
    let mut client = Client::with(MEGABYTE, "-m 32 -c 7 -t 3 -I 2k");
    assert_eq!(stats(&mut client, "", "threads max_connections limit_maxbytes"), "3 7 33554432");
    assert_eq!(stats(&mut client, "settings", "maxbytes maxconns item_size_max num_threads"), "33554432 7 2048 3");
    assert_eq!(stats(&mut client, "settings", "evictions cas_enabled udpport verbosity idle_timeout"), "on yes 0 0 0");
    let mut client = Client::with(MEGABYTE, "-vv -o idle_timeout=7");
    assert_eq!(stats(&mut client, "settings", "verbosity idle_timeout"), "2 7");
}

#[test]
fn the_process_and_its_time() {
    let mut client = Client::new(MEGABYTE);
    let before = unix_time();
    let answer = stats(&mut client, "", "time");
    assert!((before..=unix_time()).contains(&answer.parse().expect("a number")), "{answer}");
    let version = client.ask("version\n").trim_end().replace("VERSION ", "");
    assert_eq!(stats(&mut client, "", "pid version pointer_size"), format!("{} {version} {}", process::id(), usize::BITS));
    let (before, answer, after) =
        (client.store.books.clock.uptime(), stats(&mut client, "", "uptime"), client.store.books.clock.uptime());
    assert!((before..=after).contains(&answer.parse().expect("a number")), "{answer}");
}

#[test]
fn seats_that_are_taken() {
    let mut client = Client::new(MEGABYTE);
    let seats: Vec<_> = (0..3).map(|_| client.store.seats.take(0).expect("it is free")).collect();
    assert_eq!(stats(&mut client, "", "curr_connections connection_structures accepting_conns listen_disabled_num"), "3 3 1 0");
    drop(seats);
    assert_eq!(stats(&mut client, "", "curr_connections connection_structures accepting_conns listen_disabled_num"), "0 0 1 0");
}

#[test]
fn a_word_that_stats_does_not_know() {
    assert_eq!(Client::new(MEGABYTE).ask("stats x\nstats detail\n"), "ERROR\n".repeat(2));
}

#[test]
fn what_clients_ask_for_and_there_is_none_of() {
    let mut client = Client::new(MEGABYTE);
    assert_eq!(client.ask("stats items\nstats conns\n"), "END\nEND\n");
    assert_eq!(client.ask("stats slabs\n"), "STAT active_slabs 0\nSTAT total_malloced 0\nEND\n");
    assert_eq!(client.ask("stats sizes\n"), "STAT sizes_status disabled\nEND\n");
}

/// All items are of one class. What memcached-tool shows of it must be there.
#[test]
fn the_class_of_all_items() {
    let mut client = Client::new(2 * MEGABYTE);
    client.ask("set a 0 0 1\n1\nset b 0 0 3\n123\nget a b c\ndelete b\nset b 0 0 3\n123\n");
    let used = cost(1, 1) + cost(1, 3);
    let items = "items:1:number items:1:age items:1:mem_requested items:1:evicted items:1:evicted_time items:1:outofmemory";
    assert_eq!(stats(&mut client, "items", items), format!("2 0 {used} 0 0 0"));
    let slabs = "1:chunk_size 1:total_pages 1:used_chunks 1:get_hits 1:cmd_set 1:delete_hits active_slabs total_malloced";
    assert_eq!(stats(&mut client, "slabs", slabs), format!("{} 1 2 2 3 1 1 {used}", used / 2));
    assert_eq!(stats(&mut client, "slabs", "1:total_chunks"), (2 + (2 * MEGABYTE as u64 - used) / (used / 2)).to_string());
}

/// Each count of the class is that of the server, though it may have another name there.
#[test]
fn the_counts_of_the_class() {
    use Count::*;
    let mut client = Client::new(MEGABYTE);
    client.ask("set a 0 0 1\n1\n");
    let of_items = [Evicted, NoMemory, TooLarge, Reclaimed, ExpiredUnfetched, EvictedUnfetched, Expired];
    let of_slabs = [GetHits, Sets, DeleteHits, IncrHits, DecrHits, CasHits, CasBadValue, CasMisses, TouchHits];
    of_items.into_iter().chain(of_slabs).zip(100..).for_each(|(count, number)| client.store.books.counts.add_many(count, number));
    for (what, class, names) in [
        (
            "items",
            "items:1",
            "evicted=evictions outofmemory=store_no_memory reclaimed expired_unfetched evicted_unfetched crawler_reclaimed",
        ),
        ("slabs", "1", "get_hits cmd_set delete_hits incr_hits decr_hits cas_hits cas_badval touch_hits"),
    ] {
        for name in names.split(' ') {
            let (own, general) = name.split_once('=').unwrap_or((name, name));
            assert_eq!(stats(&mut client, what, &format!("{class}:{own}")), stats(&mut client, "", general), "{name}");
        }
    }
}

#[test]
fn the_age_of_the_oldest_item() {
    let mut client = Client::new(MEGABYTE);
    client.ask("set a 0 0 1\n1\n");
    thread::sleep(Duration::from_millis(1_100));
    client.ask("set b 0 0 1\n1\n");
    client.expire();
    let age: u64 = stats(&mut client, "items", "items:1:age").parse().expect("a number");
    assert!((1..10).contains(&age), "{age}");
}

#[test]
fn how_long_it_has_run() {
    let mut client = Client::new(MEGABYTE);
    let mut times = || {
        let text = stats(&mut client, "", "rusage_user rusage_system");
        text.split(' ').map(|time| time.parse::<f64>().expect("a number")).sum::<f64>()
    };
    let before = times();
    let began = Instant::now();
    while times() < before + 0.05 {
        assert!(began.elapsed() < Duration::from_secs(20), "it runs all the time");
    }
}

#[test]
fn items_that_went_by_themselves() {
    const NAMES: &str = "evictions evicted_unfetched reclaimed expired_unfetched crawler_reclaimed";
    let mut client = Client::new(2 * cost(1, 10) as usize);
    client.ask("set a 0 0 10\n1234567890\nset b 0 0 10\n1234567890\nget b\nset c 0 0 10\n1234567890\n");
    assert_eq!(stats(&mut client, "", NAMES), "1 1 0 0 0", "a was never read");
    client.ask("get c\nset d 0 0 10\n1234567890\n");
    assert_eq!(stats(&mut client, "", NAMES), "2 1 0 0 0", "b was read");
    client.ask("stats reset\n");
    assert_eq!(stats(&mut client, "", NAMES), "0 0 0 0 0");
}

#[test]
fn expired_items_that_gave_way_were_not_evicted() {
    const NAMES: &str = "evictions evicted_unfetched reclaimed expired_unfetched crawler_reclaimed";
    let mut client = Client::new(2 * cost(1, 10) as usize);
    client.ask("set a 0 -1 10\n1234567890\nset b 0 0 10\n1234567890\nset c 0 0 10\n1234567890\n");
    assert_eq!(stats(&mut client, "", NAMES), "0 0 1 1 0");
    let mut client = Client::new(MEGABYTE);
    client.ask("set a 0 -1 1\n1\nset b 0 100 1\n1\nget b\ntouch b -1\nset c 0 0 1\n1\n");
    client.expire();
    assert_eq!(stats(&mut client, "", NAMES), "0 0 0 1 2", "b was read once");
}

#[test]
fn a_reset_keeps_what_is_there() {
    let mut client = Client::new(MEGABYTE);
    assert_eq!(client.ask("set a 0 0 1\n1\nget a b\nstats reset\n").lines().last(), Some("RESET"));
    assert_eq!(stats(&mut client, "", "cmd_get get_hits get_misses cmd_set curr_items"), "0 0 0 0 1");
    assert!(client.store.books.counts.sums().all(|(_, sum)| sum == 0));
}

#[test]
fn the_counts_of_all_threads() {
    let counts = Counts::new(3);
    let sum = || counts.sums().find(|(name, _)| *name == "cmd_get").map(|(_, sum)| sum);
    let count = |place: Option<usize>| {
        place.into_iter().for_each(take_place);
        (0..1_000).for_each(|_| counts.add_many(Count::Gets, 10));
    };
    let places = [Some(0), Some(1), Some(2), Some(3), None, None];
    thread::scope(|threads| places.into_iter().for_each(|place| drop(threads.spawn(move || count(place)))));
    assert_eq!(sum(), Some(60_000));
    counts.reset();
    assert_eq!(sum(), Some(0));
    count(Some(1));
    assert_eq!(sum(), Some(10_000));
}
