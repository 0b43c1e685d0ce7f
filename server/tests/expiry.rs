//! Times to live and delays, of each command that takes one.
mod plain;
use cefrodild::clock::unix_time;
use cefrodild::counts::Count;
use cefrodild::expire::LOOKED_AT;
use plain::client::{Client, MEGABYTE};
use std::sync::atomic::Ordering::SeqCst;
use std::thread::sleep;
use std::time::{Duration, Instant};

/// Each gives `k` this time to live, or makes it with that.
const COMMANDS: [&str; 16] = [
    "set k 0 TIME 1\n5\n",
    "replace k 0 TIME 1\n5\n",
    "cas k 0 TIME 1 1\n5\n",
    "delete k\nadd k 0 TIME 1\n5\n",
    "touch k TIME\n",
    "gat TIME k\n",
    "gats TIME k\n",
    "ms k 1 TTIME\n5\n",
    "ms k 1 MR TTIME\n5\n",
    "mg k TTIME\n",
    "delete k\nmg k NTIME\n",
    "delete k\nmg k N50 TTIME\n",
    "ma k TTIME\n",
    "delete k\nma k NTIME\n",
    "delete k\nma k T0 NTIME\n",
    "delete k\nma k N0 TTIME\n",
];

/// What `t` says of `k` after this command. It had no time to live before.
fn left(command: &str, time: &str) -> String {
    let mut client = Client::new(MEGABYTE);
    client.ask("set k 0 0 1\n5\n");
    assert!(!client.ask(&command.replace("TIME", time)).contains("ERROR"), "{command} {time}");
    // The client that made an item with `N` is to fetch its value, and others are told that.
    client.ask("mg k t\n").replace(" Z", "")
}

/// Makes the claim of what takes less than a second. If the thread had to wait, it is made again.
fn within_a_second(claim: impl Fn() -> Result<(), String>) {
    loop {
        let (begun, made) = (Instant::now(), claim());
        if made.is_ok() || begun.elapsed() < Duration::from_millis(900) {
            return made.unwrap_or_else(|why| panic!("{why}"));
        }
    }
}

#[test]
fn each_time_of_each_command() {
    for (command, (time, expected)) in COMMANDS.iter().flat_map(|command| {
        [
            ("0", "HD t-1\n"),
            ("-1", "EN\n"),
            ("1", "HD t1\n"),
            ("100", "HD t100\n"),
            ("2592000", "HD t2592000\n"),
            ("2592001", "EN\n"),
        ]
        .map(|time| (command, time))
    }) {
        within_a_second(|| {
            let left = left(command, time);
            (left == expected).then_some(()).ok_or(format!("{command} {time}: {left}"))
        });
    }
}

#[test]
fn a_time_of_day_of_each_command() {
    for command in COMMANDS {
        let before = unix_time();
        let left = left(command, &(before + 1000).to_string());
        let least = 1000 - (unix_time() - before) as i64 - 1;
        let seconds: i64 = left.trim_end().strip_prefix("HD t").expect(&left).parse().expect("a number");
        assert!((least..=1000).contains(&seconds), "{command}: {left}");
    }
}

#[test]
fn what_keeps_its_time_to_live() {
    for command in [
        "append k 0 50 1\n5\n",
        "prepend k 0 50 1\n5\n",
        "ms k 1 MA T50\n5\n",
        "incr k 1\n",
        "decr k 1\n",
        "ma k N50\n",
        "get k\n",
    ] {
        within_a_second(|| {
            let mut client = Client::new(MEGABYTE);
            let left = client.ask(&format!("set k 0 100 1\n5\n{command}mg k t\n"));
            left.ends_with("HD t100\n").then_some(()).ok_or(format!("{command}: {left}"))
        });
    }
}

#[test]
fn the_answer_has_the_new_time_to_live() {
    for (command, expected) in [
        ("mg k T100 t\n", "HD t100\n"),
        ("ma k T100 t\n", "HD t100\n"),
        ("mg k t\n", "HD t-1\n"),
        ("ma k t\n", "HD t-1\n"),
        ("ma none N100 t\n", "HD t100\n"),
        ("ma none N100 T50 t\n", "HD t50\n"),
        ("ma none T50 N100 t\n", "HD t100\n"),
        ("ma none T50 N0 t\n", "HD t-1\n"),
        ("ma k N50 t\n", "HD t-1\n"),
    ] {
        within_a_second(|| {
            let mut client = Client::new(MEGABYTE);
            client.ask("set k 0 0 1\n5\n");
            let answer = client.ask(command);
            (answer == expected).then_some(()).ok_or(format!("{command}: {answer}"))
        });
    }
}

#[test]
fn the_delay_of_a_flush() {
    for (delay, expected) in [
        ("", "EN\n"),
        (" 0", "EN\n"),
        (" -1", "EN\n"),
        (" 1", "HD\n"),
        (" 100", "HD\n"),
        (" 2592000", "HD\n"),
        (" 2592001", "EN\n"),
    ] {
        within_a_second(|| {
            let mut client = Client::new(MEGABYTE);
            let answer = client.ask(&format!("set k 0 0 1\n5\nflush_all{delay}\nmg k\n"));
            (answer == format!("STORED\nOK\n{expected}")).then_some(()).ok_or(format!("flush_all{delay}: {answer}"))
        });
    }
}

#[test]
fn what_is_stored_after_a_flush_is_not_hit_by_it() {
    for delay in ["", " 0", " -1", " 2592001"] {
        let mut client = Client::new(MEGABYTE);
        assert_eq!(client.ask(&format!("flush_all{delay}\nset k 0 0 1\n5\nmg k\n")), "OK\nSTORED\nHD\n", "{delay}");
    }
}

#[test]
fn commands_do_not_see_what_has_expired() {
    for (command, expected) in [
        ("get k\n", "END\n"),
        ("gat 0 k\n", "END\n"),
        ("add k 0 0 1\n6\n", "STORED\n"),
        ("replace k 0 0 1\n6\n", "NOT_STORED\n"),
        ("append k 0 0 1\n6\n", "NOT_STORED\n"),
        ("prepend k 0 0 1\n6\n", "NOT_STORED\n"),
        ("cas k 0 0 1 1\n6\n", "NOT_FOUND\n"),
        ("incr k 1\n", "NOT_FOUND\n"),
        ("touch k 0\n", "NOT_FOUND\n"),
        ("delete k\n", "NOT_FOUND\n"),
        ("mg k\n", "EN\n"),
        ("mg k T0\n", "EN\n"),
        ("md k\n", "NF\n"),
        ("md k C1\n", "NF\n"),
        ("ma k\n", "NF\n"),
        ("ma k N0 J7 v\n", "VA 1\n7\n"),
        ("ms k 1 MA\n6\n", "NS\n"),
        ("ms k 1 ME\n6\n", "HD\n"),
        ("ms k 1 C1\n6\n", "NF\n"),
    ] {
        for end in ["touch k -1\n", "flush_all\n"] {
            let mut client = Client::new(MEGABYTE);
            client.ask(&format!("set k 0 0 1\n5\n{end}"));
            assert_eq!(client.ask(command), expected, "{command}");
        }
    }
}

#[test]
fn items_that_are_dead_go_though_nobody_asks() {
    let mut client = Client::new(MEGABYTE);
    client.ask("set a 0 -1 1\n1\nset b 0 0 1\n1\nset c 0 -1 1\n1\nset d 0 100 1\n1\n");
    let store = client.store.clone();
    assert_eq!(store.index.len(), 4);
    client.expire();
    assert_eq!((store.index.len(), store.books.counts.get(Count::Evicted)), (2, 0));
    assert_eq!(client.ask("get a b c d\n"), "VALUE b 0 1\n1\nVALUE d 0 1\n1\nEND\n");
    let reclaimed = store.books.counts.sums().find(|(name, _)| *name == "crawler_reclaimed");
    assert_eq!(reclaimed, Some(("crawler_reclaimed", 2)));
    client.ask("flush_all\n");
    client.expire();
    assert_eq!((store.index.len(), store.books.budget.used()), (0, 0));
}

#[test]
fn a_look_for_dead_items_is_bounded_and_the_next_one_goes_on() {
    let mut client = Client::new(8 * MEGABYTE);
    // It looks at whole chunks.
    (0..2 * LOOKED_AT).for_each(|key| assert_eq!(client.ask(&format!("set {key} 0 -1 0\n\n")), "STORED\n"));
    client.store.expire();
    assert!(client.store.index.len() > LOOKED_AT / 2);
    client.expire();
    assert_eq!(client.store.index.len(), 0);
}

/// The item is found dead, and gets a new value before it is removed.
#[test]
fn a_new_value_is_not_taken_for_the_dead_one() {
    let mut client = Client::new(MEGABYTE);
    client.ask("set a 0 -1 1\n1\n");
    let mut other = client.beside();
    *client.control.meanwhile.lock().unwrap() = Some(Box::new(move || assert_eq!(other.ask("set a 0 0 1\n2\n"), "STORED\n")));
    client.expire();
    assert!(client.control.meanwhile.lock().unwrap().is_none(), "it is about to be removed");
    assert_eq!(client.ask("get a\n"), "VALUE a 0 1\n2\nEND\n");
}

/// The seconds since the key was used, as `me` shows them.
fn idle(client: &mut Client, key: &str) -> u64 {
    let answer = client.ask(&format!("me {key}\n"));
    answer.split(' ').find_map(|word| word.strip_prefix("la=")).and_then(|seconds| seconds.parse().ok()).expect(&answer)
}

#[test]
fn what_counts_as_a_use_of_an_item() {
    let mut client = Client::over_map(MEGABYTE, "-t1");
    let uses = [
        ("get a\n", "a", true),
        ("gat 0 b\n", "b", true),
        ("mg c l\n", "c", true),
        ("touch d 0\n", "d", true),
        ("incr e 1\n", "e", true),
    ];
    let others = [
        ("me f\nmg f u l\n", "f", false),
        ("md g I\n", "g", false),
        ("lru_crawler metadump all\n", "h", false),
        ("add i 0 0 1\n5\n", "i", false),
    ];
    "abcdefghi".chars().for_each(|key| drop(client.ask(&format!("set {key} 0 0 1\n5\n"))));
    sleep(Duration::from_millis(2100));
    for (command, key, is_use) in uses.into_iter().chain(others) {
        assert!(idle(&mut client, key) >= 2, "{command}");
        within_a_second(|| {
            let mut client = client.beside();
            client.ask(command);
            let idle = idle(&mut client, key);
            ((idle < 2) == is_use).then_some(()).ok_or(format!("{command}: {idle}"))
        });
    }
    let answer = client.ask("mg h l\n");
    let told: u64 = answer.trim_end().strip_prefix("HD l").and_then(|seconds| seconds.parse().ok()).expect(&answer);
    assert!((2..60).contains(&told), "{answer}");
    let crawled = client.ask("lru_crawler metadump all\n");
    let used = |key: &str| -> u64 {
        crawled
            .lines()
            .find_map(|line| line.strip_prefix(&format!("key={key} exp=-1 la=")))
            .and_then(|rest| rest.split(' ').next()?.parse().ok())
            .expect(&crawled)
    };
    assert!(used("h") > used("f") + 1 && used("h") <= unix_time(), "{crawled}");
}

#[test]
fn a_look_ends_when_others_keep_a_removal_waiting() {
    let mut client = Client::new(MEGABYTE);
    // Their sizes differ, so each is in a chunk of its own.
    for key in 0..10 {
        let length = 100 << key;
        assert_eq!(client.ask(&format!("set {key} 0 -1 {length}\n{}\n", "x".repeat(length))), "STORED\n");
    }
    client.control.removals_to_refuse.store(1_000, SeqCst);
    client.store.expire();
    assert_eq!((client.control.removals_to_refuse.swap(0, SeqCst), client.store.index.len()), (999, 10));
    client.expire();
    assert_eq!(client.store.index.len(), 0);
}

/// Dead keys of another lock go meanwhile.
#[test]
fn a_look_goes_on_behind_a_key_that_is_locked() {
    let mut client = Client::new(MEGABYTE);
    let index = client.store.clone();
    let lock = |key: &str| index.index.hash_of(key.as_bytes()) % 64;
    let keys = |is_locked: bool| (0..).map(|key| format!("k{key}")).filter(move |key| (lock(key) == lock("k")) == is_locked);
    let (locked, others): (Vec<_>, Vec<_>) = keys(true).zip(keys(false)).take(20).unzip();
    // Their sizes differ, so each two are in a chunk of their own.
    for (number, (locked, other)) in locked.iter().zip(&others).enumerate() {
        let (length, value) = (40 * (number + 1), "x".repeat(40 * (number + 1)));
        let set = |key: &str| format!("set {key} 0 -1 {length}\n{value}\n");
        assert_eq!(client.ask(&(set(locked) + &set(other))), "STORED\nSTORED\n");
    }
    client.ask("set k 0 -1 1\n5\n");
    let added = client.ask_beside("add k 0 0 1\n6\n", |other| {
        // There may be items of other tests.
        (0..10).for_each(|_| other.store.expire());
        assert_eq!(other.store.index.len(), 21);
    });
    assert_eq!(added, "STORED\n");
    client.expire();
    assert_eq!(client.ask("get k\n"), "VALUE k 0 1\n6\nEND\n");
    assert_eq!(client.store.index.len(), 1);
}
