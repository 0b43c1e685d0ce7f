//! Values that are out of date: who is told to fetch them anew, and what the others get meanwhile.
mod plain;
use plain::client::{Client, MEGABYTE};
use std::sync::Barrier;
use std::thread;

/// Lines, one after the other, and what each is answered, over each index.
fn told(dialogue: &[(&str, &str)]) {
    for new in [Client::new, |memory| Client::over_map(memory, "-t1")] {
        let mut client = new(MEGABYTE);
        dialogue.iter().for_each(|(line, answer)| assert_eq!(client.ask(line), *answer, "{line}"));
    }
}

#[test]
fn the_client_that_misses_is_to_fetch_the_value() {
    told(&[
        ("mg k v N30\n", "VA 0 W\n\n"),
        ("mg k t v\n", "VA 0 t30 Z\n\n"),
        ("mg k v N30\n", "VA 0 Z\n\n"),
        ("ms k 1 T60\n5\n", "HD\n"),
        ("mg k v N30\n", "VA 1\n5\n"),
        ("md k q\nmg k q N30 k\n", "HD kk W\n"),
        ("md k q\nmg k q v\nmn\n", "MN\n"),
        ("mg k N0 s\n", "HD s0 W\n"),
        ("mg k t\n", "HD t-1 Z\n"),
        ("md k q\nmg k N0 T60 t\nmg k t\n", "HD t60 W\nHD t60 Z\n"),
    ]);
}

#[test]
fn one_client_is_told_before_a_value_ends() {
    told(&[
        ("ms k 1 T60\n5\n", "HD\n"),
        ("mg k R30 t\n", "HD t60\n"),
        ("mg k R60\n", "HD\n"),
        ("mg k R61 v\n", "VA 1 W\n5\n"),
        ("mg k R61 v\n", "VA 1 Z\n5\n"),
        ("mg k v\n", "VA 1 Z\n5\n"),
        ("ms k 1 T60\n6\n", "HD\n"),
        ("mg k v\n", "VA 1\n6\n"),
        ("ms k 1 T0\n6\n", "HD\n"),
        ("mg k R100 t\n", "HD t-1\n"),
    ]);
}

#[test]
fn a_stale_value_is_found_until_there_is_another() {
    told(&[
        ("md k I\n", "NF\n"),
        ("ms k 1 T60\n5\n", "HD\n"),
        ("md k I\n", "HD\n"),
        ("mg k v t\n", "VA 1 t60 X W\n5\n"),
        ("mg k v t\n", "VA 1 t60 Z X\n5\n"),
        ("md k I T20\n", "HD\n"),
        ("mg k v t\n", "VA 1 t20 X W\n5\n"),
        ("md k I q\nmn\n", "MN\n"),
        ("ms k 1\n6\n", "HD\n"),
        ("mg k v\n", "VA 1\n6\n"),
    ]);
}

#[test]
fn an_older_value_is_stored_as_stale() {
    for (mode, expected) in [("", "HD\n"), (" MS", "HD\n"), (" MR", "HD\n"), (" MA", "EX\n"), (" MP", "EX\n"), (" ME", "NS\n")] {
        let mut client = Client::new(MEGABYTE);
        client.ask("ms k 1\n1\nms k 1 T60\n5\n");
        let answer = client.ask(&format!("ms k 1 I C1 T90{mode}\n4\n"));
        assert_eq!(answer, expected, "{mode}");
        let found = client.ask("mg k v t\nmg k v t\n");
        if expected != "HD\n" {
            assert_eq!(found, "VA 1 t60\n5\nVA 1 t60\n5\n", "{mode}");
            continue;
        }
        // It has the time to live of the newer one. Who was told to fetch the value stays the only one.
        assert_eq!(found, "VA 1 t60 X W\n4\nVA 1 t60 Z X\n4\n", "{mode}");
        assert_eq!(client.ask(&format!("ms k 1 I C2{mode}\n3\nmg k v\n")), "HD\nVA 1 Z X\n3\n");
        assert_eq!(client.ask(&format!("ms k 1 I C999999{mode}\n2\nmg k v\n")), "EX\nVA 1 Z X\n3\n");
        // Four values were stored, so the last one has this token.
        assert_eq!(client.ask(&format!("ms k 1 I C4{mode}\n2\nmg k v\n")), "HD\nVA 1\n2\n");
    }
}

#[test]
fn a_first_hit_is_told() {
    told(&[
        ("ms k 1\n5\n", "HD\n"),
        ("mg k h\n", "HD h0\n"),
        ("mg k h\n", "HD h1\n"),
        ("ma k\n", "HD\n"),
        ("mg k h v\n", "VA 1 h0\n6\n"),
        ("append k 0 0 1\n1\nadd k 0 0 1\n1\n", "STORED\nNOT_STORED\n"),
        ("get none\nmg k h\n", "END\nHD h0\n"),
        ("gat 0 k\nmg k h\n", "VALUE k 0 2\n61\nEND\nHD h1\n"),
        ("ms k 1\n5\ntouch k 0\nmg k h\n", "HD\nTOUCHED\nHD h1\n"),
        ("ms k 1\n5\nmg k u h\nmg k u T60 h\nmg k h\nmg k u h\n", "HD\nHD h0\nHD h0\nHD h0\nHD h1\n"),
        // What becomes stale was hit as before.
        ("md k I\nmg k h\n", "HD\nHD h1 X W\n"),
        ("ms k 1\n5\nmd k I\nmg k h\nmg k h\n", "HD\nHD\nHD h0 X W\nHD h1 Z X\n"),
        ("md k q\nmg k N0 h\nmg k h\n", "HD h0 W\nHD h1 Z\n"),
        ("ms k 1 T60\n5\nmg k R90 h\nmg k R90 h\n", "HD\nHD h0 W\nHD h1 Z\n"),
    ]);
}

#[test]
fn of_many_clients_one_fetches_the_value() {
    const CLIENTS: usize = 4;
    let first = Client::over_map(MEGABYTE, &format!("-t{CLIENTS}"));
    // What comes before, what all ask, and what the first one and the others are told.
    let cases = [
        ("md k\n", "mg k N30\n", "HD W\n", "HD Z\n"),
        ("ms k 1 T30\n5\n", "mg k R60\n", "HD W\n", "HD Z\n"),
        ("ms k 1 T30\n5\nmd k I\n", "mg k\n", "HD X W\n", "HD Z X\n"),
    ];
    for (before, line, winner, other) in cases.iter().cycle().take(600) {
        first.beside().ask(before);
        let together = Barrier::new(CLIENTS);
        let ask = || {
            together.wait();
            first.beside().ask(line)
        };
        let answers = thread::scope(|threads| [(); CLIENTS].map(|()| threads.spawn(ask)).map(|client| client.join().unwrap()));
        let won = answers.iter().filter(|answer| *answer == winner).count();
        assert!(won == 1 && answers.iter().all(|answer| answer == winner || answer == other), "{line}: {answers:?}");
    }
}

/// Asks each line in a thread of its own, over this client's store. Returns the answers in that order.
fn together(first: &Client, lines: &[&str]) -> Vec<String> {
    let begin = Barrier::new(lines.len());
    let ask = |line| {
        begin.wait();
        first.beside().ask(line)
    };
    thread::scope(|threads| {
        let asking: Vec<_> = lines.iter().map(|line| threads.spawn(move || ask(line))).collect();
        asking.into_iter().map(|client| client.join().unwrap()).collect()
    })
}

#[test]
fn a_stale_value_that_comes_meanwhile_is_fetched_by_one_client() {
    let first = Client::over_map(MEGABYTE, "-t4");
    for before in ["ms k 1 T30\n5\n", "ms k 1 T30\n5\nmd k I\n"].iter().cycle().take(400) {
        first.beside().ask(before);
        let lines = ["ms k 1 C0 I\n6\n", "mg k R60\n", "ms k 1 C0 I\n7\n", "mg k R60\n"];
        let answers = together(&first, &lines);
        let won = answers.iter().filter(|answer| answer.ends_with(" W\n")).count();
        assert!(won == 1 && answers.iter().filter(|answer| answer.contains(" Z")).count() == 1, "{before}{answers:?}");
        assert_eq!(first.beside().ask("mg k\n"), "HD Z X\n");
    }
}
