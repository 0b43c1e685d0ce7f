//! Two clients at one key: one acts when the other's command has looked at the key and is about to change it.
mod plain;
use cefrodild::budget::cost;
use plain::client::{Client, MEGABYTE};
use std::sync::atomic::Ordering::SeqCst;
use std::sync::mpsc::channel;
use std::sync::Arc;
use std::thread::{self, JoinHandle};
use std::time::{Duration, Instant};

/// How long a command has that must not end meanwhile.
const WHILE: Duration = Duration::from_millis(50);

/// A client of a store in which `n` has this value.
fn client_with(value: &str) -> Client {
    let mut client = Client::new(MEGABYTE);
    set(&mut client, value);
    client
}

fn set(client: &mut Client, value: &str) {
    assert_eq!(client.ask(&format!("set n 0 0 {}\n{value}\n", value.len())), "STORED\n");
}

fn value(client: &mut Client) -> String {
    let answer = client.ask("get n\n");
    answer.lines().nth(1).unwrap_or_default().to_owned()
}

/// Asks in a thread that must not end while another command is between its two steps.
fn ask_in_vain(mut other: Client, command: &'static str) -> JoinHandle<String> {
    let (asking, end) = (thread::spawn(move || other.ask(command)), Instant::now() + WHILE);
    while Instant::now() < end {
        assert!(!asking.is_finished(), "{command} comes between the steps of another command");
        thread::yield_now();
    }
    asking
}

#[test]
fn append_and_prepend_begin_anew() {
    let mut client = client_with("a");
    assert_eq!(client.ask_beside("append n 0 0 1\nx\n", |mut other| set(&mut other, "b")), "STORED\n");
    assert_eq!(value(&mut client), "bx");
    assert_eq!(client.ask_beside("prepend n 0 0 1\ny\n", |mut other| set(&mut other, "c")), "STORED\n");
    assert_eq!(value(&mut client), "yc");
}

#[test]
fn arithmetic_begins_anew() {
    let mut client = client_with("1");
    assert_eq!(client.ask_beside("incr n 1\n", |mut other| set(&mut other, "10")), "11\n");
    assert_eq!(client.ask_beside("decr n 1\n", |mut other| set(&mut other, "20")), "19\n");
}

#[test]
fn arithmetic_finds_the_number_that_another_one_made() {
    let mut client = Client::new(MEGABYTE);
    assert_eq!(client.ask_beside("ma n N0 J5 D3 v\n", |mut other| set(&mut other, "10")), "VA 2\n13\n");
    let mut client = Client::new(MEGABYTE);
    assert_eq!(client.ask_beside("ma n N0 J5 D3 T100 t\n", |mut other| set(&mut other, "10")), "HD t100\n");
}

#[test]
fn delete_removes_what_came_meanwhile() {
    let mut client = client_with("a");
    assert_eq!(client.ask_beside("delete n\n", |mut other| set(&mut other, "b")), "DELETED\n");
    assert_eq!(value(&mut client), "");
    set(&mut client, "a");
    assert_eq!(client.ask_beside("md n\n", |mut other| set(&mut other, "b")), "HD\n");
    assert_eq!(value(&mut client), "");
}

#[test]
fn nothing_that_came_meanwhile_is_overwritten_by_cas() {
    // The first item of a store has the token 1.
    for (command, answer) in [("cas n 0 0 1 1\nx\n", "EXISTS\n"), ("ms n 1 C1\nx\n", "EX\n")] {
        let mut client = client_with("a");
        assert_eq!(client.ask_beside(command, |mut other| set(&mut other, "b")), answer);
        assert_eq!(value(&mut client), "b");
    }
}

#[test]
fn nothing_that_came_meanwhile_is_overwritten_by_add() {
    let mut client = Client::new(MEGABYTE);
    assert_eq!(client.ask_beside("add n 0 0 1\nx\n", |mut other| set(&mut other, "b")), "NOT_STORED\n");
    assert_eq!(value(&mut client), "b");
    // Nor if an expired item was there.
    assert_eq!(client.ask("touch n -1\n"), "TOUCHED\n");
    assert_eq!(client.ask_beside("add n 0 0 1\nx\n", |mut other| set(&mut other, "c")), "NOT_STORED\n");
    assert_eq!(value(&mut client), "c");
}

/// Commands that begin anew if another one changes their key, and their answers after `set n` to 7.
const BEGINNING_ANEW: [(&str, &str, &str); 10] = [
    ("append n 0 0 1\nx\n", "STORED\n", "7x"),
    ("prepend n 0 0 1\nx\n", "STORED\n", "x7"),
    ("replace n 0 0 1\nx\n", "STORED\n", "x"),
    ("ms n 1 MA\nx\n", "HD\n", "7x"),
    ("ms n 1 MR\nx\n", "HD\n", "x"),
    ("incr n 1\n", "8\n", "8"),
    ("decr n 1\n", "6\n", "6"),
    ("ma n v\n", "VA 1\n8\n", "8"),
    ("delete n\n", "DELETED\n", ""),
    ("md n\n", "HD\n", ""),
];

#[test]
fn a_command_that_is_disturbed_often_is_done_all_the_same() {
    for (command, answer, next) in BEGINNING_ANEW {
        let mut client = client_with("1");
        assert_eq!(client.ask_beside_often(command, 100, |other| set(other, "7")), answer, "{command}");
        assert_eq!(value(&mut client), next, "{command}");
        let items = usize::from(!next.is_empty());
        assert_eq!(
            (client.store.index.len(), client.store.books.budget.used()),
            (items, items as u64 * cost(1, next.len())),
            "{command}"
        );
    }
}

#[test]
fn a_command_that_is_disturbed_all_the_time_changes_nothing_and_says_so() {
    for (command, ..) in BEGINNING_ANEW {
        let mut client = client_with("1");
        let answer = client.ask_beside_often(command, usize::MAX, |other| set(other, "7"));
        assert_eq!(answer, "SERVER_ERROR busy, and nothing was changed\n", "{command}");
        assert_eq!(value(&mut client), "7", "{command}");
        assert_eq!((client.store.index.len(), client.store.books.budget.used()), (1, cost(1, 1)), "{command}");
    }
}

#[test]
fn an_item_that_was_not_put_is_not_counted() {
    for command in ["append n 0 0 1\nx\n", "cas n 0 0 1 1\nx\n", "incr n 1\n"] {
        let mut client = client_with("1");
        client.ask_beside(command, |mut other| set(&mut other, "1"));
        let bytes = cost(1, value(&mut client).len());
        assert_eq!((client.store.index.len(), client.store.books.budget.used()), (1, bytes), "{command}");
    }
}

#[test]
fn a_new_time_to_live_waits_for_a_change_that_keeps_the_old_one() {
    for command in ["touch n 100\n", "gat 100 n\n", "mg n T100\n"] {
        for change in ["incr n 1\n", "append n 0 0 1\n1\n", "prepend n 0 0 1\n1\n", "ms n 1 C0 I\n2\n"] {
            let (mut client, (sender, threads)) = (client_with("1"), channel());
            client.ask_beside(change, move |other| sender.send(ask_in_vain(other, command)).expect("it is waited for"));
            threads.recv().expect("there is a thread").join().expect("it is answered");
            let answer = client.ask("mg n t\n");
            assert!(answer.starts_with("HD t") && !answer.contains("t-1"), "{command} is lost beside {change}");
        }
    }
}

/// `touch` has found the item in its last nanoseconds, and moves its end when the crawler has seen that it has expired.
#[test]
fn an_item_that_is_touched_in_time_does_not_go() {
    let mut client = Client::new(MEGABYTE);
    client.ask("set n 0 -1 1\n1\nset gone 0 -1 1\n1\n");
    client.control.touches_before_peek.store(true, SeqCst);
    client.expire();
    client.control.touches_before_peek.store(false, SeqCst);
    assert_eq!((value(&mut client), client.store.index.len()), ("1".to_owned(), 2));
}

#[test]
fn a_new_time_to_live_waits_for_the_crawler() {
    let mut client = Client::new(MEGABYTE);
    client.ask("set n 0 -1 1\n1\n");
    let (other, (sender, threads)) = (client.beside(), channel());
    *client.control.meanwhile.lock().unwrap() =
        Some(Box::new(move || sender.send(ask_in_vain(other, "touch n 100\n")).expect("it is waited for")));
    client.expire();
    assert_eq!(threads.recv().expect("there is a thread").join().expect("it is answered"), "NOT_FOUND\n");
}

#[test]
fn who_may_fetch_a_value_waits_for_a_stale_one_that_comes_over_it() {
    for before in ["ms n 1 T30\n1\n", "ms n 1 T30\n1\nmd n I\n"] {
        let (mut client, (sender, threads)) = (client_with("1"), channel());
        client.ask(before);
        client.ask_beside("ms n 1 C0 I\n2\n", move |other| {
            sender.send(ask_in_vain(other, "mg n R60 v\n")).expect("it is waited for");
        });
        let told = threads.recv().expect("there is a thread").join().expect("it is answered");
        assert_eq!((told.as_str(), client.ask("mg n\n").as_str()), ("VA 1 X W\n2\n", "HD Z X\n"), "{before}");
    }
}

#[test]
fn a_stale_value_waits_for_who_makes_an_item() {
    let (mut client, (sender, threads)) = (Client::new(MEGABYTE), channel());
    let answer = client.ask_beside("mg n N30 v\n", move |other| {
        sender.send(ask_in_vain(other, "ms n 1 C0 I\n2\n")).expect("it is waited for");
    });
    let told = threads.recv().expect("there is a thread").join().expect("it is answered");
    assert_eq!((answer.as_str(), told.as_str(), client.ask("mg n v\n").as_str()), ("VA 0 W\n\n", "HD\n", "VA 1 Z X\n2\n"));
}

#[test]
fn who_makes_an_item_wins_no_other_one() {
    let mut client = Client::new(MEGABYTE);
    let answer = client.ask_beside("mg n N30 v\n", |mut other| {
        let control = Arc::clone(&other.control);
        *control.before_look.lock().unwrap() = Some(Box::new(move || set(&mut other, "7")));
    });
    assert_eq!((answer.as_str(), client.ask("mg n\n").as_str()), ("VA 1\n7\n", "HD\n"));
}

/// Asks for a new time to live of `n`, and for this when `n` has expired, but not for the command that has asked before. Returns what both are answered.
fn touch_beside(command: &'static str) -> (String, String) {
    let mut client = client_with("5");
    let (store, other, (sender, receiver)) = (Arc::clone(&client.store), client.beside(), channel());
    *client.control.before_look.lock().unwrap() = Some(Box::new(move || {
        let end = store.books.clock.now() + 1;
        store.index.look(&[b"n"], &mut |_, seen| seen.expect("nobody disturbs it").expect("it is there").0.touch(end));
        while store.books.clock.now() < end {}
        sender.send(ask_in_vain(other, command)).expect("somebody waits for it");
    }));
    let touched = client.ask("touch n 100\n");
    (touched, receiver.recv().expect("it is sent").join().expect("it ends"))
}

#[test]
fn what_has_expired_stays_if_it_gets_a_new_time_to_live_just_then() {
    for (command, answer) in
        [("delete n\n", "DELETED\n"), ("md n\n", "HD\n"), ("add n 0 0 1\n6\n", "NOT_STORED\n"), ("ms n 1 ME\n6\n", "NS\n")]
    {
        assert_eq!(touch_beside(command), ("TOUCHED\n".to_owned(), answer.to_owned()), "{command}");
    }
}
