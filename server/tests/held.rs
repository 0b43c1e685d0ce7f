//! What clients hold: values that they read late, and values that they have not sent as a whole.
mod plain;
use cefrodild::connection::Next;
use cefrodild::counts::Count;
use cefrodild::item::new_item;
use cefrodild::output::Output;
use cefrodild::request::How;
use cefrodild::store::Store;
use plain::both::Both;
use plain::client::{order, Client, MEGABYTE};
use std::io::Write;
use std::sync::atomic::{AtomicBool, Ordering::SeqCst};
use std::sync::mpsc::channel;
use std::sync::{Mutex, MutexGuard, PoisonError};
use std::thread;

/// One test at a time, since what has left and is held is counted for the process.
static TURN: Mutex<()> = Mutex::new(());

fn turn() -> MutexGuard<'static, ()> {
    TURN.lock().unwrap_or_else(PoisonError::into_inner)
}

/// A store with a large value, and its answer.
fn stored() -> (Client, String) {
    let mut client = Client::with(8 * MEGABYTE, "-t1 -m 16");
    let value = "0123456789".repeat(100_000);
    assert_eq!(client.ask(&format!("set k 0 0 {}\n{value}\n", value.len())), "STORED\n");
    (client, format!("VALUE k 0 {}\r\n{value}\r\nEND\r\n", value.len()))
}

#[test]
fn a_client_that_reads_late_holds_no_copy() {
    let _turn = turn();
    let (client, answer) = stored();
    let mut late: Vec<_> = (0..100).map(|_| Both::of(&client.store)).collect();
    for both in &mut late {
        both.stream.write_all(b"get k\r\nget k\r\nmg k v\r\n").expect("it takes commands");
        assert_eq!(both.turn(&client.store), Next::Event);
    }
    assert!(client.store.books.budget.buffers() < 100 * 1_000, "{}", client.store.books.budget.buffers());
    let all = format!("{answer}{answer}{}", answer.replace("VALUE k 0", "VA").replace("\r\nEND", ""));
    assert!(late.iter_mut().all(|both| both.read(&client.store) == all.as_bytes()));
}

#[test]
fn what_is_sent_stays_when_its_key_has_another_value() {
    let _turn = turn();
    for change in ["set k 0 0 1\n5\n", "delete k\n", "set k 0 0 20000\n", "append k 0 0 1\n5\n"] {
        let (mut client, answer) = stored();
        let (mut late, mut later) = (Both::of(&client.store), Both::of(&client.store));
        for both in [&mut late, &mut later] {
            both.stream.write_all(b"get k\r\n").expect("it takes a command");
            assert_eq!(both.turn(&client.store), Next::Event);
        }
        let block = if change.contains("20000") { "x".repeat(20_000) + "\n" } else { String::new() };
        client.ask(&format!("{change}{block}"));
        assert!((1_000_000..1_001_000).contains(&client.store.books.budget.buffers()), "the item is the clients' now");
        assert!(late.read(&client.store) == answer.as_bytes() && later.read(&client.store) == answer.as_bytes());
        assert_eq!(client.store.books.budget.buffers(), 0, "{change}");
    }
}

/// Not even for a moment, in which others might be cut off for it.
#[test]
fn what_nobody_holds_never_counts_as_the_clients() {
    let _turn = turn();
    let (client, _) = stored();
    let (budget, value) = (&client.store.books.budget, [0; 20_000]);
    thread::scope(|scope| {
        let freeing = scope.spawn(|| (0..100_000).for_each(|_| drop(new_item(1, 0, 0, b"k", &[&value]))));
        while !freeing.is_finished() {
            assert_eq!(budget.buffers(), 0);
        }
    });
}

#[test]
fn a_value_that_never_ends_is_refused_and_its_client_stays() {
    let _turn = turn();
    let (client, _) = stored();
    let (first, rest) = ([b"set a 0 0 1000000\r\n", &[b'x'; 990_000][..]].concat(), [b'x'; 10_000]);
    let mut stalled: Vec<_> = (0..20).map(|_| Both::of(&client.store)).collect();
    for number in 0..stalled.len() {
        assert!(stalled[number].ask(&client.store, &first).is_empty());
        // One that has few bytes at a time is not cut off.
        let mut honest = Both::of(&client.store);
        assert!(honest.ask(&client.store, b"set b 0 0 5000\r\n12345").is_empty());
        assert_eq!(honest.ask(&client.store, &[&[b'x'; 4_995][..], b"\r\n"].concat()), b"STORED\r\n");
        // A worker wakes for those that are to be cut off.
        stalled.iter_mut().for_each(|both| assert_eq!(both.turn(&client.store), Next::Event));
        assert!(client.store.books.budget.buffers() < 9 * MEGABYTE as u64, "{}", client.store.books.budget.buffers());
    }
    let mut stored = 0;
    for both in &mut stalled {
        match &both.ask(&client.store, &[&rest[..], b"\r\n"].concat())[..] {
            b"STORED\r\n" => stored += 1,
            answer => assert_eq!(answer, b"SERVER_ERROR out of memory storing object\r\n"),
        }
        assert_eq!(both.ask(&client.store, b"mn\r\n"), b"MN\r\n", "it goes on");
    }
    assert!((6..=8).contains(&stored), "{stored}");
}

/// What comes first of a value of 1,000,000 bytes.
const PART: usize = 990_000;

/// The begin of a command that stores such a value.
fn begun(key: &str) -> Vec<u8> {
    [format!("set {key} 0 0 1000000\r\n").as_bytes(), &[b'x'; PART][..]].concat()
}

/// The rest of such a value, and what follows.
fn ended(next: &[u8]) -> Vec<u8> {
    [&[b'x'; 1_000_000 - PART][..], b"\r\n", next].concat()
}

/// So many clients that have begun to send a value.
fn stalled(store: &Store, count: usize) -> Vec<Both> {
    let mut all: Vec<_> = (0..count).map(|_| Both::of(store)).collect();
    all.iter_mut().for_each(|both| assert!(both.ask(store, &begun("u")).is_empty()));
    all
}

#[test]
fn a_client_has_one_value_refused_and_not_the_next() {
    let _turn = turn();
    let (client, _) = stored();
    let mut first = Both::of(&client.store);
    assert!(first.ask(&client.store, &begun("a")).is_empty());
    let others = stalled(&client.store, 8);
    let next = [b"set b 0 0 100000\r\n", &[b'x'; 50_000][..]].concat();
    assert_eq!(first.ask(&client.store, &ended(&next)), b"SERVER_ERROR out of memory storing object\r\n");
    drop(others);
    assert_eq!(first.ask(&client.store, &[&[b'x'; 50_000][..], b"\r\n"].concat()), b"STORED\r\n");
}

#[test]
fn who_sends_one_value_after_the_other_has_not_held_them_all_the_time() {
    let _turn = turn();
    let (client, _) = stored();
    let mut busy = Both::of(&client.store);
    assert!(busy.ask(&client.store, &begun("a")).is_empty());
    let others = stalled(&client.store, 7);
    assert_eq!(busy.ask(&client.store, &ended(&begun("b"))), b"STORED\r\n");
    let last = stalled(&client.store, 1);
    assert_eq!(busy.ask(&client.store, &ended(b"")), b"STORED\r\n");
    drop((others, last));
}

/// Neither those of values that were sent to the end, nor those of clients that have left.
#[test]
fn bytes_that_were_held_before_count_no_more() {
    let _turn = turn();
    let (client, _) = stored();
    for _ in 0..20 {
        let mut both = Both::of(&client.store);
        assert!(both.ask(&client.store, &begun("a")).is_empty());
        assert_eq!(both.ask(&client.store, &ended(b"set b 0 0 50\r\n12345")), b"STORED\r\n");
        assert!(client.store.books.budget.buffers() < 1_000, "it holds few bytes: {}", client.store.books.budget.buffers());
        drop(stalled(&client.store, 1));
    }
    assert_eq!(stalled(&client.store, 1)[0].ask(&client.store, &ended(b"")), b"STORED\r\n");
}

/// A value that no client is sent is freed when it leaves. At no time in between does it count.
#[test]
fn what_no_client_is_sent_is_never_held() {
    let _turn = turn();
    let (store, value, has_ended) = (Client::with(8 * MEGABYTE, "-t2").store, vec![b'x'; 200_000], AtomicBool::new(false));
    let replace = || {
        (0..2_000).for_each(|_| assert!(store.store(&order(How::Set, b"k", value.len()), &value).is_ok()));
        has_ended.store(true, SeqCst);
    };
    thread::scope(|threads| {
        threads.spawn(replace);
        while !has_ended.load(SeqCst) {
            assert!(store.books.budget.buffers() <= MEGABYTE as u64);
        }
    });
}

/// Items that were replaced while clients read them are kept for these alone: they count, and who keeps most for longest is cut off.
#[test]
fn who_keeps_items_that_have_left_is_cut_off() {
    let _turn = turn();
    let (mut client, _) = stored();
    let mut late: Vec<_> = (0..12).map(|_| Both::of(&client.store)).collect();
    for both in &mut late {
        both.stream.write_all(b"get k\r\n").expect("it takes a command");
        assert_eq!(both.turn(&client.store), Next::Event);
        client.ask(&format!("set k 0 0 1000000\n{}\n", "x".repeat(1_000_000)));
    }
    let nexts: Vec<_> = late.iter_mut().map(|both| both.turn(&client.store)).collect();
    assert_eq!(nexts.iter().filter(|next| **next == Next::Nothing).count(), 4, "8 MB may be kept: {nexts:?}");
    assert_eq!(client.store.books.counts.get(Count::NoBuffers), 4);
    drop(late);
    assert_eq!(client.store.books.budget.buffers(), 0);
}

/// What a client has sent of a value counts, and at most as much again, however long the value is to be.
#[test]
fn a_part_of_a_value_counts_as_its_client_s() {
    let _turn = turn();
    let (client, _) = stored();
    for sent in [20_000, 60_000, 120_000, 200_000, 400_000] {
        let mut both = Both::of(&client.store);
        assert!(both.ask(&client.store, &begun("a")[..sent]).is_empty());
        let held = client.store.books.budget.buffers() as usize;
        assert!((sent..=2 * sent).contains(&held), "{held} bytes of {sent}");
    }
}

/// It holds nothing that would be freed without it.
#[test]
fn who_reads_an_item_that_stays_is_not_cut_off() {
    let _turn = turn();
    let (client, answer) = stored();
    let mut late = Both::of(&client.store);
    late.stream.write_all(b"get k\r\n").expect("it takes a command");
    assert_eq!(late.turn(&client.store), Next::Event);
    let mut others = stalled(&client.store, 12);
    others.iter_mut().for_each(|both| assert_eq!(both.turn(&client.store), Next::Event));
    assert!(late.read(&client.store) == answer.as_bytes());
}

/// Values that are removed become the clients' though nobody stores one. Who has waited longest is cut off.
#[test]
fn a_worker_sees_that_removed_values_are_kept() {
    let _turn = turn();
    let mut client = Client::with(16 * MEGABYTE, "-t1 -m 16");
    let mut late: Vec<_> = (0..12).map(|_| Both::of(&client.store)).collect();
    for (key, both) in late.iter_mut().enumerate() {
        client.ask(&format!("set {key} 0 0 1000000\n{}\n", "x".repeat(1_000_000)));
        both.stream.write_all(format!("get {key}\r\n").as_bytes()).expect("it takes a command");
        assert_eq!(both.turn(&client.store), Next::Event);
    }
    (0..12).for_each(|key| assert_eq!(client.ask(&format!("delete {key}\n")), "DELETED\n"));
    client.store.tidy_up();
    assert_eq!(late[0].turn(&client.store), Next::Nothing);
    assert_eq!(late[11].turn(&client.store), Next::Event);
}

/// One that does not read is cut off, whatever it has sent behind that.
#[test]
fn who_does_not_read_is_cut_off_though_a_value_has_begun() {
    let _turn = turn();
    let (mut client, _) = stored();
    let mut late = Both::of(&client.store);
    late.stream.write_all(b"get k\r\nset a 0 0 1000000\r\nxxx").expect("it takes commands");
    assert_eq!(late.turn(&client.store), Next::Event);
    client.ask("delete k\n");
    let others = stalled(&client.store, 8);
    assert_eq!(late.turn(&client.store), Next::Nothing);
    drop(others);
}

/// So it does while the worker that reads its last bytes goes on.
#[test]
fn a_value_counts_as_its_client_s_until_it_is_stored() {
    const SIZE: usize = 200_000;
    let _turn = turn();
    let (client, _) = stored();
    let (mut both, other, (told, held)) = (Both::of(&client.store), client.beside(), channel());
    *client.control.meanwhile.lock().unwrap() = Some(Box::new(move || {
        told.send(other.store.books.budget.buffers()).expect("it is received");
    }));
    assert!(both.ask(&client.store, &[b"add a 0 0 200000\r\n", &[b'x'; 100_000][..]].concat()).is_empty());
    assert_eq!(both.ask(&client.store, &[&[b'x'; SIZE - 100_000][..], b"\r\n"].concat()), b"STORED\r\n");
    let held = held.recv().expect("it was sent") as usize;
    assert!((SIZE..2 * SIZE).contains(&held), "{held}");
}

#[test]
fn answers_that_are_not_read_count_as_their_client_s() {
    let _turn = turn();
    let (mut client, _) = stored();
    client.ask(&format!("set s 0 0 10000\n{}\n", "x".repeat(10_000)));
    let mut late = Both::of(&client.store);
    late.stream.write_all("get s\r\n".repeat(100).as_bytes()).expect("it takes commands");
    assert_eq!(late.turn(&client.store), Next::Event);
    assert!((1_000..200_000).contains(&client.store.books.budget.buffers()), "{}", client.store.books.budget.buffers());
    assert!(late.read(&client.store).len() > 1_000_000);
    assert_eq!(client.store.books.budget.buffers(), 0);
}

/// Though what follows it still waits.
#[test]
fn a_value_that_is_sent_is_not_held() {
    let _turn = turn();
    let item = new_item(1, 0, 0, b"k", &[&[b'x'; 50_000]]).expect("there is memory");
    let mut output = Output::default();
    assert!(output.borrow());
    output.block(&item);
    for (bytes, is_held) in [(2 + 49_999, true), (1, false)] {
        assert_eq!(output.send(&mut &mut vec![0; bytes][..]).expect("there is room"), bytes);
        assert!(output.give_back());
        assert_eq!(output.item().is_some(), is_held, "{bytes}");
    }
    let mut rest = Vec::new();
    assert_eq!(output.send(&mut rest).expect("there is room"), 2);
    assert!(rest == b"\r\n" && output.is_empty());
}

/// The answer holds one value at most. A second one is copied.
#[test]
fn an_answer_may_have_two_values() {
    let _turn = turn();
    let item = |byte| new_item(1, 0, 0, b"k", &[&[byte; 20_000]]).expect("there is memory");
    let (mut output, mut sent) = (Output::default(), Vec::new());
    (b'x'..=b'y').for_each(|byte| output.block(&item(byte)));
    while !output.is_empty() {
        assert!(output.send(&mut sent).is_ok());
    }
    let block = |byte| [b"\r\n", &[byte; 20_000][..], b"\r\n"].concat();
    assert!(sent == [block(b'x'), block(b'y')].concat());
}
