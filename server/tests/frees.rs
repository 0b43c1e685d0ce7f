//! Items that have left and are not freed yet, since a thread reads: their bytes are counted and bounded. The index is the real one.
mod plain;
use cefrodild::budget::cost;
use cefrodild::counts::Count;
use cefrodild::request::How;
use cefrodild::store::{Answer, Fault, Store};
use plain::client::{map_store, order, Client};
use std::sync::atomic::{AtomicBool, Ordering::SeqCst};
use std::sync::mpsc::channel;
use std::thread::{self, sleep};
use std::time::Duration;

const LIMIT: u64 = 1 << 20;

fn store(limit: u64) -> Store {
    map_store(limit, "-t2")
}

fn set(store: &Store, key: &[u8], length: usize) -> Result<Answer, Fault> {
    store.store(&order(How::Set, key, length), &vec![b'x'; length])
}

/// Looks at this key, and calls `meanwhile` in another thread while it looks.
fn while_it_is_read(store: &Store, key: &[u8], meanwhile: impl Fn() + Sync) {
    let looked = store.look(&[key], |_, _| {
        thread::scope(|threads| threads.spawn(&meanwhile).join().expect("no assertion failed"));
        true
    });
    assert_eq!(looked, 1);
}

#[test]
fn an_item_is_counted_until_it_is_freed() {
    let store = store(LIMIT);
    assert!(matches!(set(&store, b"key", 1_000), Ok(Answer::Done(_))));
    let bytes = store.books.budget.used();
    while_it_is_read(&store, b"key", || {
        assert!(store.delete(b"key", None).is_ok());
        store.index.sweep();
        assert_eq!((store.books.budget.used(), store.books.budget.waiting(), store.index.len()), (0, bytes, 0));
    });
    store.index.sweep();
    assert_eq!((store.books.budget.used(), store.books.budget.waiting()), (0, 0));
}

#[test]
fn what_waits_for_a_reader_is_bounded() {
    let store = store(LIMIT);
    assert!(matches!(set(&store, b"key", 1_000), Ok(Answer::Done(_))));
    for size in [1_000, 50_000] {
        while_it_is_read(&store, b"key", || {
            let mut refused = 0;
            for _ in 0..10 * LIMIT as usize / size {
                match set(&store, b"other", size) {
                    Ok(_) => {}
                    Err(why) => {
                        assert_eq!(why, Fault::NoRoom);
                        refused += 1;
                    }
                }
                assert!(store.books.budget.used() + store.books.budget.waiting() <= LIMIT + LIMIT / 32);
                if refused > 0 {
                    break;
                }
            }
            assert_eq!(refused, 1, "the reader has not ended");
            assert!(store.books.budget.waiting() > LIMIT / 2, "{}", store.books.budget.waiting());
        });
        assert!(matches!(set(&store, b"other", size), Ok(Answer::Done(_))));
        assert!(store.books.budget.waiting() < LIMIT / 2);
    }
    assert_eq!(store.books.counts.get(Count::Evicted), 0, "no other item makes room for what waits");
}

#[test]
fn a_put_waits_for_a_reader_that_was_stopped() {
    let store = store(LIMIT);
    assert!(matches!(set(&store, b"key", 1_000), Ok(Answer::Done(_))));
    let ((tell, told), has_read) = (channel(), AtomicBool::new(false));
    thread::scope(|threads| {
        threads.spawn(|| {
            store.look(&[b"key"], |_, _| {
                tell.send(()).expect("the other thread waits");
                sleep(Duration::from_millis(700));
                has_read.store(true, SeqCst);
                true
            })
        });
        told.recv().expect("the key is found");
        for _ in 0..2 * LIMIT / 50_000 {
            assert!(matches!(set(&store, b"other", 50_000), Ok(Answer::Done(_))));
        }
        assert!(has_read.load(SeqCst), "the puts need more room than there is while it reads");
    });
}

#[test]
fn few_large_items_wait_though_nobody_reads() {
    let store = store(32 * LIMIT);
    (0..31).for_each(|key: u8| assert!(matches!(set(&store, &[key], 1 << 20), Ok(Answer::Done(_)))));
    for key in 0..20_000_u32 {
        assert!(matches!(set(&store, &key.to_be_bytes(), 1_000), Ok(Answer::Done(_))));
        assert!(store.books.budget.waiting() <= 32 * LIMIT / 128 + (1 << 20) + 100, "{key} {}", store.books.budget.waiting());
    }
    assert!(store.books.counts.get(Count::Evicted) >= 20);
}

#[test]
fn what_waits_for_a_reader_is_told() {
    let (mut client, told) = (Client::over_map(LIMIT as usize, "-t2"), |bytes: u64| format!("STAT bytes_waiting {bytes}\n"));
    client.ask("set key 0 0 1\n5\n");
    while_it_is_read(&client.store, b"key", || {
        let stats = client.beside().ask("delete key\nstats\n");
        assert!(stats.contains(&told(cost(3, 1))), "{stats}");
    });
    client.store.index.sweep();
    assert!(client.ask("stats\n").contains(&told(0)));
}
