//! Commands of several threads at once, over a plain index.
mod plain;
use cefrodild::books::Books;
use cefrodild::request::{Change, How, Order};
use cefrodild::store::{Answer, Changed, Store};
use plain::client::{options_of, order};
use plain::Plain;
use std::sync::atomic::{AtomicBool, Ordering::SeqCst};
use std::sync::Arc;
use std::thread;

const KEY: &[u8] = b"key";
const NEVER: u64 = u64::MAX;

fn store() -> Store {
    let options = options_of("-t4");
    let books = Arc::new(Books::new(1 << 20, &options));
    Store::new(Box::new(Plain::new(&books, &Arc::default())), books, options)
}

fn set(how: How) -> Order<'static> {
    order(how, KEY, 1)
}

/// Stops the other threads at its end, also by a panic.
struct Stop<'a>(&'a AtomicBool);

impl Drop for Stop<'_> {
    fn drop(&mut self) {
        self.0.store(true, SeqCst);
    }
}

fn deadline(store: &Store) -> Option<u64> {
    let mut found = None;
    store.look(&[KEY], |_, hit| {
        found = Some(hit.item.deadline());
        true
    });
    found
}

#[test]
fn a_new_time_to_live_is_not_lost_beside_other_changes() {
    let (store, stop) = (store(), AtomicBool::new(false));
    assert!(matches!(store.store(&set(How::Set), b"0"), Ok(Answer::Done(_))));
    thread::scope(|threads| {
        threads.spawn(|| {
            while !stop.load(SeqCst) {
                assert!(matches!(store.change(KEY, Change::Add(1), None, None), Ok(Changed::Changed(..))));
            }
        });
        threads.spawn(|| {
            while !stop.load(SeqCst) {
                assert!(matches!(store.store(&set(How::Append), b""), Ok(Answer::Done(_))));
            }
        });
        let _stop = Stop(&stop);
        for later in 0..60_000 {
            assert_eq!(store.touch(KEY, NEVER - later), Ok(true));
            assert_eq!(deadline(&store), Some(NEVER - later));
        }
    });
}

#[test]
fn no_sum_is_lost() {
    let store = store();
    assert!(matches!(store.store(&set(How::Set), b"0"), Ok(Answer::Done(_))));
    thread::scope(|threads| {
        for _ in 0..4 {
            threads.spawn(|| (0..1_000).for_each(|_| assert!(store.change(KEY, Change::Add(1), None, None).is_ok())));
        }
    });
    assert!(matches!(store.change(KEY, Change::Add(0), None, None), Ok(Changed::Changed(4_000, ..))));
}

#[test]
fn nothing_old_outlives_a_flush() {
    let (store, stop) = (store(), AtomicBool::new(false));
    thread::scope(|threads| {
        threads.spawn(|| {
            while !stop.load(SeqCst) {
                assert!(store.store(&set(How::Append), b"x").is_ok());
                assert!(store.change(KEY, Change::Add(1), None, None).is_ok());
                assert!(store.store(&set(How::Replace), b"1").is_ok());
            }
        });
        let _stop = Stop(&stop);
        for _ in 0..20_000 {
            assert!(matches!(store.store(&set(How::Set), b"1"), Ok(Answer::Done(_))));
            store.flush(0);
            // Only what is there is changed, so there is nothing any more.
            assert_eq!(deadline(&store), None);
        }
    });
}

#[test]
fn what_is_changed_while_a_flush_begins_is_flushed() {
    let store = store();
    assert!(matches!(store.store(&set(How::Set), b"1"), Ok(Answer::Done(_))));
    store.flush_with(0, || assert!(matches!(store.store(&set(How::Append), b"2"), Ok(Answer::Done(_)))));
    assert_eq!(deadline(&store), None);
}
