//! Threads and maps end in any order, and there may be more threads than handles.
use crate::ledger::{Ledger, Owned};
use cefrodil_map::ObjectMap;
use std::cell::RefCell;
use std::sync::mpsc::channel;
use std::sync::{Arc, Barrier};
use std::thread;

type Values = ObjectMap<u64, Owned>;

fn work(map: &Values, ledger: &'static Ledger, from: u64) {
    for key in from..from + 40 {
        map.insert(key, ledger.make(key)).unwrap();
        map.get_with(&key, |value| value.is_right(key));
        map.get_with(&(key / 2), |value| value.is_right(key / 2));
    }
}

#[test]
fn threads_and_maps_come_and_go() {
    let ledger = Ledger::new(100_000);
    let (keep, start): (Values, _) = (ObjectMap::builder(100).threads(2).open().unwrap(), Arc::new(Barrier::new(4)));
    for round in 0..60 {
        let brief: Values = ObjectMap::builder(50).threads(2).open().unwrap();
        let threads: Vec<_> = (0..4)
            .map(|_| {
                let (keep, brief, start) = (keep.clone(), brief.clone(), Arc::clone(&start));
                thread::spawn(move || {
                    keep.get_with(&1, |value| value.is_right(1));
                    start.wait();
                    work(&keep, ledger, round);
                    work(&brief, ledger, 0);
                    drop(keep);
                    brief.get_with(&1, |value| value.is_right(1));
                })
            })
            .collect();
        brief.get_with(&1, |value| value.is_right(1));
        drop(brief);
        threads.into_iter().for_each(|thread| thread.join().unwrap());
    }
    assert!(keep.stats().shared > 0);
    drop(keep);
    ledger.each_once();
}

#[test]
fn a_thread_may_outlive_the_maps_that_it_used() {
    let ledger = Ledger::new(10_000);
    let (send, receive) = channel::<Values>();
    let worker = thread::spawn(move || receive.into_iter().for_each(|map| work(&map, ledger, 0)));
    for _ in 0..50 {
        let map = ObjectMap::builder(20).threads(1).open().unwrap();
        work(&map, ledger, 10);
        send.send(map).unwrap();
    }
    drop(send);
    worker.join().unwrap();
    ledger.each_once();
}

#[test]
fn forty_threads_share_four_handles() {
    const MANY: usize = 40;
    let (ledger, start) = (Ledger::new(200_000), Barrier::new(MANY));
    let map: Values = ObjectMap::builder(1_000).threads(3).open().unwrap();
    thread::scope(|threads| {
        for thread in 0..MANY as u64 {
            let (map, start) = (&map, &start);
            threads.spawn(move || {
                // No thread ends before all have called.
                assert!(!map.contains_key(&9_999));
                start.wait();
                for round in 0..5 {
                    work(map, ledger, round);
                    let mine = 10_000 + thread;
                    map.insert(mine, ledger.make(mine)).unwrap();
                }
            });
        }
    });
    assert!(map.stats().shared >= 37);
    drop(map);
    ledger.each_once();
}

/// Calls the map when its thread ends.
struct AtEnd(Values, &'static Ledger);

impl Drop for AtEnd {
    fn drop(&mut self) {
        work(&self.0, self.1, 0);
        self.0.get_with(&39, |value| {
            work(&self.0, self.1, 1);
            value.is_right(39);
        });
    }
}

thread_local!(static END: RefCell<Option<AtEnd>> = const { RefCell::new(None) });

#[test]
fn what_a_thread_keeps_may_call_the_map_at_its_end() {
    let ledger = Ledger::new(10_000);
    for first in [false, true] {
        let map: Values = ObjectMap::builder(20).threads(1).open().unwrap();
        let (other, looked) = (map.clone(), map.clone());
        drop(map);
        let thread = thread::spawn(move || {
            // So the thread gives its handle back after `END` has gone, or before.
            if first {
                work(&other, ledger, 0);
            }
            END.with(|end| *end.borrow_mut() = Some(AtEnd(other.clone(), ledger)));
            work(&other, ledger, 0);
        });
        thread.join().unwrap();
        looked.get_with(&39, |value| value.is_right(39));
        assert_eq!(looked.free_unused(), 0, "an end of a thread left a call pinned");
    }
    ledger.each_once();
}
