//! Calls by which tasks load what is missing: of all that want a key, one loads it.
mod ends;
mod executor;

use cefrodil_map::Map;
use ends::ends;
use executor::{give_way, poll, run, Job, Wakes};
use std::future::pending;
use std::sync::atomic::{AtomicUsize, Ordering::SeqCst};
use std::sync::Arc;
use std::task::Poll;

type Numbers = Map<u64, u64>;

const KEY: u64 = 7;
const TASKS: usize = 100;

// Counts the load. It ends when all tasks have begun.
async fn load(begun: &AtomicUsize, loads: &AtomicUsize) -> usize {
    let number = loads.fetch_add(1, SeqCst);
    while begun.load(SeqCst) < TASKS {
        give_way().await;
    }
    number
}

fn in_tasks(job: impl Fn(Arc<[AtomicUsize; 3]>) -> Job + Send + 'static) -> [usize; 3] {
    let counts: Arc<[AtomicUsize; 3]> = Arc::default();
    let of_jobs = Arc::clone(&counts);
    ends(move || run(4, (0..TASKS).map(|_| job(Arc::clone(&of_jobs))).collect()));
    counts.each_ref().map(|count| count.load(SeqCst))
}

#[test]
fn one_task_loads_for_all() {
    let map = Numbers::new(100).unwrap();
    let of_jobs = map.clone();
    let counts = in_tasks(move |counts| {
        let map = of_jobs.clone();
        Box::pin(async move {
            let [begun, loads, ended] = &*counts;
            begun.fetch_add(1, SeqCst);
            let fetch = async {
                load(begun, loads).await;
                70
            };
            assert_eq!(map.get_or_insert_async(&KEY, fetch).await, 70);
            ended.fetch_add(1, SeqCst);
        })
    });
    assert_eq!((counts, map.get(&KEY), map.stats().added), ([TASKS, 1, TASKS], Some(70), 1));
}

// The first load fails. Then another task loads.
#[test]
fn a_load_that_fails_fails_for_its_task_alone() {
    let map = Numbers::new(100).unwrap();
    let of_jobs = map.clone();
    let [_, loads, failed] = in_tasks(move |counts| {
        let map = of_jobs.clone();
        Box::pin(async move {
            let [begun, loads, failed] = &*counts;
            begun.fetch_add(1, SeqCst);
            let fetch = async {
                match load(begun, loads).await {
                    0 => Err(()),
                    _ => Ok(70),
                }
            };
            match map.get_or_try_insert_async(&KEY, fetch).await {
                Ok(value) => assert_eq!(value, 70),
                Err(()) => _ = failed.fetch_add(1, SeqCst),
            }
        })
    });
    assert_eq!((loads, failed, map.get(&KEY)), (2, 1, Some(70)));
}

#[test]
fn if_a_load_is_dropped_another_task_loads() {
    let (map, wakes) = (Numbers::new(100).unwrap(), Arc::new(Wakes::default()));
    let mut first = Box::pin(map.get_or_insert_async(&KEY, pending()));
    let mut second = Box::pin(map.get_or_insert_async(&KEY, async { 70 }));
    assert_eq!((poll(&wakes, &mut first), poll(&wakes, &mut second), wakes.count()), (Poll::Pending, Poll::Pending, 0));
    drop(first);
    assert_eq!((wakes.count(), poll(&wakes, &mut second), map.get(&KEY)), (1, Poll::Ready(70), Some(70)));
}

#[test]
fn what_is_there_is_not_loaded() {
    let (map, wakes) = (Numbers::new(100).unwrap(), Arc::new(Wakes::default()));
    map.insert(&KEY, 70).unwrap();
    let mut call = Box::pin(map.get_or_insert_async(&KEY, async { panic!("it is there") }));
    assert_eq!(poll(&wakes, &mut call), Poll::Ready(70));
}

#[test]
fn a_key_that_is_removed_meanwhile_stays_removed() {
    let (map, wakes) = (Numbers::new(100).unwrap(), Arc::new(Wakes::default()));
    let fetch = async {
        map.remove(&KEY).unwrap();
        70
    };
    assert_eq!((poll(&wakes, &mut Box::pin(map.get_or_insert_async(&KEY, fetch))), map.get(&KEY)), (Poll::Ready(70), None));
}

fn may_move<T: Send>(_: T) {}

#[test]
fn tasks_may_go_on_in_another_thread() {
    let map = Numbers::new(100).unwrap();
    may_move(map.get_or_insert_async(&KEY, async { 70 }));
}
