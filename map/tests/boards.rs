//! Tasks that want the same key: one loads its value, and the others wait for it.
mod ends;
mod executor;

use cefrodil_map::{Board, GetError, Lead, Map, Wait};
use ends::ends;
use executor::{cancelled_after, give_way, poll, run, Job, Wakes};
use std::future::Future;
use std::panic::{catch_unwind, AssertUnwindSafe};
use std::pin::pin;
use std::sync::atomic::{AtomicU64, AtomicUsize, Ordering::SeqCst};
use std::sync::mpsc::channel;
use std::sync::{Arc, Barrier};
use std::task::{Context, Poll, Wake, Waker};
use std::thread;

type Numbers = Map<u64, u64>;

const KEY: u64 = 7;
const TASKS: usize = 100;
const THREADS: usize = 4;

fn lead(map: &Numbers) -> Lead<'_, u64, u64> {
    match map.try_board(&KEY) {
        Board::Lead(lead) => lead,
        other => panic!("it is not the first: {other:?}"),
    }
}

fn wait(map: &Numbers) -> Wait<u64> {
    match map.try_board(&KEY) {
        Board::Wait(wait) => wait,
        other => panic!("nobody loads the value: {other:?}"),
    }
}

fn found(map: &Numbers) -> Option<u64> {
    match map.try_board(&KEY) {
        Board::Found(value) => Some(value),
        Board::Lead(_) | Board::Wait(_) => None,
    }
}

// What a loader does. `waits` counts what begins to wait.
async fn load<F: Future<Output = Result<u64, ()>>>(
    map: &Numbers,
    key: u64,
    waits: &AtomicUsize,
    fetch: impl Fn() -> F,
) -> Result<u64, ()> {
    loop {
        match map.try_board(&key) {
            Board::Found(value) => return Ok(value),
            Board::Lead(lead) => return Ok(lead.publish(fetch().await?)),
            Board::Wait(wait) => {
                waits.fetch_add(1, SeqCst);
                if let Some(value) = wait.await {
                    return Ok(value);
                }
            }
        }
    }
}

#[test]
fn one_task_loads_for_all() {
    ends(load_for_all);
}

fn load_for_all() {
    let map = Numbers::new(100).unwrap();
    let counts: Arc<[AtomicUsize; 3]> = Arc::default();
    let job = || -> Job {
        let (map, counts) = (map.clone(), Arc::clone(&counts));
        Box::pin(async move {
            let [waiting, loads, ended] = &*counts;
            let fetch = || async {
                loads.fetch_add(1, SeqCst);
                while waiting.load(SeqCst) < TASKS - 1 {
                    give_way().await;
                }
                Ok(70)
            };
            let value = load(&map, KEY, waiting, fetch).await;
            assert_eq!(value, Ok(70));
            ended.fetch_add(1, SeqCst);
        })
    };
    run(THREADS, (0..TASKS).map(|_| job()).collect());
    assert_eq!(counts.each_ref().map(|count| count.load(SeqCst)), [TASKS - 1, 1, TASKS]);
    assert_eq!((map.get(&KEY), map.stats().added), (Some(70), 1));
}

#[test]
fn those_that_wait_get_the_value_and_leave_nothing() {
    let (map, wakes) = (Numbers::new(100).unwrap(), Arc::new(Wakes::default()));
    let lead = lead(&map);
    let mut waits = [wait(&map), wait(&map), wait(&map)];
    for wait in &mut waits[..2] {
        assert_eq!((poll(&wakes, wait), poll(&wakes, wait)), (Poll::Pending, Poll::Pending));
    }
    assert_eq!((wakes.count(), wakes.wakers()), (0, 2));
    assert_eq!(lead.publish(70), 70);
    assert_eq!((wakes.count(), wakes.wakers()), (2, 0));
    // Also one that was not polled before, and one that is polled again.
    for wait in &mut waits {
        assert_eq!((poll(&wakes, wait), poll(&wakes, wait)), (Poll::Ready(Some(70)), Poll::Ready(Some(70))));
    }
    assert_eq!((found(&map), map.get(&KEY), wakes.wakers()), (Some(70), Some(70), 0));
}

#[test]
fn if_a_lead_is_dropped_all_begin_anew_and_one_leads() {
    let (map, wakes) = (Numbers::new(100).unwrap(), Arc::new(Wakes::default()));
    let first = lead(&map);
    let mut waits = [wait(&map), wait(&map)];
    assert!(waits.iter_mut().all(|wait| poll(&wakes, wait).is_pending()));
    drop(first);
    assert_eq!((wakes.count(), wakes.wakers()), (2, 0));
    assert!(waits.iter_mut().all(|wait| poll(&wakes, wait) == Poll::Ready(None)));
    let second = lead(&map);
    let mut third = wait(&map);
    assert_eq!((poll(&wakes, &mut third), second.publish(71)), (Poll::Pending, 71));
    assert_eq!((poll(&wakes, &mut third), found(&map)), (Poll::Ready(Some(71)), Some(71)));
}

#[test]
fn a_future_that_is_dropped_leaves_nothing() {
    let (map, wakes, others) = (Numbers::new(100).unwrap(), Arc::new(Wakes::default()), Arc::new(Wakes::default()));
    let lead = lead(&map);
    let mut waits = [wait(&map), wait(&map), wait(&map)];
    for (wait, wakes) in waits.iter_mut().zip([&wakes, &others, &wakes]) {
        assert!(poll(wakes, wait).is_pending());
    }
    let [first, mut second, third] = waits;
    drop(first);
    assert_eq!((wakes.wakers(), others.wakers()), (1, 1));
    drop(third);
    assert_eq!((wakes.wakers(), others.wakers()), (0, 1));
    // The last waker is the one that counts.
    let last = Arc::new(Wakes::default());
    assert!(poll(&last, &mut second).is_pending());
    assert_eq!((others.wakers(), last.wakers()), (0, 1));
    lead.publish(70);
    assert_eq!((wakes.count(), others.count(), last.count()), (0, 0, 1));
    assert_eq!(poll(&last, &mut second), Poll::Ready(Some(70)));
}

/// A waker whose end lets another future go, as that of a task does which owns one.
struct Owns(#[allow(dead_code)] Wait<u64>);

impl Wake for Owns {
    fn wake(self: Arc<Self>) {}
}

/// Polls the future by such a waker, which it keeps alone.
fn poll_by_owner(map: &Numbers, wakes: &Arc<Wakes>, first: &mut Wait<u64>) {
    let mut second = wait(map);
    assert!(poll(wakes, &mut second).is_pending());
    let waker = Waker::from(Arc::new(Owns(second)));
    assert!(pin!(first).poll(&mut Context::from_waker(&waker)).is_pending());
}

// A waker ends when another one takes its place, and when its future is dropped.
#[test]
fn the_end_of_a_waker_may_drop_a_future_of_the_same_flight() {
    ends(|| {
        for is_replaced in [true, false] {
            let (map, wakes) = (Numbers::new(100).unwrap(), Arc::new(Wakes::default()));
            let (lead, mut first) = (lead(&map), wait(&map));
            poll_by_owner(&map, &wakes, &mut first);
            assert!(!is_replaced || poll(&wakes, &mut first).is_pending());
            drop(first);
            assert_eq!((lead.publish(70), wakes.wakers()), (70, 0));
        }
    });
}

// A waker ends, too, when it has been woken.
#[test]
fn a_waker_that_is_woken_may_drop_a_future_of_the_same_flight() {
    ends(|| {
        let (map, wakes) = (Numbers::new(100).unwrap(), Arc::new(Wakes::default()));
        let (lead, mut first) = (lead(&map), wait(&map));
        poll_by_owner(&map, &wakes, &mut first);
        assert_eq!((lead.publish(70), wakes.count(), wakes.wakers()), (70, 1, 0));
        assert_eq!(poll(&wakes, &mut first), Poll::Ready(Some(70)));
    });
}

#[test]
fn a_panic_lets_another_one_lead() {
    let (map, wakes) = (Numbers::new(100).unwrap(), Arc::new(Wakes::default()));
    let mut waiting = None;
    let panicked = catch_unwind(AssertUnwindSafe(|| {
        let _lead = lead(&map);
        let mut wait = wait(&map);
        assert!(poll(&wakes, &mut wait).is_pending());
        waiting = Some(wait);
        panic!("as the test wants");
    }));
    assert!(panicked.is_err());
    assert_eq!((wakes.count(), poll(&wakes, &mut waiting.unwrap())), (1, Poll::Ready(None)));
    assert_eq!(lead(&map).publish(70), 70);
}

#[test]
fn a_value_loaded_before_a_write_is_not_put_and_nobody_waits_for_it_later() {
    let put_and_remove = |map: &Numbers| {
        map.insert(&KEY, 5).unwrap();
        map.remove(&KEY).unwrap();
    };
    let writes: [fn(&Numbers); 3] = [|map| assert_eq!(map.remove(&KEY), Ok(None)), put_and_remove, |map| map.clear().unwrap()];
    for write in writes {
        let (map, wakes) = (Numbers::new(100).unwrap(), Arc::new(Wakes::default()));
        let old = lead(&map);
        let mut before = wait(&map);
        write(&map);
        let new = lead(&map);
        assert_eq!((old.publish(1), map.get(&KEY), poll(&wakes, &mut before)), (1, None, Poll::Ready(Some(1))));
        assert_eq!((new.publish(2), map.get(&KEY)), (2, Some(2)));
    }
}

#[test]
fn a_lead_is_not_of_the_thread_that_boarded() {
    let map = Numbers::new(100).unwrap();
    let lead = lead(&map);
    // A thread's own computation would be `Within`.
    assert_eq!(map.try_get_or_insert_with(&KEY, || 1), Err(GetError::Computing));
    thread::scope(|threads| assert_eq!(threads.spawn(|| lead.publish(70)).join().unwrap(), 70));
    assert_eq!(map.get(&KEY), Some(70));
}

#[test]
fn threads_and_tasks_wait_for_each_other() {
    ends(|| {
        let (map, wakes) = (Numbers::new(100).unwrap(), Arc::new(Wakes::default()));
        let begun = Barrier::new(2);
        thread::scope(|threads| {
            let (send, receive) = channel();
            let (map, begun) = (&map, &begun);
            let thread = threads.spawn(move || {
                map.get_or_insert_with(&KEY, || {
                    begun.wait();
                    receive.recv().unwrap()
                })
            });
            begun.wait();
            let mut wait = wait(map);
            assert!(poll(&wakes, &mut wait).is_pending());
            send.send(70).unwrap();
            assert_eq!(thread.join().unwrap(), 70);
            assert_eq!((wakes.count(), poll(&wakes, &mut wait)), (1, Poll::Ready(Some(70))));
            map.remove(&KEY).unwrap();
            let lead = lead(map);
            // Either it waits, or it comes later and finds the value.
            let thread = threads.spawn(|| map.get_or_insert_with(&KEY, || 9));
            assert_eq!((lead.publish(71), thread.join().unwrap()), (71, 71));
        });
    });
}

#[test]
fn a_computation_may_board_its_own_key() {
    let map = Numbers::new(100).unwrap();
    let value = map.get_or_insert_with(&KEY, || {
        let inner = lead(&map).publish(1);
        assert_eq!(map.get(&KEY), None);
        inner + 1
    });
    assert_eq!((value, map.get(&KEY)), (2, Some(2)));
}

// A store, and a map before it. Tasks change the store and then remove the key, load keys, fail, and are cancelled. What is found is never older
// than a change that was complete before.
#[test]
fn tasks_come_and_go() {
    ends(come_and_go);
}

const KEYS: usize = 4;
type Store = [AtomicU64; KEYS];

fn come_and_go() {
    let map = Numbers::new(100).unwrap();
    let stores: Arc<[Store; 2]> = Arc::default();
    let job = |task: usize| -> Job {
        let (map, stores) = (map.clone(), Arc::clone(&stores));
        Box::pin(async move {
            for round in 0..60 {
                change_and_load(&map, &stores, task, round).await;
            }
        })
    };
    run(THREADS, (0..TASKS).map(job).collect());
    for key in 0..KEYS as u64 {
        map.remove(&key).unwrap();
        assert!(matches!(map.try_board(&key), Board::Lead(_)), "a flight has not ended");
    }
}

async fn change_and_load(map: &Numbers, [store, complete]: &[Store; 2], task: usize, round: usize) {
    let key = (round * 7 + task) % KEYS;
    // Each of these tasks changes one key, so its number of complete changes is known.
    if task < KEYS && round % 3 == 0 {
        let number = store[task].fetch_add(1, SeqCst) + 1;
        map.remove(&(task as u64)).unwrap();
        complete[task].store(number, SeqCst);
    }
    let least = complete[key].load(SeqCst);
    let fetch = || async move {
        let read = store[key].load(SeqCst);
        give_way().await;
        match (task + round) % 5 {
            0 => Err(()),
            _ => Ok(read),
        }
    };
    let waits = AtomicUsize::default();
    let loading = load(map, key as u64, &waits, fetch);
    let polls = if round % 4 == 0 { 1 } else { usize::MAX };
    if let Some(Ok(value)) = cancelled_after(polls, loading).await {
        assert!(value >= least, "key {key}: {value}, and {least} was complete");
    }
}
