//! Tasks that want the same key: one loads its value, and the others wait and then find it.
use crate::ends::ends;
use crate::executor::{give_way, poll, run, Job, Wakes};
use cefrodil_map::{Board, ObjectLead, ObjectMap, ObjectWait};
use std::future::pending;
use std::sync::atomic::{AtomicUsize, Ordering::SeqCst};
use std::sync::Arc;
use std::task::Poll;

type Texts = ObjectMap<String, String>;

const TASKS: usize = 100;

fn lead(map: &Texts) -> ObjectLead<'_, String, String> {
    match map.try_board("key") {
        Board::Lead(lead) => lead,
        other => panic!("it is not the first: {other:?}"),
    }
}

fn wait(map: &Texts) -> ObjectWait {
    match map.try_board("key") {
        Board::Wait(wait) => wait,
        other => panic!("nobody loads the value: {other:?}"),
    }
}

async fn load(map: &Texts, waiting: &AtomicUsize, loads: &AtomicUsize) -> String {
    loop {
        match map.try_board("key") {
            Board::Found(value) => return value,
            Board::Lead(lead) => {
                loads.fetch_add(1, SeqCst);
                while waiting.load(SeqCst) < TASKS - 1 {
                    give_way().await;
                }
                return lead.publish("value".into());
            }
            Board::Wait(wait) => {
                waiting.fetch_add(1, SeqCst);
                wait.await;
            }
        }
    }
}

#[test]
fn one_task_loads_for_all() {
    ends(|| {
        let (map, counts): (_, Arc<[AtomicUsize; 3]>) = (Texts::new(100).unwrap(), Arc::default());
        let job = || -> Job {
            let (map, counts) = (map.clone(), Arc::clone(&counts));
            Box::pin(async move {
                let [waiting, loads, ended] = &*counts;
                assert_eq!(load(&map, waiting, loads).await, "value");
                ended.fetch_add(1, SeqCst);
            })
        };
        run(4, (0..TASKS).map(|_| job()).collect());
        assert_eq!(counts.each_ref().map(|count| count.load(SeqCst)), [TASKS - 1, 1, TASKS]);
        assert_eq!((map.get("key").as_deref(), map.stats().added), (Some("value"), 1));
    });
}

#[test]
fn if_a_lead_is_dropped_all_begin_anew_and_one_leads() {
    let (map, wakes) = (Texts::new(100).unwrap(), Arc::new(Wakes::default()));
    let first = lead(&map);
    let (mut one, mut two) = (wait(&map), wait(&map));
    assert_eq!((poll(&wakes, &mut one), poll(&wakes, &mut two)), (Poll::Pending, Poll::Pending));
    drop(two);
    assert_eq!(wakes.wakers(), 1);
    drop(first);
    assert_eq!((wakes.count(), wakes.wakers(), poll(&wakes, &mut one)), (1, 0, Poll::Ready(())));
    let second = lead(&map);
    let mut three = wait(&map);
    assert_eq!(poll(&wakes, &mut three), Poll::Pending);
    assert_eq!(second.publish("new".into()), "new");
    assert_eq!((wakes.count(), poll(&wakes, &mut three)), (2, Poll::Ready(())));
    assert!(matches!(map.try_board("key"), Board::Found(value) if value == "new"));
}

#[test]
fn a_value_loaded_before_a_write_is_not_put() {
    let map = Texts::new(100).unwrap();
    let old = lead(&map);
    map.remove("key").unwrap();
    let new = lead(&map);
    assert_eq!((old.publish("old".into()), map.get("key")), ("old".into(), None));
    assert_eq!((new.publish("new".into()), map.get("key")), ("new".into(), Some("new".into())));
}

#[test]
fn a_value_that_was_put_meanwhile_is_returned() {
    let map = Texts::new(100).unwrap();
    let lead = lead(&map);
    map.insert("key".into(), "other".into()).unwrap();
    assert_eq!((lead.publish("mine".into()), map.get("key")), ("other".into(), Some("other".into())));
}

#[test]
fn a_computation_may_board_its_own_key() {
    let map = Texts::new(100).unwrap();
    let value = map.get_or_insert_with("key", || {
        assert_eq!((lead(&map).publish("inner".into()), map.get("key")), ("inner".into(), None));
        "outer".into()
    });
    assert_eq!((value, map.get("key")), ("outer".to_string(), Some("outer".to_string())));
}

// A load of one call, which is dropped, and one of another.
#[test]
fn a_call_that_loads_waits_for_another_one_or_loads_itself() {
    let (map, wakes) = (Texts::new(100).unwrap(), Arc::new(Wakes::default()));
    let mut first = Box::pin(map.get_or_insert_async("key", pending()));
    let mut second = Box::pin(map.get_or_insert_async("key", async { "value".to_string() }));
    let mut third = Box::pin(map.get_or_try_insert_async("key", async { Err("it is there") }));
    assert!(
        poll(&wakes, &mut first).is_pending() && poll(&wakes, &mut second).is_pending() && poll(&wakes, &mut third).is_pending()
    );
    drop(first);
    assert_eq!(poll(&wakes, &mut second), Poll::Ready("value".to_string()));
    assert_eq!(poll(&wakes, &mut third), Poll::Ready(Ok("value".to_string())));
    let mut failing = Box::pin(map.get_or_try_insert_async("other", async { Err("no value") }));
    assert_eq!((poll(&wakes, &mut failing), map.get("other")), (Poll::Ready(Err("no value")), None));
}
