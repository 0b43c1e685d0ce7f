//! `get_or_insert_with`: one thread computes and the others wait. A value that was computed before a write of its key is not put after it.
use crate::ends::ends;
use crate::ledger::done;
use cefrodil_map::{GetError, Inserted, ObjectMap};
use std::sync::atomic::{AtomicU64, Ordering::SeqCst};
use std::sync::mpsc::{channel, Receiver, Sender};
use std::sync::Barrier;
use std::thread;
use std::time::Duration;

type Names = ObjectMap<String, String>;

// How long a thread may take to do what it must do at once.
const LONG: Duration = Duration::from_secs(60);

fn text(text: &str) -> String {
    text.into()
}

/// A thread that has begun to compute the value of `key`, and waits before it goes on.
struct Computation {
    value: Receiver<String>,
    go: Sender<()>,
}

impl Computation {
    fn begin(map: &Names, value: &'static str) -> Computation {
        let (begun, wait): (Sender<()>, Receiver<()>) = channel();
        let (go, gone) = channel();
        let (send, value_of_call) = channel();
        let map = map.clone();
        let make = move || {
            begun.send(()).unwrap();
            gone.recv().unwrap();
            text(value)
        };
        thread::spawn(move || send.send(map.get_or_insert_with("key", make)));
        wait.recv_timeout(LONG).expect("the computation has not begun");
        Computation { value: value_of_call, go }
    }

    /// What the call returns.
    fn end(self) -> String {
        self.go.send(()).unwrap();
        self.value.recv_timeout(LONG).expect("the computation does not end")
    }
}

#[test]
fn one_thread_computes_for_all() {
    ends(compute_for_all);
}

fn compute_for_all() {
    const THREADS: usize = 4;
    let map = Names::new(1_000).unwrap();
    let (made, start) = (AtomicU64::new(0), Barrier::new(THREADS));
    thread::scope(|threads| {
        for _ in 0..THREADS {
            threads.spawn(|| {
                for number in 0..50 {
                    start.wait();
                    let value = map.get_or_insert_with(format!("key {number}").as_str(), || {
                        thread::yield_now();
                        made.fetch_add(1, SeqCst);
                        number.to_string()
                    });
                    assert_eq!(value, number.to_string());
                }
            });
        }
    });
    let stats = map.stats();
    assert_eq!((made.load(SeqCst), map.len(), stats.hits + stats.misses), (50, 50, 200));
}

#[test]
fn those_that_wait_find_the_value_and_those_that_try_do_not_wait() {
    let map = Names::new(100).unwrap();
    let first = Computation::begin(&map, "a");
    assert_eq!(map.try_get_or_insert_with("key", || text("b")), Err(GetError::Computing));
    assert_eq!(map.try_get_or_insert_with("other", || text("c")), Ok(text("c")));
    let (send, receive) = channel();
    let waits = map.clone();
    thread::spawn(move || send.send(waits.get_or_insert_with("key", || text("d"))));
    thread::sleep(Duration::from_millis(20));
    assert_eq!(first.end(), "a");
    assert_eq!(receive.recv_timeout(LONG).expect("a thread waits for a computation that has ended"), "a");
    assert_eq!(map.get("key"), Some(text("a")));
}

#[test]
fn an_error_or_a_panic_puts_nothing() {
    let map = Names::new(100).unwrap();
    assert_eq!(map.get_or_try_insert_with("key", || Err("no")), Err("no"));
    assert!(std::panic::catch_unwind(|| map.get_or_insert_with("key", || panic!("as the test wants"))).is_err());
    assert_eq!((map.get("key"), map.len()), (None, 0));
    assert_eq!(map.get_or_try_insert_with("key", || Ok::<_, ()>(text("a"))), Ok(text("a")));
    assert_eq!(map.get_or_try_insert_with("key", || Err("no")), Ok(text("a")));
}

#[test]
fn a_computation_may_call_the_map() {
    ends(compute_within_a_computation);
}

fn compute_within_a_computation() {
    let map = Names::new(100).unwrap();
    let value = map.get_or_insert_with("key", || {
        let inner = map.get_or_insert_with("key", || text("inner"));
        let tried = map.try_get_or_insert_with("key", || text("tried")).unwrap();
        inner + &tried + &map.get_or_insert_with("other", || text("other"))
    });
    assert_eq!((value.as_str(), map.get("key").as_deref()), ("innertriedother", Some("innertriedother")));
}

// A write comes while a thread computes. Then its value is not put, and a call that begins later doesn't wait for it.
fn detaches(write: impl FnOnce(&Names), then: Option<&str>) {
    detaches_in(&Names::new(100).unwrap(), write, then);
}

fn detaches_in(map: &Names, write: impl FnOnce(&Names), then: Option<&str>) {
    let old = Computation::begin(map, "old");
    write(map);
    assert_eq!(map.get("key").as_deref(), then);
    let new = map.try_get_or_insert_with("key", || text("new"));
    assert_eq!(new.as_deref(), Ok(then.unwrap_or("new")), "a call waits for a value that is too old");
    if then.is_none() {
        map.remove("key").unwrap();
    }
    assert_eq!(old.end(), then.unwrap_or("old"));
    assert_eq!(map.get("key").as_deref(), then, "the old value was put");
}

#[test]
fn a_value_computed_before_a_write_is_not_put() {
    detaches(|map| assert!(map.remove("key").unwrap().is_none()), None);
    detaches(|map| map.clear().unwrap(), None);
    detaches(|map| assert_eq!(map.insert(text("key"), text("a")).unwrap(), Inserted::New), Some("a"));
    detaches(|map| assert_eq!(map.insert_if_absent(text("key"), text("a")).unwrap(), Inserted::New), Some("a"));
    detaches(|map| done(map.update(text("key"), |_| text("a")).unwrap()), Some("a"));
    // Also if what was put has gone again.
    detaches(
        |map| {
            map.insert(text("key"), text("a")).unwrap();
            assert!(map.remove("key").unwrap().is_some());
        },
        None,
    );
    type Write = fn(&Names);
    let writes: [Write; 4] = [
        |map| done(map.insert(text("key"), text("a")).unwrap()),
        |map| done(map.insert_if_absent(text("key"), text("a")).unwrap()),
        |map| done(map.update(text("key"), |_| text("a")).unwrap()),
        |map| {
            let since = map.put(text("key"), text("a"), None).unwrap().at;
            map.replace_if(text("key"), since, text("b"), None).unwrap();
        },
    ];
    for write in writes {
        detaches(
            |map| {
                write(map);
                // Others are used and it isn't, so it is evicted.
                (0..600).for_each(|number| {
                    map.insert(number.to_string(), text("other")).unwrap();
                    assert!(map.contains_key(&number.to_string()));
                });
            },
            None,
        );
    }
}

#[test]
fn nor_one_computed_before_an_expired_value_is_removed() {
    for way in 0..3 {
        let map = Names::new(100).unwrap();
        let since = map.put(text("key"), text("expired"), Some(Duration::ZERO)).unwrap().at;
        let remove = |map: &Names| match way {
            0 => assert!(map.remove("key").unwrap().is_none()),
            1 => done(map.remove_if("key", since).unwrap()),
            _ => done(map.remove_stamped(map.hash_of("key"), since).unwrap()),
        };
        detaches_in(&map, remove, None);
    }
}

#[test]
fn a_value_that_came_meanwhile_is_returned() {
    let map = Names::new(100).unwrap();
    let value = map.get_or_insert_with("key", || {
        map.insert(text("key"), text("a")).unwrap();
        text("b")
    });
    assert_eq!((value.as_str(), map.get("key").as_deref()), ("a", Some("a")));
}
