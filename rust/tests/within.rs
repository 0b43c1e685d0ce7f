//! A call is made again only while it is held, and at most as often as it may be. So is a put with many tries.
use cefrodil::{Cache, Handle, Held, Reply, Shape, Spent, Take, TurnError};
use std::cell::Cell;
use std::sync::atomic::{AtomicBool, Ordering::SeqCst};
use std::thread;
use std::time::{Duration, Instant};

/// Makes a call that is held this often, and takes key 1 then: what came of it, and how often it was made.
fn tried(tries: u32, held: u32) -> (Result<Take<1>, TurnError<Spent>>, u32) {
    let mut handles = Cache::<1>::open(&Shape::for_items(10, 1).unwrap(), 1, 1).unwrap();
    let calls = Cell::new(0);
    let told = handles[0].within(tries, |handle| {
        calls.set(calls.get() + 1);
        if calls.get() <= held {
            return Err(TurnError::Held);
        }
        handle.try_take(1)
    });
    (told, calls.get())
}

#[test]
fn a_call_is_made_again_while_it_is_held() {
    let done = Ok(Take::NotThere { at: 0 });
    assert_eq!(tried(5, 0), (done, 1));
    assert_eq!(tried(5, 3), (done, 4));
    assert_eq!(tried(5, 4), (done, 5));
    assert_eq!(tried(5, 5), (Err(TurnError::Held), 5));
    assert_eq!(tried(1, 1), (Err(TurnError::Held), 1));
    assert_eq!(tried(0, 0), (done, 1));
}

#[test]
fn a_refusal_is_returned_at_once() {
    let mut handles = Cache::<1>::open(&Shape { limit: 0, ..Shape::for_items(10, 1).unwrap() }, 1, 1).unwrap();
    let mut calls = 0;
    let told = handles[0].within(5, |handle| {
        calls += 1;
        handle.try_remove(1)
    });
    assert_eq!((told, calls), (Err(TurnError::Call(Spent)), 1));
}

// Calls that can only be held are made again, too.
#[test]
fn a_call_that_is_held_or_answers_is_made_again() {
    let mut handles = Cache::<1>::open(&Shape::for_items(10, 1).unwrap(), 1, 2).unwrap();
    let [mine, other] = &mut handles[..] else { unreachable!() };
    let writing = other.hold().unwrap();
    let meter = mine.meter();
    let held = [
        mine.within(3, |handle| handle.try_peek(1).map(|_| ())),
        mine.within(3, |handle| handle.try_len().map(|_| ())),
        mine.within(3, |handle| handle.try_moment().map(|_| ())),
    ];
    assert_eq!((held, meter.counts().held), ([Err(Held); 3], 9));
    drop(writing);
    assert_eq!(mine.within(3, |handle| handle.try_peek(1)), Ok(Reply::Absent { at: 0 }));
    assert_eq!((mine.within(3, Handle::try_len), mine.within(3, Handle::try_moment)), (Ok(0), Ok(0)));
}

// The tries are counted as held, each by itself.
#[test]
fn a_hold_is_tried_again_while_it_is_held() {
    let mut handles = Cache::<1>::open(&Shape::for_items(10, 4).unwrap(), 4, 2).unwrap();
    let [mine, other] = &mut handles[..] else { unreachable!() };
    let writing = other.hold().unwrap();
    let meter = mine.meter();
    for (tries, made) in [(0, 1), (1, 1), (5, 5)] {
        let before = meter.counts().held;
        assert_eq!(mine.hold_within(tries).unwrap_err(), Held);
        assert_eq!(meter.counts().held, before + made);
    }
    drop(writing);
    let before = meter.counts().held;
    assert!(mine.hold_within(0).is_ok() && mine.hold_within(5).unwrap().put(1, &[1]).is_ok());
    assert_eq!(meter.counts().held, before);
}

// Another thread lists the entries again and again, so that it has the turn most of the time.
#[test]
fn many_tries_get_the_turn_that_one_try_was_refused() {
    const KEYS: u64 = 10_000;
    const LONG: Duration = Duration::from_secs(60);
    let mut handles = Cache::<1>::open(&Shape::for_items(KEYS as u32, 1).unwrap(), 1, 2).unwrap();
    let (mut lists, mut puts) = (handles.remove(0), handles.remove(0));
    (0..KEYS).for_each(|key| assert!(puts.try_put(key, &[key]).is_ok()));
    let (end, begin, mut refused, mut lost) = (AtomicBool::new(false), Instant::now(), 0, 0);
    thread::scope(|threads| {
        threads.spawn(|| {
            while !end.load(SeqCst) {
                let _ = lists.try_entries();
            }
        });
        while refused < 5 && begin.elapsed() < LONG {
            if puts.try_put(1, &[1]) == Err(TurnError::Held) {
                refused += 1;
                lost += u32::from(puts.put_within(u32::MAX, 1, &[1]).is_err());
                lost += u32::from(puts.hold_within(u32::MAX).is_err());
            }
        }
        end.store(true, SeqCst);
    });
    assert_eq!((refused, lost), (5, 0));
}
