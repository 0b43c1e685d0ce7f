//! The clock, deadlines, and what a flush hits.
use cefrodild::clock::{unix_time, Clock, NEVER};
use cefrodild::flushes::Flushes;
use cefrodild::item::{new_item, NewItem};
use std::sync::atomic::{AtomicU64, Ordering::SeqCst};
use std::thread;
use std::time::{Duration, Instant, SystemTime, UNIX_EPOCH};

const SECOND: u64 = 1_000_000_000;
const DAYS_30: i64 = 60 * 60 * 24 * 30;

fn item(born: u64, deadline: u64) -> NewItem {
    new_item(born, 0, deadline, b"key", &[]).expect("there is memory")
}

/// Whether this is the deadline of what has so many seconds from a moment between these two.
fn is_after(deadline: u64, seconds: u64, before: u64, after: u64) -> bool {
    (before + seconds * SECOND..=after + seconds * SECOND).contains(&deadline)
}

#[test]
fn how_long_an_item_is_idle() {
    let item = item(5 * SECOND + 1, NEVER);
    assert_eq!([5, 6, 9].map(|second| item.idle(second * SECOND + 2)), [0, 1, 4]);
    item.note_fetched(7 * SECOND);
    assert_eq!([4, 7, 8].map(|second| item.idle(second * SECOND + SECOND - 1)), [0, 0, 1]);
    item.note_fetched(9 * SECOND - 1);
    assert_eq!(item.idle(9 * SECOND), 1);
}

#[test]
fn times_to_live() {
    let clock = Clock::new();
    assert_eq!(clock.deadline(0), NEVER);
    assert_eq!(clock.deadline(-1), 0);
    assert_eq!(clock.deadline(i64::MIN), 0);
    for seconds in [1, 100, DAYS_30] {
        let (before, deadline, after) = (clock.now(), clock.deadline(seconds), clock.now());
        assert!(is_after(deadline, seconds as u64, before, after), "{seconds}");
    }
    // From here on it is a time of day: one that is over.
    assert_eq!(clock.deadline(DAYS_30 + 1), 0);
    // Clients with 32 bits for a time send this for -1.
    assert_eq!(clock.deadline(4_294_967_295), 0);
}

#[test]
fn a_time_of_day_is_exact() {
    let clock = Clock::new();
    let then = Duration::from_secs(unix_time() + 1000);
    let left = || (then - SystemTime::now().duration_since(UNIX_EPOCH).unwrap()).as_nanos() as u64;
    let (before, most) = (clock.now(), left());
    let deadline = clock.deadline(then.as_secs() as i64);
    let (least, after) = (left(), clock.now());
    assert!((before + least..=after + most).contains(&deadline));
}

#[test]
fn the_longest_times_to_live() {
    let clock = Clock::new();
    // So many seconds don't fit into 64 bits as nanoseconds.
    for seconds in [30_000_000_000, i64::MAX] {
        assert_eq!(clock.deadline(seconds), NEVER, "{seconds}");
    }
}

#[test]
fn the_time_that_is_left_is_rounded_up() {
    let clock = Clock::new();
    assert_eq!(clock.left(NEVER), -1);
    assert_eq!(clock.left(0), 0);
    loop {
        let before = clock.now();
        let left = clock.left(before + 100 * SECOND - 1);
        // If the thread had to wait, less is left.
        if clock.now() - before < SECOND - 1 {
            assert_eq!(left, 100);
            return;
        }
    }
}

#[test]
fn the_server_counts_whole_seconds_since_its_start() {
    for milliseconds in [0, 400, 900, 1_000, 1_400, 1_900] {
        let started = Instant::now() - Duration::from_millis(milliseconds);
        let clock = Clock::since(started);
        let before = started.elapsed().as_secs();
        let uptime = clock.uptime();
        assert!((before..=started.elapsed().as_secs()).contains(&uptime), "{milliseconds}: {uptime}");
    }
}

#[test]
fn an_item_lives_until_its_deadline() {
    let (item, flushes) = (item(5, 10), Flushes::default());
    assert!(item.is_live(9, &flushes) && !item.is_live(10, &flushes));
    item.touch(20);
    assert!(item.is_live(19, &flushes) && !item.is_live(20, &flushes));
}

#[test]
fn a_flush_hits_what_was_made_by_then() {
    let (old, new, flushes) = (item(5, NEVER), item(6, NEVER), Flushes::default());
    flushes.flush(|| (5, 5));
    assert!(!old.is_live(7, &flushes) && new.is_live(7, &flushes));
}

#[test]
fn a_flush_that_is_to_come_hits_nothing_before() {
    let (item, flushes) = (item(5, NEVER), Flushes::default());
    flushes.flush(|| (10, 6));
    assert!(item.is_live(9, &flushes) && !item.is_live(10, &flushes));
}

#[test]
fn a_flush_replaces_one_that_is_to_come() {
    let (item, flushes) = (item(5, NEVER), Flushes::default());
    flushes.flush(|| (10, 6));
    flushes.flush(|| (20, 7));
    assert!(item.is_live(19, &flushes) && !item.is_live(20, &flushes));
}

#[test]
fn a_flush_does_not_undo_one_that_has_come() {
    // It comes at 10.
    for now in [10, 11] {
        let (item, flushes) = (item(5, NEVER), Flushes::default());
        flushes.flush(|| (10, 6));
        flushes.flush(|| (20, now));
        assert!(!item.is_live(12, &flushes), "{now}");
    }
}

#[test]
fn a_flush_waits_for_another_one() {
    let (item, flushes) = (item(5, NEVER), Flushes::default());
    thread::scope(|threads| {
        // Else each would take the place of the other, and one would be lost.
        let mut other = None;
        flushes.flush_with(
            || (20, 6),
            || {
                let asking = threads.spawn(|| flushes.flush(|| (6, 6)));
                thread::sleep(Duration::from_millis(20));
                assert!(!asking.is_finished());
                other = Some(asking);
            },
        );
        other.expect("it was asked for").join().expect("it is done");
    });
    assert!(!item.is_live(7, &flushes));
}

#[test]
fn a_flush_to_come_asks_for_the_time_in_its_turn() {
    let (item, flushes, clock) = (item(5, NEVER), Flushes::default(), AtomicU64::new(5));
    thread::scope(|threads| {
        // Had it asked before, it would take the other's place as that of one to come.
        let mut other = None;
        flushes.flush_with(
            || (6, 6),
            || {
                other = Some(threads.spawn(|| {
                    flushes.flush(|| {
                        let now = clock.load(SeqCst);
                        (now + 1000, now)
                    })
                }));
                thread::sleep(Duration::from_millis(20));
                clock.store(7, SeqCst);
            },
        );
        other.expect("it was asked for").join().expect("it is done");
    });
    assert!(!item.is_live(8, &flushes));
}

#[test]
fn nor_while_the_next_one_is_asked_for() {
    let (item, flushes) = (item(5, NEVER), Flushes::default());
    flushes.flush(|| (5, 5));
    flushes.flush_with(|| (20, 6), || assert!(!item.is_live(7, &flushes)));
    assert!(!item.is_live(7, &flushes));
}
