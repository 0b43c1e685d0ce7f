//! The bytes of items and of clients' buffers, what is counted of items that go, and the seats of clients.
use cefrodil_map::Reason;
use cefrodild::books::Books;
use cefrodild::budget::{cost, Budget};
use cefrodild::counts::Count;
use cefrodild::item::new_item;
use cefrodild::options::Options;
use cefrodild::seat::{Seat, Seats, FREE};
use std::sync::Arc;
use std::thread::sleep;
use std::time::Duration;

/// Seats of so many clients, whose buffers may take so many bytes.
fn seats(most: usize, most_buffers: usize) -> Arc<Seats> {
    Seats::new(most, Arc::new(Books::new(0, &Options { memory: 2 * most_buffers, ..Options::default() })))
}

#[test]
fn bytes_are_added_and_subtracted() {
    let budget = Budget::new(100, 0);
    let state = || (budget.used(), budget.is_over());
    assert_eq!(state(), (0, false));
    budget.claim(60).keep();
    budget.claim(40).keep();
    assert_eq!(state(), (100, false));
    let claim = budget.claim(1);
    assert_eq!((state(), claim.bytes), ((101, true), 1));
    drop(claim);
    assert_eq!(state(), (100, false), "it was not put");
    budget.leave(60);
    assert_eq!(state(), (40, false));
    budget.set_limit(39);
    assert_eq!((budget.limit(), state()), (39, (40, true)));
}

#[test]
fn what_has_left_is_counted_until_it_is_freed() {
    let budget = Budget::new(320, 0);
    let state = || (budget.used(), budget.waiting(), budget.is_crowded());
    budget.claim(320).keep();
    budget.leave(320);
    assert_eq!(state(), (0, 320, false));
    budget.claim(10).keep();
    assert_eq!(state(), (10, 320, false), "a part of the limit is beside it");
    budget.claim(1).keep();
    assert_eq!(state(), (11, 320, true));
    budget.free(320);
    assert_eq!(state(), (11, 0, false));
}

#[test]
fn what_has_left_should_not_take_much() {
    for limit in [1_280, 12_800] {
        let (budget, part) = (Budget::new(limit, 0), limit / 128);
        budget.claim(part + 1).keep();
        budget.leave(part);
        assert!(!budget.has_many_waiting());
        budget.leave(1);
        assert!(budget.has_many_waiting());
    }
}

#[test]
fn what_gave_way_is_counted() {
    let books = Books::new(0, &Options::default());
    let leave = |is_live, was_fetched, reason| {
        let item = new_item(1, 0, if is_live { u64::MAX } else { 0 }, b"key", &[]).expect("there is memory");
        if was_fetched {
            item.note_fetched(1);
        }
        books.budget.claim(cost(3, 0)).keep();
        books.left(&item, reason);
    };
    for (is_live, was_fetched, times) in [(true, true, 1), (true, false, 2), (false, true, 4), (false, false, 8)] {
        (0..times).for_each(|_| leave(is_live, was_fetched, Reason::Evicted));
    }
    for was_fetched in [false, true] {
        leave(false, was_fetched, Reason::Expired);
        leave(true, was_fetched, Reason::Removed);
        leave(true, was_fetched, Reason::Replaced);
    }
    let counts = [Count::Evicted, Count::EvictedUnfetched, Count::Reclaimed, Count::ExpiredUnfetched, Count::Expired];
    assert_eq!(counts.map(|count| books.counts.get(count)), [3, 2, 12, 9, 2]);
    books.counts.reset();
    assert_eq!(counts.map(|count| books.counts.get(count)), [0; 5]);
}

#[test]
fn so_many_seats() {
    let seats = seats(2, 100);
    let (first, second) = (seats.take(0), seats.take(0));
    assert!(first.is_some() && second.is_some() && seats.take(0).is_none());
    assert_eq!(seats.taken(), 2);
    drop(first);
    assert_eq!(seats.taken(), 1);
    let third = seats.take(0);
    assert!(third.is_some() && seats.take(0).is_none());
    drop((second, third));
    assert_eq!(seats.taken(), 0);
}

#[test]
fn what_clients_hold_is_counted() {
    let books = Arc::new(Books::new(0, &Options { memory: 200_000, ..Options::default() }));
    let seats = Seats::new(2, Arc::clone(&books));
    let take = || seats.take(0).expect("a seat is free");
    let (mut first, mut second) = (take(), take());
    first.hold(60, None);
    second.hold(40_000, None);
    assert_eq!(books.budget.buffers(), 40_060);
    first.hold(59_000, None);
    drop(second);
    assert_eq!(books.budget.buffers(), 59_000);
    first.hold(0, None);
    assert_eq!(books.budget.buffers(), 0);
}

#[test]
fn who_holds_most_for_longest_is_cut_off() {
    let seats = seats(3, 1_000);
    let take = || seats.take(0).expect("a seat is free");
    let (mut first, mut second, mut third) = (take(), take(), take());
    let are_cut = |seats: [&Seat; 3]| seats.map(|seat| seat.cut().is_some());
    first.hold(FREE + 600, None);
    sleep(Duration::from_millis(2));
    second.hold(FREE + 300, None);
    third.hold(FREE + 100, None);
    assert_eq!(are_cut([&first, &second, &third]), [false; 3], "all fit");
    third.hold(FREE + 101, None);
    assert_eq!(are_cut([&first, &second, &third]), [true, false, false]);
    // It may come to its end while it holds something else.
    first.hold(FREE + 700, None);
    second.hold(FREE + 899, None);
    assert_eq!(are_cut([&first, &second, &third]), [true, false, false], "what is cut off is not counted");
    first.hold(FREE, None);
    assert_eq!(are_cut([&first, &second, &third]), [false; 3], "it has given up what it held");
    drop(first);
    second.hold(FREE + 900, None);
    assert_eq!([&second, &third].map(|seat| seat.cut().is_some()), [true, false]);
}

/// What is cut off is not counted, and leaves no more room than that to the others.
#[test]
fn the_others_hold_no_more_while_one_is_cut_off() {
    let seats = seats(3, 1_000);
    let take = || seats.take(0).expect("a seat is free");
    let (mut first, mut second, mut third) = (take(), take(), take());
    first.hold(FREE + 1_001, None);
    second.hold(FREE + 500, None);
    third.hold(FREE + 500, None);
    assert_eq!([&first, &second, &third].map(|seat| seat.cut().is_some()), [true, false, false], "the others fit");
    third.hold(FREE + 501, None);
    assert!(second.cut().is_some() || third.cut().is_some());
}

#[test]
fn who_has_held_less_for_much_longer_is_cut_off() {
    let seats = seats(2, 1_000);
    let (mut first, mut second) = (seats.take(0).expect("a seat is free"), seats.take(0).expect("a seat is free"));
    first.hold(FREE + 400, None);
    sleep(Duration::from_millis(20));
    second.hold(FREE + 601, None);
    assert_eq!([&first, &second].map(|seat| seat.cut().is_some()), [true, false]);
}

#[test]
fn a_few_bytes_of_each_client_do_not_count() {
    let books = Arc::new(Books::new(0, &Options::default()));
    let seats = Seats::new(100, Arc::clone(&books));
    let mut all: Vec<_> = (0..100).map_while(|_| seats.take(0)).collect();
    all.iter_mut().for_each(|seat| seat.hold(FREE, None));
    assert!(all.iter().all(|seat| seat.cut().is_none()));
    assert_eq!(books.budget.buffers(), 100 * FREE as u64);
    all[50].hold(FREE + 1, None);
    assert_eq!(all.iter().position(|seat| seat.cut().is_some()), Some(50));
}
