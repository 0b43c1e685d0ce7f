//! The limit of the process's memory, and the room that it leaves to items.
use cefrodild::budget::Budget;
use cefrodild::rss_limit::RssLimit;
use std::fs;

const MEGABYTE: u64 = 1 << 20;
const HIGH: u64 = 1 << 40;

/// A limit high above what this process takes.
fn high() -> RssLimit {
    RssLimit::new(HIGH).expect("the system tells")
}

/// A budget of a process that may take so many bytes, and clients' buffers many.
fn bounded(bytes: u64) -> Budget {
    let budget = Budget::new(0, HIGH);
    budget.bound_process(bytes).expect("the system tells");
    budget
}

#[test]
fn the_process_takes_what_the_system_counts_in_kilobytes() {
    let text = fs::read_to_string("/proc/self/status").expect("the system tells");
    let counted = text
        .lines()
        .find_map(|line| line.strip_prefix("VmRSS:")?.trim().strip_suffix(" kB")?.parse::<u64>().ok())
        .expect("a number");
    let resident = high().resident().expect("the system tells") >> 10;
    assert!((counted / 2..2 * counted).contains(&resident), "{resident} kB, and the system says {counted}");
}

#[test]
fn what_the_process_does_not_take_is_room() {
    let most = high().most;
    assert!((HIGH - 1000 * MEGABYTE..HIGH).contains(&most), "{most}");
    assert_eq!(RssLimit::new(1).expect("the system tells").most, 0);
    let budget = Budget::new(0, 0);
    let most = budget.bound_process(HIGH).expect("the system tells");
    assert!(most > HIGH - 1000 * MEGABYTE && budget.limit() == most, "{most}");
}

#[test]
fn items_have_what_they_take_and_what_is_free() {
    let limit = high();
    let next = |taken, used| limit.next_limit(taken, used, 1);
    let most = limit.most;
    assert_eq!(next(HIGH - 10, most / 2), most / 2 + 10);
    assert_eq!(next(HIGH, most / 2), most / 2);
    assert_eq!(next(HIGH + 10, most / 2), most / 2 - 10);
    assert_eq!(next(2 * HIGH, most / 2), most / 2 - most / 2 / 32, "less in steps");
    assert_eq!(next(2 * HIGH, 0), most / 8, "but some stays");
    assert_eq!(next(0, most), most, "no more than at first");
}

#[test]
fn a_larger_item_takes_a_larger_step() {
    let limit = high();
    let most = limit.most;
    let next = |over, bytes| limit.next_limit(HIGH + over, most, bytes);
    assert_eq!(next(most, most / 16), most - most / 4);
    assert_eq!(next(10, most / 16), most - 10, "but no larger than it must be");
    assert_eq!(next(most, most), most / 8);
}

#[test]
fn a_look_changes_the_limit() {
    let budget = bounded(HIGH);
    budget.set_limit(0);
    assert!(!budget.look(0));
    assert!(budget.limit() > 1 << 38, "{}", budget.limit());
    let budget = bounded(1);
    budget.set_limit(MEGABYTE);
    assert!(budget.look(0), "the process exceeds it");
    assert_eq!(budget.limit(), 0);
    assert!(!Budget::new(0, 0).look(0), "its memory is not bounded");
}

#[test]
fn buffers_of_connections_are_no_loss() {
    // The process takes more than that.
    let budget = bounded(1);
    budget.change_buffers(0, HIGH);
    assert!(!budget.look(0));
    budget.change_buffers(HIGH, 0);
    assert!(budget.look(0));
}

#[test]
fn what_waits_to_be_freed_is_no_loss_within_its_reserve() {
    // The process takes more than that, and less than what waits.
    let exceeds = |limit| {
        let budget = bounded(1);
        budget.set_limit(limit);
        budget.claim(HIGH).keep();
        budget.leave(HIGH);
        budget.look(0)
    };
    assert!(!exceeds(1 << 46));
    assert!(exceeds(32));
}

#[test]
fn what_is_about_to_be_taken_counts() {
    let budget = bounded(HIGH);
    let mut claim = budget.claim(HIGH);
    assert!(!budget.look(0));
    claim.expect();
    claim.expect();
    assert!(budget.look(0));
    drop(claim);
    assert!(!budget.look(0));
}

#[test]
fn it_is_time_when_enough_was_put() {
    let budget = bounded(HIGH);
    budget.claim((1 << 32) - 1).keep();
    assert!(!budget.is_time_to_look());
    budget.claim(1).keep();
    assert!(budget.is_time_to_look());
    budget.look(0);
    budget.claim((1 << 32) - 1).keep();
    assert!(!budget.is_time_to_look());
    let unbounded = Budget::new(0, 0);
    unbounded.claim(HIGH).keep();
    assert!(!unbounded.is_time_to_look());
}
