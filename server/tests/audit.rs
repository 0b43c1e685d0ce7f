//! The log for `mccheck`.
use cefrodild::audit::{digest, Audit};
use cefrodild::item::new_item;
use std::fs::{self, File};
use std::path::PathBuf;
use std::process::{id, Command};
use std::thread;

/// A path of a file that isn't there, for this test.
fn path(test: &str) -> PathBuf {
    std::env::temp_dir().join(format!("cefrodild-{}-{test}", id()))
}

#[test]
fn the_end_of_a_log_returns_its_first_error() {
    let log = Audit::create("/dev/full").expect("it can be opened");
    // They are more than its buffer takes.
    (0..10_000).for_each(|at| log.line(format_args!("absent {at} 1")));
    assert!(log.end().is_err());
}

#[test]
fn a_file_that_cannot_be_made_is_named() {
    let why = Audit::create("/no/such/file").err().expect("there is no such folder").to_string();
    assert!(why.contains("/no/such/file"), "{why}");
}

#[test]
fn the_log_tells_items_apart_by_flags_and_by_bytes() {
    let digest = |flags, text: &str| digest(&new_item(1, flags, u64::MAX, b"key", &[text.as_bytes()]).expect("there is memory"));
    assert_eq!(digest(1, "a"), digest(1, "a"));
    assert_ne!(digest(1, "a"), digest(2, "a"));
    assert_ne!(digest(1, "a"), digest(1, "b"));
}

#[test]
fn a_log_has_a_head_and_each_line() {
    let path = path("lines");
    let log = Audit::create(path.to_str().expect("it is text")).expect("it can be made");
    (1..=1_000).for_each(|at| log.line(format_args!("absent {at} 1")));
    // What is in the buffer is written now, and not when the log is dropped.
    log.end().expect("there is room");
    let expected: String = (1..=1_000).map(|at| format!("absent {at} 1\n")).collect();
    assert_eq!(fs::read_to_string(&path).expect("it is there"), format!("words 1\n{expected}"));
    fs::remove_file(path).expect("it is there");
}

#[test]
fn a_log_takes_the_place_of_an_old_one() {
    let path = path("old");
    fs::write(&path, "words 2\nput 1 1 1\n").expect("there is room");
    let log = Audit::create(path.to_str().expect("it is text")).expect("it can be made");
    log.end().expect("there is room");
    assert_eq!(fs::read_to_string(&path).expect("it is there"), "words 1\n");
    fs::remove_file(path).expect("it is there");
}

#[test]
fn an_error_is_not_forgotten_when_later_lines_can_be_written() {
    let path = path("pipe");
    assert!(Command::new("mkfifo").arg(&path).status().is_ok_and(|status| status.success()));
    let name = path.clone();
    let reading = thread::spawn(|| File::open(name));
    let log = Audit::create(path.to_str().expect("it is text")).expect("it is there");
    drop(reading.join().expect("it opens a file"));
    // Nobody reads these, which are more than the buffer takes.
    (0..10_000).for_each(|at| log.line(format_args!("absent {at} 1")));
    let _reader = File::open(&path).expect("it is there");
    log.line(format_args!("absent 1 1"));
    assert!(log.end().is_err());
    fs::remove_file(path).expect("it is there");
}
