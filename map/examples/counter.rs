//! A rate limiter: a user may make so many requests a minute. The minute is in the value, not in the key, so a user has one entry.
use cefrodil_map::{Map, UpdateError};
use std::{error::Error, thread};

// By user: the minute of the last request, and how many came in it.
type Windows = Map<str, (u64, u32)>;

const MOST: u32 = 100;

fn may_pass(windows: &Windows, user: &str, now: u64) -> Result<bool, UpdateError> {
    let (_, count) = windows.update(user, |last| match last {
        Some((minute, count)) if minute >= now => (minute, count.saturating_add(1)), // another thread's clock may be ahead
        _ => (now, 1),
    })?;
    Ok(count <= MOST)
}

fn main() -> Result<(), Box<dyn Error>> {
    let windows = Windows::new(1_000)?;
    for minute in 0..3 {
        let requests = || (0..50).map(|_| may_pass(&windows, "Ann", minute).map(u32::from)).sum::<Result<u32, _>>();
        let passed: Result<u32, UpdateError> = thread::scope(|scope| {
            let threads: Vec<_> = (0..4).map(|_| scope.spawn(requests)).collect();
            threads.into_iter().map(|thread| thread.join().expect("it doesn't panic")).sum()
        });
        assert_eq!((passed?, windows.len()), (MOST, 1));
    }
    println!("{:?}", windows.stats());
    Ok(())
}
