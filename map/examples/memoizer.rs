//! Threads share the results of a function: each is computed once, as long as the map holds it.
use cefrodil_map::Map;
use std::error::Error;
use std::sync::atomic::{AtomicU64, Ordering::SeqCst};
use std::thread;

static COMPUTED: AtomicU64 = AtomicU64::new(0);

fn largest_factor(number: u64) -> u64 {
    COMPUTED.fetch_add(1, SeqCst);
    (1..number).rev().find(|factor| number % factor == 0).unwrap_or(1)
}

fn main() -> Result<(), Box<dyn Error>> {
    let known = Map::<u64, u64>::new(2_000)?;
    thread::scope(|threads| {
        for _ in 0..4 {
            threads.spawn(|| {
                for number in 2..1_000 {
                    let factor = known.get_or_insert_with(&number, || largest_factor(number));
                    assert_eq!(number % factor, 0);
                }
            });
        }
    });
    assert_eq!(COMPUTED.load(SeqCst), 998);
    println!("{} computed for {:?}", COMPUTED.load(SeqCst), known.stats());
    Ok(())
}
