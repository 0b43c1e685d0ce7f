//! Threads that all write: each adds to counters of the cache, and no addition is lost.
use cefrodil::{Cache, Handle, PutIfError, Reply, Shape, TurnError};
use std::error::Error;
use std::thread;

const THREADS: usize = 4;
const COUNTERS: u64 = 8;
const ADDITIONS: u64 = 20_000;

// Reads the counter, and puts one more if nobody has put it since.
fn add_one(handle: &mut Handle<1>, key: u64) -> Result<(), PutIfError> {
    loop {
        match handle.get(key) {
            Reply::Found { value: [count], since, .. } => match handle.try_put_if(key, since, &[count + 1]) {
                Ok(_) => return Ok(()),
                Err(TurnError::Held | TurnError::Call(PutIfError::Changed { .. })) => {}
                Err(TurnError::Call(why)) => return Err(why),
            },
            Reply::Absent { at } => return Err(PutIfError::NotThere { at }),
            Reply::Busy => {}
        }
        thread::yield_now();
    }
}

fn add_many(handle: &mut Handle<1>) -> Result<(), PutIfError> {
    (0..ADDITIONS).try_for_each(|addition| add_one(handle, addition % COUNTERS))
}

fn main() -> Result<(), Box<dyn Error>> {
    let mut handles = Cache::<1>::open(&Shape::for_items(100, 1)?, 1, THREADS)?;
    for key in 0..COUNTERS {
        handles[0].try_put(key, &[0])?;
    }
    thread::scope(|threads| {
        let adding: Vec<_> = handles.iter_mut().map(|handle| threads.spawn(|| add_many(handle))).collect();
        adding.into_iter().try_for_each(|thread| thread.join().expect("a thread panicked"))
    })?;
    let sum: u64 = (0..COUNTERS).filter_map(|key| handles[0].get_or_turn(key).value()).map(|[count]| count).sum();
    println!("{sum} additions");
    if sum != ADDITIONS * THREADS as u64 {
        return Err("an addition was lost".into());
    }
    Ok(())
}
