//! Threads count keys that no thread has put yet. All of them see that a key is absent before any of them puts it. The first to put it puts 1,
//! and only if the key is absent, so no count is lost.
use cefrodil::{Cache, Handle, PutIfAbsentError, PutIfError, Reply, Shape, TurnError};
use std::sync::Barrier;
use std::thread;

const THREADS: usize = 4;
const KEYS: u64 = 2_000;

// One more than what the lookup found. False if another thread put it first or has the turn. A key that can't be put is found out at the
// end: a thread that gave up would leave the others waiting.
fn counts(handle: &mut Handle<1>, key: u64, looked: Reply<1>) -> bool {
    match looked {
        Reply::Found { value: [count], since, .. } => {
            let put = handle.try_put_if(key, since, &[count + 1]);
            !matches!(put, Err(TurnError::Held | TurnError::Call(PutIfError::Changed { .. })))
        }
        Reply::Absent { .. } => {
            let put = handle.try_put_if_absent(key, &[1]);
            !matches!(put, Err(TurnError::Held | TurnError::Call(PutIfAbsentError::Present { .. })))
        }
        Reply::Busy => false,
    }
}

fn count_all(handle: &mut Handle<1>, all_looked: &Barrier) {
    for key in 0..KEYS {
        let mut looked = handle.get(key);
        all_looked.wait();
        while !counts(handle, key, looked) {
            thread::yield_now();
            looked = handle.get(key);
        }
    }
}

#[test]
fn no_count_of_a_new_key_is_lost() {
    let mut handles = Cache::<1>::open(&Shape::for_items(4_000, 1).unwrap(), 1, THREADS).unwrap();
    let all_looked = Barrier::new(THREADS);
    thread::scope(|threads| {
        for handle in &mut handles {
            threads.spawn(|| count_all(handle, &all_looked));
        }
    });
    for key in 0..KEYS {
        assert_eq!(handles[0].get_or_turn(key).value(), Some([THREADS as u64]), "key {key}");
    }
}
