//! How often a call tries, and how it waits in between.
use super::one_shard;
use crate::wait::{within, Pause};
use crate::Map;
use cefrodil::TurnError;
use std::time::Duration;

#[test]
fn it_spins_then_it_yields_and_at_last_it_sleeps() {
    let pauses: Vec<Pause> = (0..10_000).map(Pause::of).collect();
    assert_eq!(pauses[..7], [1, 2, 4, 8, 16, 32, 64].map(Pause::Spin));
    assert!(pauses[7..200].iter().all(|pause| *pause == Pause::Yield));
    assert!(pauses[200..].iter().all(|pause| *pause == Pause::Sleep(Duration::from_micros(100))));
}

// How many tries a call makes that is allowed so many, if this many fail.
fn tries(allowed: u32, failing: u32) -> (u32, bool) {
    let mut tried = 0;
    let done = within(allowed, || {
        tried += 1;
        (tried > failing).then_some(())
    });
    (tried, done.is_some())
}

#[test]
fn it_tries_until_it_is_done_and_no_more_often_than_it_may() {
    assert_eq!([tries(1, 0), tries(1, 1), tries(10, 3), tries(10, 9)], [(1, true), (1, false), (4, true), (10, true)]);
    assert_eq!([tries(10, 10), tries(0, 0)], [(10, false), (0, false)]);
}

#[test]
fn a_call_that_gets_no_turn_says_so() {
    let map = Map::<u64, u64>::new(10).unwrap();
    let mut tried = 0;
    let mut held = |tries, turn| {
        tried = 0;
        let told = map.inner.core.slots.in_turn(tries, || {
            tried += 1;
            if tried == turn {
                Err(TurnError::Call("answer"))
            } else {
                Err::<(), _>(TurnError::Held)
            }
        });
        (told, tried)
    };
    assert_eq!(held(3, 4), (Err(TurnError::Held), 3));
    assert_eq!(held(3, 3), (Err(TurnError::Call("answer")), 3));
}

// A call tries 10,000 times, which takes over a second, and a lookup that may miss 1,000 times.
#[test]
fn the_calls_of_a_map_try_so_often() {
    let map = Map::<u64, u64>::new(10).unwrap();
    assert_eq!((map.inner.core.tries, map.inner.core.looks()), (10_000, 1_000));
    let once = Map::<u64, u64>::builder(1).open_shaped(&one_shard(10), 1, 1).unwrap();
    assert_eq!((once.inner.core.tries, once.inner.core.looks()), (1, 1));
    #[cfg(feature = "objects")]
    {
        let map = crate::ObjectMap::<u64, u64>::new(10).unwrap();
        assert_eq!((map.inner.core.tries, map.inner.core.looks()), (10_000, 1_000));
    }
}
