//! Evictions by calls of a stand-in for the index, whose answers a test says.
use crate::core::Core;
use crate::error::RemoveError;
use crate::handle::Index;
use crate::settings::Settings;
use crate::stats::Kind;
use crate::words::MOST;
use cefrodil::{Entry, EvictError, ListError, TurnError};
use std::collections::VecDeque;

type Told = Result<Option<(u64, u64)>, TurnError<EvictError>>;

// A handle whose evictions come to these, one after the other.
struct Says(VecDeque<Told>);

impl Index for Says {
    fn more(&mut self) -> Option<Says> {
        None
    }

    fn capacity(&mut self) -> usize {
        10
    }

    fn keys(&mut self) -> Result<Vec<u64>, TurnError<ListError>> {
        Err(TurnError::Held)
    }

    fn entry_at(&mut self, _: u64, _: u32) -> Option<Entry<MOST>> {
        None
    }

    fn evict(&mut self, _: u64) -> Told {
        self.0.pop_front().expect("it evicts no more often")
    }
}

const EMPTY: Told = Ok(None);
const HELD: Told = Err(TurnError::Held);
const ALL_RECENT: Told = Err(TurnError::Call(EvictError::AllRecent));
const SPENT: Told = Err(TurnError::Call(EvictError::Spent));

// What an eviction in one of two shards comes to, with so many tries: the word of the value, if there is one.
fn evicted(told: &[Told], tries: u32) -> Result<Option<u64>, RemoveError> {
    let core = Core::<Says, ()>::new(vec![Says(told.iter().cloned().collect())], 2, &Settings::new(10), 10);
    let evicted = core.evict(|| [0, 1].into_iter(), tries, Kind::EvictedByCapacity);
    assert!(core.slots.call(|handle| handle.0.is_empty()), "it evicts less often");
    evicted.map(|evicted| evicted.map(|evicted| evicted.word))
}

#[test]
fn a_shard_whose_entries_were_all_used_is_not_empty() {
    assert_eq!(evicted(&[ALL_RECENT, EMPTY, EMPTY, Ok(Some((1, 7)))], 3), Ok(Some(7)));
    assert_eq!(evicted(&[EMPTY, ALL_RECENT, ALL_RECENT, EMPTY], 2), Err(RemoveError::Held));
}

#[test]
fn a_shard_whose_turn_another_thread_has_is_tried_again() {
    assert_eq!(evicted(&[HELD, EMPTY, Ok(Some((1, 7)))], 2), Ok(Some(7)));
    assert_eq!(evicted(&[EMPTY, HELD, EMPTY, EMPTY], 2), Ok(None));
    assert_eq!(evicted(&[HELD, HELD, HELD, HELD], 2), Err(RemoveError::Held));
}

#[test]
fn empty_shards_are_tried_once_and_a_spent_one_ends_it() {
    assert_eq!(evicted(&[EMPTY, EMPTY], 3), Ok(None));
    assert_eq!(evicted(&[EMPTY, SPENT], 3), Err(RemoveError::Spent));
}
