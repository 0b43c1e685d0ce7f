//! A bound on weights, and an eviction that gets no turn.
use super::turns::Turn;
use super::{done, hold, one_shard};
use crate::bound::SHARD;
use crate::objects::{Claim, Weights};
use crate::slots::BEFORE_CALL;
use crate::stats::Kind;
use crate::{Block, BytesMap, CapacityError, GetError, Head, InsertError, Inserted, ObjectBuilder, ObjectMap, RemoveError};
use cefrodil::{Handle, Mix, Shape};
use std::hash::{BuildHasher, BuildHasherDefault, Hasher};
use std::sync::{Arc, Mutex, OnceLock};

type Numbers = ObjectMap<u64, u64>;

/// How often a call tries here.
const TRIES: u32 = 3;

// While an object gives way to a put of its key, another thread takes the turn. So nothing can be evicted then.
#[test]
fn a_sum_that_stays_above_the_bound_is_mended_by_the_next_put() {
    let turn: Arc<Mutex<Option<Turn>>> = Arc::default();
    let map: Arc<OnceLock<Numbers>> = Arc::default();
    let (takes, of) = (Arc::clone(&turn), Arc::clone(&map));
    let listener = move |_: &u64, _: &u64, reason| {
        if reason == crate::Reason::Replaced {
            *takes.lock().unwrap() = Some(Turn::begin(&of.get().unwrap().inner.core.slots, Handle::try_entries));
        }
    };
    let builder = ObjectMap::builder(1).max_weight(100, |_: &u64, value: &u64| *value).listener(listener);
    let map = map.get_or_init(|| builder.open_shaped(&one_shard(100), 1, TRIES).unwrap());
    map.insert(1, 50).unwrap();
    map.insert(2, 50).unwrap();
    map.insert(1, 60).unwrap();
    assert_eq!((map.weight(), map.len()), (110, 2));
    drop(turn.lock().unwrap().take());
    assert_eq!(map.insert(3, 1).unwrap(), Inserted::Evicted);
    assert_eq!((map.weight(), map.get(&1), map.get(&2), map.get(&3)), (61, Some(60), None, Some(1)));
}

// There are enough changes for one insert and one replacement.
#[test]
fn a_put_that_has_nothing_evicted_since_the_shard_is_spent_says_so() {
    let shape = Shape { limit: 4, depth: 0, ..one_shard(8) };
    let map: Numbers = ObjectMap::builder(1).max_weight(10, |_, value| *value).open_shaped(&shape, 1, TRIES).unwrap();
    map.insert(1, 10).unwrap();
    map.replace_if(1, 1, 10, None).unwrap();
    assert_eq!(map.insert(2, 5).unwrap_err().why, InsertError::Spent);
    assert_eq!((map.get(&1), map.weight()), (Some(10), 10));
}

// Another thread has the turn for each try to evict, and not any more for a put after them.
#[test]
fn a_new_key_that_gets_no_turn_to_make_room_is_refused() {
    let map = ObjectMap::builder(1).max_weight(100, |_: &u64, value: &u64| *value);
    let map = map.open_shaped(&one_shard(100), 1, TRIES).unwrap();
    map.insert(1, 60).unwrap();
    let slots = Arc::clone(&map.inner.core.slots);
    let take = move || {
        let turn = Turn::begin(&slots, Handle::try_entries);
        // Each time it tries the shard twice, as the fullest one and as one of all.
        BEFORE_CALL.set(Some((2 * TRIES - 1, Box::new(move || drop(turn)))));
    };
    BEFORE_CALL.set(Some((1, Box::new(take))));
    let refused = map.insert(2, 50).unwrap_err();
    assert_eq!((refused.why, refused.key, refused.value), (InsertError::Held, 2, 50));
    // This ends the other thread's turn.
    drop(BEFORE_CALL.take());
    assert_eq!((map.weight(), map.get(&1), map.stats().refused), (60, Some(60), 1));
    assert_eq!((map.insert(2, 50).unwrap(), map.weight(), map.len()), (Inserted::Evicted, 50, 1));
}

// Another thread has the turn of one of two shards.
#[test]
fn a_shard_without_a_turn_keeps_no_other_from_evicting() {
    // The one that other threads have may have more objects than the other one, or fewer.
    for fuller in [0, 1] {
        let map = Numbers::builder(100).shards(2).max_weight(20, |_, value| *value).open().unwrap();
        let shard_of = |key: &u64| map.hash_of(key) >> 48 & 1;
        let keys = (0..1_000)
            .filter(|key| shard_of(key) == fuller)
            .take(15)
            .chain((0..1_000).filter(|key| shard_of(key) != fuller).take(5));
        keys.for_each(|key| done(map.insert(key, 1).unwrap()));
        let free = |key: &u64| map.inner.core.slots.call(|handle| handle.try_peek(map.hash_of(key)).is_ok());
        let turn = Turn::begin(&map.inner.core.slots, Handle::try_entries);
        for key in (1_000..).filter(free).take(3) {
            assert_eq!((map.try_insert(key, 1).unwrap(), map.weight(), map.get(&key)), (Inserted::Evicted, 20, Some(1)));
        }
        drop(turn);
    }
    let map = Numbers::builder(100).shards(2).max_weight(20, |_, value| *value).open().unwrap();
    (0..40).for_each(|key| done(map.insert(key, 1).unwrap()));
    let free = |key: &u64| map.inner.core.slots.call(|handle| handle.try_peek(map.hash_of(key)).is_ok());
    let turn = Turn::begin(&map.inner.core.slots, Handle::try_entries);
    for key in (100..).filter(free).take(10) {
        assert_eq!((map.try_insert(key, 1).unwrap(), map.weight(), map.get(&key)), (Inserted::Evicted, 20, Some(1)));
    }
    drop(turn);
    map.set_capacity(15).unwrap();
    let turn = Turn::begin(&map.inner.core.slots, Handle::try_entries);
    for key in (1_000..).filter(free).take(10) {
        assert_eq!((map.try_insert(key, 1).unwrap(), map.len(), map.get(&key)), (Inserted::Evicted, 15, Some(1)));
    }
    drop(turn);
}

// While all turns are held, a lower capacity evicts nothing. The next put does, also if its own shard alone has objects.
#[test]
fn a_put_evicts_in_its_own_shard_if_the_others_are_empty() {
    for shard in 0..4 {
        let shape = Shape { mix: Mix::None, ..Shape::for_items(100, 4).unwrap() };
        let map = Numbers::builder(100).open_shaped(&shape, 4, TRIES).unwrap();
        let mut keys = (0..).filter(|key| map.hash_of(key) >> 48 & 3 == shard);
        keys.by_ref().take(12).for_each(|key| done(map.insert(key, 1).unwrap()));
        let held = hold(&map.inner.core.slots);
        assert_eq!((map.set_capacity(5), map.len()), (Err(CapacityError::Evict(RemoveError::Held)), 12));
        drop(held);
        let last = keys.next().unwrap();
        assert_eq!((map.insert(last, 1).unwrap(), map.len()), (Inserted::Evicted, 5));
    }
}

#[test]
fn no_sum_of_weights_wraps() {
    const HIGHEST: u64 = 1 << 48;
    let map = ObjectMap::builder(100).max_weight(u64::MAX, |_: &u64, value: &u64| *value).open().unwrap();
    for bound in [u64::MAX, HIGHEST] {
        map.set_most_weight(bound).unwrap();
        assert_eq!(map.insert(1, HIGHEST + 1).unwrap_err().why, InsertError::TooHeavy);
        assert!(map.insert(2, HIGHEST).is_ok() && map.insert(3, HIGHEST).is_ok());
        assert_eq!((map.len(), map.weight()), (1, HIGHEST));
    }
}

/// Spreads nothing.
#[derive(Default)]
struct Plain(u64);

impl Hasher for Plain {
    fn write(&mut self, _: &[u8]) {
        unreachable!("a key is a number")
    }

    fn write_u64(&mut self, number: u64) {
        self.0 = number;
    }

    fn finish(&self) -> u64 {
        self.0
    }
}

#[test]
fn each_shard_keeps_its_share() {
    keep_shares(ObjectMap::builder(1_600));
    keep_shares(ObjectMap::builder(1_600).hasher(BuildHasherDefault::<Plain>::default()));
}

// Of 800 objects, of which each tenth is heavy, a shard has a sixteenth.
fn keep_shares<S: BuildHasher>(builder: ObjectBuilder<u64, u64, S>) {
    let map = builder.shards(16).threads(1).max_weight(1_520, |_, value| *value).open().unwrap();
    for key in 0..20_000 {
        map.insert(key, if key % 10 == 0 { 10 } else { 1 }).unwrap();
    }
    let mut shards = [0; 16];
    map.for_each(|key, _| shards[(map.hash_of(key) >> 48) as usize % 16] += 1).unwrap();
    assert!(shards.iter().all(|number| (number * 16_u64).abs_diff(map.len() as u64) <= 80), "{shards:?}");
}

#[test]
fn a_bound_that_shrinks_without_a_turn_says_so() {
    let map = Numbers::builder(100).shards(1).max_weight(10, |_, value| *value).open_shaped(&one_shard(100), 1, TRIES).unwrap();
    (0..10).for_each(|key| done(map.insert(key, 1).unwrap()));
    let turn = Turn::begin(&map.inner.core.slots, Handle::try_entries);
    assert_eq!(map.set_most_weight(5), Err(RemoveError::Held));
    drop(turn);
    assert_eq!((map.weight(), map.stats().refused), (10, 1));
    assert_eq!((map.insert(10, 1).unwrap(), map.weight()), (Inserted::Evicted, 5));
}

#[test]
fn a_capacity_that_shrinks_without_a_turn_says_so() {
    let map = Numbers::builder(100).shards(1).open_shaped(&one_shard(100), 1, TRIES).unwrap();
    (0..10).for_each(|key| done(map.insert(key, 1).unwrap()));
    let turn = Turn::begin(&map.inner.core.slots, Handle::try_entries);
    assert_eq!(map.set_capacity(5), Err(CapacityError::Evict(RemoveError::Held)));
    drop(turn);
    assert_eq!((map.len(), map.capacity(), map.stats().refused), (10, 5, 1));
    assert_eq!((map.insert(10, 1).unwrap(), map.len()), (Inserted::Evicted, 5));
}

/// A head of blocks that have nothing else.
struct Empty(#[allow(dead_code)] u8);

// SAFETY: it has one byte, and its lengths are always the same.
unsafe impl Head for Empty {
    const SIZE: usize = 1;

    fn lengths(&self) -> (usize, usize) {
        (0, 0)
    }
}

#[test]
fn an_eviction_without_a_turn_says_so() {
    let map = BytesMap::<Empty>::builder(100).shards(1).open().unwrap();
    map.put(Block::new(Empty(0), b"", &[])).unwrap();
    let turn = Turn::begin(&map.inner.core.slots, |handle: &mut Handle<1>| handle.try_entries());
    assert_eq!(map.inner.evict(TRIES, Kind::Evicted, |_, _| ()), Err(RemoveError::Held));
    assert_eq!((map.len(), map.stats().evicted), (1, 0));
    // Nor does a look at a hash say that nothing is there.
    map.peek_hash(map.hash_of(b""), |look| assert!(matches!(look, Err(GetError::Busy))));
    drop(turn);
    assert_eq!((map.inner.evict(TRIES, Kind::Evicted, |_, _| ()), map.len()), (Ok(Some(())), 0));
}

// Of eight shards, from the next one on, the one with the most objects is to evict first. Here each has as many as its number says.
#[test]
fn the_fullest_of_eight_evicts_first() {
    let weights = Weights::<()>::new(1000, Box::new(|_| 1), 16);
    for shard in 0..16_u64 {
        (0..shard).for_each(|_| Claim::of(Some(&weights), shard << SHARD, 1).unwrap().keep());
    }
    for next in 0..16 {
        assert_eq!(weights.fullest_first().next(), Some((next + 7).min(15) << SHARD));
    }
}
