//! The calls of a `Map`.
use crate::both::{both, told};
use crate::drawn::{wait_for, Drawn};
use crate::history::Did::{Changed, Failed, Joined, Made, Saw, Set, Tried};
use crate::rounds::{take_a_while, Caller, Calls, Told, KEYS};
use cefrodil_map::{Board, Inserted, Map, Published, Stats};
use std::cell::Cell;
use std::hash::BuildHasher;
use std::sync::atomic::{AtomicU64, Ordering::SeqCst};
use std::time::Duration;

pub struct Values<S> {
    drawn: Drawn,
    map: Map<u64, u64, S>,
    // The next key that fills the map.
    filler: AtomicU64,
}

both!(Values: old: u64 => old);

impl<S: BuildHasher> Values<S> {
    pub fn new(drawn: Drawn, map: Map<u64, u64, S>) -> Values<S> {
        Values { drawn, map, filler: AtomicU64::new(1_000) }
    }

    fn call_with_life(&self, caller: &mut Caller, key: u64, value: u64) -> Told {
        match caller.draw(3) {
            0 => told(self.map.insert_for(&key, value, Duration::ZERO).map(|_| Set(None))),
            1 => told(self.map.insert_for(&key, value, Duration::MAX).map(|_| Set(Some(value)))),
            _ => self.modify(Some(Duration::MAX), key, value),
        }
    }
}

impl<S: BuildHasher + Send + Sync> Calls for Values<S> {
    fn call(&self, caller: &mut Caller, key: u64, value: u64) -> Told {
        let map = &self.map;
        if self.drawn.life.is_some() && caller.draw(4) == 0 {
            return self.call_with_life(caller, key, value);
        }
        if self.drawn.resizes && caller.draw(8) == 0 {
            return self.resize(caller);
        }
        // A map that is to be full is seldom cleared.
        let is_to_stay_full = self.drawn.is_full && caller.draw(10) > 0;
        match caller.draw(if is_to_stay_full { 17 } else { 19 }) {
            0 | 1 => Told::Key(Saw(map.get(&key))),
            2 => told(map.try_get(&key).map(Saw)),
            3 => told(map.peek(&key).map(Saw)),
            4 => Told::Key(Saw(map.get_many([&key])[0])),
            5 | 6 => told(map.insert(&key, value).map(|_| Set(Some(value)))),
            7 => told(map.try_insert(&key, value).map(|_| Set(Some(value)))),
            call @ (8 | 9) => {
                let mut seen = None;
                let change = |old| {
                    seen = old;
                    take_a_while(value);
                    value
                };
                let updated = if call == 8 { map.update(&key, change) } else { map.try_update(&key, change) };
                told(updated.map(|_| Changed(seen, Some(value))))
            }
            10 => self.modify(None, key, value),
            11 => told(map.remove(&key).map(|old| Changed(old, None))),
            12 => told(map.try_remove(&key).map(|old| Changed(old, None))),
            13 => self.compute(caller, key, value),
            14 => self.load(caller, key, value),
            15 => self.call_for_each(caller, key),
            16 if self.drawn.is_full => {
                let _ = map.insert(&self.filler.fetch_add(1, SeqCst), 0);
                Told::Nothing
            }
            16 => Told::Key(map.get_or_try_insert_with(&key, || Err(())).map_or(Saw(None), Joined)),
            17 => map.clear().map_or(Told::Unknown, |_| Told::All(Set(None))),
            _ => {
                map.invalidate_all();
                Told::All(Set(None))
            }
        }
    }

    fn empty(&self) {
        assert_eq!(self.map.set_capacity(self.drawn.capacity), Ok(()));
        if !self.drawn.is_full {
            return KEYS.iter().for_each(|key| assert!(self.map.remove(key).is_ok()));
        }
        assert!(self.map.clear().is_ok());
        // Now one shard is full, and others have room.
        let mut fills = (0..2 * self.map.capacity()).map(|_| self.map.insert(&self.filler.fetch_add(1, SeqCst), 0));
        fills.any(|did| did == Ok(Inserted::Evicted));
    }

    fn stats(&self) -> Stats {
        self.map.stats()
    }

    fn drawn(&self) -> &Drawn {
        &self.drawn
    }

    fn fault(&self) -> Option<String> {
        self.is_too_full().then(|| format!("{} are there: {:?}", self.map.len(), self.map.stats()))
    }

    fn find(&self, key: u64) -> Option<u64> {
        self.map.get(&key)
    }

    fn joins(&self) -> bool {
        true
    }
}
