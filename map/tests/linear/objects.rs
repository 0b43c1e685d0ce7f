//! The calls of an `ObjectMap`.
use crate::both::{both, told};
use crate::drawn::{wait_for, Drawn};
use crate::history::Did::{Changed, Failed, Joined, Made, Missed, Saw, Set, Tried};
use crate::rounds::{take_a_while, Caller, Calls, Told, KEYS};
use cefrodil_map::{AbsentError, Board, IfError, Inserted, Look, ObjectMap, Published, Stats};
use std::cell::Cell;
use std::hash::BuildHasher;
use std::sync::atomic::{AtomicU64, Ordering::SeqCst};
use std::sync::Arc;
use std::time::Duration;

pub struct Objects<S> {
    drawn: Drawn,
    map: ObjectMap<u64, u64, S>,
    // The next key that fills the map.
    filler: AtomicU64,
    // Of how many objects the listener heard, and how many were freed.
    left: AtomicU64,
    freed: Arc<AtomicU64>,
}

both!(Objects: old: &u64 => *old);

impl<S: BuildHasher> Objects<S> {
    pub fn new(drawn: Drawn, map: ObjectMap<u64, u64, S>, freed: Arc<AtomicU64>) -> Objects<S> {
        Objects { drawn, map, filler: AtomicU64::new(1_000), left: AtomicU64::new(0), freed }
    }

    /// An object leaves. Some make the listener put another one.
    pub fn hear(&self, value: u64) {
        self.left.fetch_add(1, SeqCst);
        if self.drawn.nests && value % 8 == 1 {
            self.fill();
        }
    }

    // Whether another key gave way.
    fn fill(&self) -> bool {
        self.map.insert(self.filler.fetch_add(1, SeqCst), 0).is_ok_and(|did| did == Inserted::Evicted)
    }

    // Keeps a token of the key.
    fn look(&self, caller: &mut Caller, key: u64) -> Told {
        told(self.map.look(&key, |value| *value).map(|look| match look {
            Look::Found { result, since, .. } => {
                caller.tokens[key as usize - 1] = Some((since, result));
                Saw(Some(result))
            }
            _ => Saw(None),
        }))
    }

    // By the token that is kept.
    fn change_if(&self, caller: &mut Caller, key: u64, value: u64) -> Told {
        let Some((since, old)) = caller.tokens[key as usize - 1] else { return self.look(caller, key) };
        let changed = match caller.draw(3) {
            0 => self.map.remove_if(&key, since).map(|_| None),
            _ => self.map.replace_if(key, since, value, None).map(|_| Some(value)).map_err(|refused| refused.why),
        };
        match changed {
            Ok(new) => Told::Key(Changed(Some(old), new)),
            Err(IfError::NotThere { .. } | IfError::Changed { .. }) => Told::Key(Missed(Some(old))),
            Err(_) => Told::Key(Failed),
        }
    }

    fn put_if_absent(&self, key: u64, value: u64) -> Told {
        match self.map.insert_if_absent(key, value).map_err(|refused| refused.why) {
            Ok(_) => Told::Key(Changed(None, Some(value))),
            Err(AbsentError::Present { .. }) => Told::Key(Missed(None)),
            Err(_) => Told::Key(Failed),
        }
    }

    fn call_with_life(&self, caller: &mut Caller, key: u64, value: u64) -> Told {
        match caller.draw(5) {
            0 => told(self.map.insert_for(key, value, Duration::ZERO).map(|_| Set(None))),
            1 => told(self.map.insert_for(key, value, Duration::MAX).map(|_| Set(Some(value)))),
            2 => self.modify(Some(Duration::MAX), key, value),
            // If it does nothing, that says nothing.
            3 => Told::Key(if self.map.touch(&key, Duration::MAX) { Missed(None) } else { return self.look(caller, key) }),
            _ => self.map.remove_expired().map_or(Told::Unknown, |_| Told::Nothing),
        }
    }

    // The value stays while it is pinned.
    fn pin(&self, caller: &mut Caller, key: u64) -> Told {
        let pin = match caller.draw(2) {
            0 => self.map.pin(&key),
            _ => return told(self.map.take(&key).map(|pin| Changed(pin.map(|pin| *pin), None))),
        };
        let seen = pin.as_deref().copied();
        take_a_while(seen.unwrap_or(0));
        assert_eq!(pin.as_deref().copied(), seen);
        Told::Key(Saw(seen))
    }

    // What concerns other keys.
    fn call_others(&self, caller: &mut Caller) -> Told {
        match caller.draw(3) {
            0 if self.drawn.is_full => drop(self.fill()),
            1 if self.drawn.most_weight.is_some() => drop(self.map.set_most_weight(1 + caller.draw(64))),
            _ => drop(self.map.free_unused()),
        }
        Told::Nothing
    }
}

impl<S: BuildHasher + Send + Sync> Calls for Objects<S> {
    fn call(&self, caller: &mut Caller, key: u64, value: u64) -> Told {
        let map = &self.map;
        if self.drawn.life.is_some() && caller.draw(4) == 0 {
            return self.call_with_life(caller, key, value);
        }
        if self.drawn.resizes && caller.draw(8) == 0 {
            return self.resize(caller);
        }
        // A map that is to be full is seldom cleared.
        let is_to_stay_full = self.drawn.is_full && caller.draw(10) > 0;
        match caller.draw(if is_to_stay_full { 22 } else { 24 }) {
            0 => Told::Key(Saw(map.get(&key))),
            1 => Told::Key(Saw(map.get_many([&key])[0])),
            2 => told(map.peek(&key).map(Saw)),
            3 | 4 => self.look(caller, key),
            5 => told(map.insert(key, value).map(|_| Set(Some(value)))),
            6 => told(map.try_insert(key, value).map(|_| Set(Some(value)))),
            7 | 8 => self.put_if_absent(key, value),
            call @ (9 | 10) => {
                let seen = Cell::new(None);
                let change = |old: Option<&u64>| {
                    seen.set(old.copied());
                    take_a_while(value);
                    value
                };
                let updated = if call == 9 { map.update(key, change) } else { map.try_update(key, change) };
                told(updated.map(|_| Changed(seen.get(), Some(value))))
            }
            11 => self.modify(None, key, value),
            12 => told(map.remove(&key).map(|old| Changed(old, None))),
            13 => told(map.try_remove(&key).map(|old| Changed(old, None))),
            14 => self.compute(caller, key, value),
            15 => self.load(caller, key, value),
            16 | 17 => self.change_if(caller, key, value),
            18 | 19 => self.pin(caller, key),
            20 => self.call_for_each(caller, key),
            21 => self.call_others(caller),
            22 => map.clear().map_or(Told::Unknown, |_| Told::All(Set(None))),
            _ => {
                map.invalidate_all();
                Told::All(Set(None))
            }
        }
    }

    fn empty(&self) {
        assert_eq!(self.map.set_capacity(self.drawn.capacity), Ok(()));
        if let Some(most) = self.drawn.most_weight {
            assert!(self.map.set_most_weight(most).is_ok());
        }
        if !self.drawn.is_full {
            return KEYS.iter().for_each(|key| assert!(self.map.remove(key).is_ok()));
        }
        assert!(self.map.clear().is_ok());
        (0..2 * self.map.capacity()).any(|_| self.fill());
    }

    fn stats(&self) -> Stats {
        self.map.stats()
    }

    fn drawn(&self) -> &Drawn {
        &self.drawn
    }

    // Each object that was put is there, or has left once, and then waits or is freed.
    fn fault(&self) -> Option<String> {
        let (stats, there) = (self.map.stats(), self.map.len() as u64);
        let (left, freed) = (self.left.load(SeqCst), self.freed.load(SeqCst));
        let adds_up = stats.added + stats.renewed == there + left && left == freed + stats.waiting;
        let is_too_heavy =
            self.drawn.most_weight.is_some_and(|most| self.map.set_most_weight(most).is_err() || self.map.weight() > most);
        let is_wrong = is_too_heavy || self.is_too_full() || self.drawn.listens && !adds_up;
        is_wrong
            .then(|| format!("{there} are there of weight {}, {left} have left, {freed} are freed: {stats:?}", self.map.weight()))
    }

    fn find(&self, key: u64) -> Option<u64> {
        self.map.get(&key)
    }

    fn joins(&self) -> bool {
        false
    }
}
