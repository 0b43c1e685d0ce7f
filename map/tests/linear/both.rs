//! The calls that a `Map` and an `ObjectMap` have alike, and what is made of their answers.
use crate::history::Did::{self, Failed};
use crate::rounds::Told;

pub fn told<E>(did: Result<Did, E>) -> Told {
    Told::Key(did.unwrap_or(Failed))
}

/// Those of the type `$calls`, whose `map` shows a value that is there as a `$kind`: `$seen` of `$old`.
macro_rules! both {
    ($calls:ident: $old:ident: $kind:ty => $seen:expr) => {
        impl<S: BuildHasher> $calls<S> {
            fn compute(&self, caller: &mut Caller, key: u64, value: u64) -> Told {
                let (mut from, clock) = (None, caller.clock);
                let mut made = || {
                    from = Some(clock.next());
                    take_a_while(value);
                    value
                };
                let found = match caller.draw(2) {
                    0 => self.map.get_or_insert_with(&key, made),
                    _ => wait_for(self.map.get_or_insert_async(&key, async { made() })),
                };
                Told::Key(match from {
                    Some(from) if found == value => Made { value, from, is_put: None },
                    Some(_) => Saw(Some(found)),
                    None => Joined(found),
                })
            }

            fn load(&self, caller: &Caller, key: u64, value: u64) -> Told {
                let lead = match self.map.try_board(&key) {
                    Board::Found(found) => return Told::Key(Saw(Some(found))),
                    Board::Wait(_) => return Told::Key(Saw(None)),
                    Board::Lead(lead) => lead,
                };
                let from = caller.clock.next();
                take_a_while(value);
                match lead.try_publish(value) {
                    Published::Put(_) => Told::Key(Made { value, from, is_put: Some(true) }),
                    Published::Other(found) => Told::Key(Saw(Some(found))),
                    _ => Told::Key(Made { value, from, is_put: Some(false) }),
                }
            }

            fn modify(&self, life: Option<Duration>, key: u64, value: u64) -> Told {
                let seen = Cell::new(None);
                let change = |$old: $kind| {
                    seen.set(Some($seen));
                    take_a_while(value);
                    value
                };
                let changed = match life {
                    Some(life) => self.map.modify_for(&key, life, change),
                    None => self.map.modify(&key, change),
                };
                told(changed.map(|new| new.map_or(Tried, |_| Changed(seen.get(), Some(value)))))
            }

            fn resize(&self, caller: &mut Caller) -> Told {
                let _ = self.map.set_capacity(1 + caller.draw(self.drawn.capacity as u64) as usize);
                Told::Nothing
            }

            // Whether there are more entries than the capacity says, though no call runs.
            fn is_too_full(&self) -> bool {
                self.drawn.resizes
                    && (self.map.set_capacity(self.map.capacity()).is_err() || self.map.len() > self.map.capacity())
            }

            // Each key is looked up at a moment of its own, or only this one is removed.
            fn call_for_each(&self, caller: &mut Caller, key: u64) -> Told {
                if caller.draw(2) == 0 {
                    let mut seen = [None; KEYS.len()];
                    let see = |key: &u64, value: &u64| {
                        KEYS.iter().position(|own| own == key).map_or((), |own| seen[own] = Some(*value))
                    };
                    return self.map.for_each(see).map_or(Told::Nothing, |_| Told::Each(seen.map(Saw)));
                }
                let mut seen = None;
                let removed = self.map.retain(|own, value| {
                    *own != key || {
                        seen = Some(*value);
                        false
                    }
                });
                // What is being made for another key may be lost.
                let did = |count| KEYS.map(|own| if own == key { Changed(seen.filter(|_| count == 1), None) } else { Failed });
                removed.map_or(Told::Unknown, |count| Told::Each(did(count)))
            }
        }
    };
}
pub(crate) use both;
