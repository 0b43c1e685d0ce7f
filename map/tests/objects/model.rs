//! Random calls are answered as by a plain `HashMap`. The listener says what was evicted.
use crate::ledger::{done, next, Ledger, Owned};
use cefrodil_map::{AbsentError, IfError, Inserted, Look, ObjectMap, Reason};
use std::collections::HashMap;
use std::sync::{Arc, Mutex};

const KEYS: u64 = 500;
const CALLS: u64 = 60_000;

type Values = ObjectMap<u64, Owned>;
type Heard = Arc<Mutex<Vec<(u64, u64, Reason)>>>;

/// What the map must hold: the number of each key's value, and the moment of its put.
struct Model {
    map: Values,
    ledger: &'static Ledger,
    heard: Heard,
    entries: HashMap<u64, (u64, u64)>,
    evicted: u64,
}

impl Model {
    fn new(capacity: usize, shards: u32) -> Model {
        let heard = Heard::default();
        let hears = Arc::clone(&heard);
        let hear = move |key: &u64, value: &Owned, reason| {
            value.is_right(*key);
            hears.lock().unwrap().push((*key, value.number, reason));
        };
        let map = ObjectMap::builder(capacity).shards(shards).threads(1).listener(hear).open().unwrap();
        Model { map, ledger: Ledger::new(4 * CALLS as usize), heard, entries: HashMap::new(), evicted: 0 }
    }

    // What left during the last call: this key's own value for this reason, and perhaps one that was evicted.
    fn left(&mut self, own: Option<(u64, Reason)>) {
        let mut expected: Vec<_> =
            own.and_then(|(key, reason)| Some((key, self.entries.remove(&key)?.0, reason))).into_iter().collect();
        let heard = std::mem::take(&mut *self.heard.lock().unwrap());
        if let Some((key, number, Reason::Evicted)) = heard.last() {
            let (evicted, _) = self.entries.remove(key).expect("what is evicted was there");
            assert_eq!(evicted, *number);
            expected.push((*key, *number, Reason::Evicted));
            self.evicted += 1;
        }
        assert_eq!(heard, expected);
    }

    fn put(&mut self, key: u64, number: u64, put: cefrodil_map::Put) {
        let there = self.entries.contains_key(&key);
        let evicted = self.evicted;
        self.left(Some((key, Reason::Replaced)));
        let did = match (there, self.evicted > evicted) {
            (true, false) => Inserted::Renewed,
            (false, false) => Inserted::New,
            (false, true) => Inserted::Evicted,
            (true, true) => panic!("a key that was there evicted another"),
        };
        assert_eq!(put.did, did);
        self.entries.insert(key, (number, put.at));
    }

    fn look(&mut self, key: u64, kind: u64) {
        let expected = self.entries.get(&key).copied();
        let number = |value: &Owned| {
            value.is_right(key);
            value.number
        };
        match kind {
            0..=2 => assert_eq!(self.map.get_with(&key, number), expected.map(|(number, _)| number)),
            3 => assert_eq!(self.map.contains_key(&key), expected.is_some()),
            4 => match self.map.look(&key, number).unwrap() {
                Look::Found { result, since, at } => assert!(expected == Some((result, since)) && since <= at),
                other => assert!(expected.is_none() && matches!(other, Look::Absent { .. })),
            },
            _ => {
                let keys: Vec<u64> = (key..key + 40).collect();
                let mut found = HashMap::new();
                let keys: Vec<&u64> = keys.iter().collect();
                self.map.get_many_with(&keys, |index, value| done(found.insert(*keys[index], value.number)));
                keys.iter().for_each(|key| assert_eq!(found.get(key), self.entries.get(key).map(|(number, _)| number)));
            }
        }
    }

    fn write(&mut self, key: u64, kind: u64) {
        let (expected, map, ledger) = (self.entries.get(&key).copied(), self.map.clone(), self.ledger);
        let value = || ledger.make(key);
        match kind {
            0..=3 => {
                let value = value();
                let number = value.number;
                let put = map.put(key, value, None).unwrap();
                self.put(key, number, put);
            }
            4 => match (map.put_if_absent(key, value(), None), expected) {
                (Ok(put), None) => self.put(key, ledger.made() - 1, put),
                (Err(refused), Some((_, since))) => assert_eq!(refused.why, AbsentError::Present { since }),
                (put, _) => panic!("{put:?}, but there is {expected:?}"),
            },
            5 => {
                let put = map.update(key, |old| {
                    assert_eq!(old.map(|old| old.number), expected.map(|(number, _)| number));
                    value()
                });
                self.put(key, ledger.made() - 1, put.unwrap());
            }
            6 => match map.modify(&key, |_| value()).unwrap() {
                Some(put) => {
                    assert!(expected.is_some());
                    self.put(key, ledger.made() - 1, put);
                }
                None => assert!(expected.is_none()),
            },
            _ => self.condition(key, kind),
        }
    }

    fn condition(&mut self, key: u64, kind: u64) {
        let (expected, map, ledger) = (self.entries.get(&key).copied(), self.map.clone(), self.ledger);
        let since = expected.map_or(1, |(_, since)| since);
        match kind {
            7 => match (map.replace_if(key, since, ledger.make(key), None), expected) {
                (Ok(put), Some(_)) => self.put(key, ledger.made() - 1, put),
                (Err(refused), None) => assert!(matches!(refused.why, IfError::NotThere { .. })),
                (put, _) => panic!("{put:?}, but there is {expected:?}"),
            },
            8 => {
                let refused = map.replace_if(key, since + 1_000_000, ledger.make(key), None).unwrap_err();
                assert_eq!(matches!(refused.why, IfError::Changed { .. }), expected.is_some());
                assert!(map.remove_if(&key, since + 1_000_000).is_err());
            }
            9 => {
                assert_eq!(map.remove_if(&key, since).is_ok(), expected.is_some());
                self.left(Some((key, Reason::Removed)));
            }
            10 => {
                let value = map.get_or_insert_with(&key, || ledger.make(key));
                assert_eq!(value.key, key);
                if expected.is_none() {
                    // Of the value, a clone was put.
                    let Ok(Look::Found { result, since, .. }) = map.look(&key, |value| value.number) else {
                        panic!("it was put")
                    };
                    assert_eq!((value.number, result), (ledger.made() - 2, ledger.made() - 1));
                    self.left(None);
                    self.entries.insert(key, (result, since));
                }
            }
            _ => {
                let removed = map.remove_with(&key, |value| value.number).unwrap().found();
                assert_eq!(removed, expected.map(|(number, _)| number));
                self.left(Some((key, Reason::Removed)));
            }
        }
    }

    fn clear(&mut self) {
        self.map.clear().unwrap();
        let mut heard = std::mem::take(&mut *self.heard.lock().unwrap());
        let mut expected: Vec<_> = self.entries.drain().map(|(key, (number, _))| (key, number, Reason::Removed)).collect();
        heard.sort_by_key(|(key, ..)| *key);
        expected.sort_by_key(|(key, ..)| *key);
        assert_eq!(heard, expected);
        assert!(self.map.is_empty());
    }
}

fn agrees(capacity: usize, shards: u32, evicts: bool) {
    let (mut model, mut seed) = (Model::new(capacity, shards), 88_172_645_463_325_252);
    for number in 0..CALLS {
        let (key, kind) = (next(&mut seed) % KEYS, next(&mut seed) % 18);
        match kind {
            0..=5 => model.look(key, kind),
            _ => model.write(key, kind - 6),
        }
        if number % 20_011 == 20_010 {
            model.clear();
        }
        assert_eq!(model.map.len(), model.entries.len());
    }
    (0..KEYS).for_each(|key| model.look(key, 4));
    let stats = model.map.stats();
    assert_eq!((stats.evicted, stats.evicted > 0), (model.evicted, evicts));
    assert_eq!((stats.busy, stats.collided, stats.expired, stats.shared), (0, 0, 0, 0));
    assert!(model.map.len() <= model.map.capacity());
    let Model { map, ledger, .. } = model;
    drop(map);
    ledger.each_once();
}

#[test]
fn a_small_map_agrees_with_a_model() {
    agrees(200, 1, true);
}

#[test]
fn small_shards_agree_with_a_model() {
    agrees(100, 4, true);
}

#[test]
fn a_large_map_agrees_with_a_model() {
    agrees(10_000, 8, false);
}
