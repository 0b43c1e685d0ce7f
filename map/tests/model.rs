//! Random calls are answered as by a plain `HashMap`, but for entries that were evicted. Each that is lost was counted as evicted.
use cefrodil_map::{Inserted, Map};
use std::collections::HashMap;

const KEYS: u64 = 500;
const CALLS: u64 = 60_000;

fn next(seed: &mut u64) -> u64 {
    *seed ^= *seed << 13;
    *seed ^= *seed >> 7;
    *seed ^= *seed << 17;
    *seed
}

/// The last value put of each key, but for those that the map is known to have evicted.
#[derive(Default)]
struct Model {
    values: HashMap<u64, u64>,
    lost: u64,
    renewed: u64,
    hits: u64,
    misses: u64,
}

impl Model {
    /// The map says that this is the key's value.
    fn holds(&mut self, key: u64, value: Option<u64>) {
        match (value, self.values.get(&key)) {
            (Some(value), last) => assert_eq!(Some(&value), last, "key {key}"),
            (None, Some(_)) => {
                self.values.remove(&key);
                self.lost += 1;
            }
            (None, None) => {}
        }
    }

    fn looked(&mut self, key: u64, value: Option<u64>) {
        self.holds(key, value);
        *(if value.is_some() { &mut self.hits } else { &mut self.misses }) += 1;
    }

    fn put(&mut self, key: u64, before: Option<u64>, value: u64) {
        self.holds(key, before);
        self.renewed += u64::from(before.is_some());
        self.values.insert(key, value);
    }
}

fn look(map: &Map<u64, u64>, model: &mut Model, key: u64, number: u64, kind: u64) {
    match kind {
        0..=3 => model.looked(key, map.get(&key)),
        4 => {
            let keys: Vec<u64> = (0..number % 100).map(|place| (key + place * place) % KEYS).collect();
            let values = map.get_many(&keys);
            assert_eq!(values.len(), keys.len());
            keys.iter().zip(values).for_each(|(key, value)| model.looked(*key, value));
        }
        5 => {
            let there = map.contains_key(&key);
            let last = model.values.get(&key).copied();
            assert!(!there || last.is_some());
            model.looked(key, last.filter(|_| there));
        }
        _ => {
            let mut made = false;
            let value = map.get_or_insert_with(&key, || {
                made = true;
                number
            });
            assert!(!made || value == number);
            model.looked(key, (!made).then_some(value));
            model.values.insert(key, value);
        }
    }
}

fn write(map: &Map<u64, u64>, model: &mut Model, key: u64, number: u64, kind: u64) {
    match kind {
        0..=3 => {
            let inserted = map.insert(&key, number).unwrap();
            let before = (inserted == Inserted::Renewed).then(|| model.values[&key]);
            model.put(key, before, number);
        }
        4..=5 => {
            let mut before = None;
            let put = map.update(&key, |old| {
                before = old;
                old.unwrap_or(0) + number
            });
            assert_eq!(put, Ok(before.unwrap_or(0) + number));
            model.put(key, before, put.unwrap());
        }
        6 => match map.modify(&key, |old| old + 1).unwrap() {
            Some(new) => model.put(key, Some(new - 1), new),
            None => model.holds(key, None),
        },
        _ => {
            model.holds(key, map.remove(&key).unwrap());
            model.values.remove(&key);
        }
    }
}

fn look_at_all(map: &Map<u64, u64>, model: &mut Model) {
    (0..KEYS).for_each(|key| model.looked(key, map.get(&key)));
}

fn agrees(map: &Map<u64, u64>, evicts: bool) {
    let (mut model, mut seed) = (Model::default(), 88_172_645_463_325_252);
    for number in 0..CALLS {
        let (key, kind) = (next(&mut seed) % KEYS, next(&mut seed) % 16);
        match kind {
            0..=6 => look(map, &mut model, key, number, kind),
            _ => write(map, &mut model, key, number, kind - 7),
        }
        if number % 7_919 == 0 {
            look_at_all(map, &mut model);
            assert_eq!(map.len(), model.values.len());
            map.clear().unwrap();
            model.values.clear();
            assert!(map.is_empty() && (0..KEYS).all(|key| map.get(&key).is_none()));
            model.misses += KEYS;
        }
    }
    look_at_all(map, &mut model);
    let stats = map.stats();
    assert_eq!((map.len(), stats.evicted), (model.values.len(), model.lost));
    assert_eq!((stats.hits, stats.misses, stats.renewed), (model.hits, model.misses, model.renewed));
    assert_eq!((stats.busy, stats.collided, stats.expired, stats.refused, stats.shared), (0, 0, 0, 0, 0));
    assert!(map.len() <= map.capacity());
    assert_eq!(stats.evicted > 0, evicts, "{stats:?}");
}

#[test]
fn a_small_map_agrees_with_a_model() {
    let map = Map::builder(200).shards(1).open().unwrap();
    assert_eq!(map.capacity(), 200);
    agrees(&map, true);
}

#[test]
fn small_shards_agree_with_a_model() {
    let map = Map::builder(100).shards(4).open().unwrap();
    assert_eq!(map.capacity(), 110);
    agrees(&map, true);
}

#[test]
fn a_large_map_agrees_with_a_model() {
    agrees(&Map::new(10_000).unwrap(), false);
}

#[test]
fn maps_of_few_entries_and_with_deadlines_agree_with_a_model() {
    for capacity in [1, 10, 120] {
        let map = Map::builder(capacity).open().unwrap();
        assert_eq!(map.capacity(), capacity);
        agrees(&map, true);
    }
    agrees(&Map::builder(200).time_to_live(std::time::Duration::MAX).open().unwrap(), true);
}

#[test]
fn a_small_map_has_a_place_for_each_key() {
    for capacity in [7, 10, 14, 28, 57, 115] {
        let map = Map::<u64, u64>::new(capacity).unwrap();
        // Hardly a key finds no place. In tables of half the size it would be 16 of 1,000.
        let refused = (0..6_000).filter(|key| map.insert(key, *key).is_err()).count();
        assert!(refused < 4, "{refused} of 6,000 keys find no place in a map of {capacity}");
        assert_eq!((map.capacity(), map.len(), map.stats().evicted as usize), (capacity, capacity, 6_000 - capacity - refused));
    }
}

#[test]
fn keys_of_any_type_are_looked_up_by_what_they_borrow() {
    let map = Map::<String, u8>::new(100).unwrap();
    map.insert("one", 1).unwrap();
    map.insert(&String::from("two"), 2).unwrap();
    assert_eq!((map.get(&String::from("one")), map.get("two"), map.get("three")), (Some(1), Some(2), None));
    let map = Map::<[u8], u8>::new(100).unwrap();
    map.insert(&[1, 2][..], 3).unwrap();
    assert_eq!((map.get(&[1, 2][..]), map.get(&[2, 1][..])), (Some(3), None));
    assert_eq!(map.get_many([&[2, 1][..], &[1, 2]]), [None, Some(3)]);
    let map = Map::<(u32, bool), u8>::new(100).unwrap();
    map.insert(&(1, true), 3).unwrap();
    assert_eq!((map.get(&(1, true)), map.get(&(1, false))), (Some(3), None));
}

#[test]
fn a_clone_is_the_same_map() {
    let map = Map::<u64, u64>::new(100).unwrap();
    let other = map.clone();
    map.insert(&1, 10).unwrap();
    assert_eq!((other.remove(&1), map.get(&1)), (Ok(Some(10)), None));
    assert_eq!(format!("{other:?}"), "Map { len: 0, capacity: 100, .. }");
}
