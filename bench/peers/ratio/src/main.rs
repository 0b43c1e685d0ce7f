//! How many lookups find their key in a cache, for `bench/map_hits.py` and `bench/mixed_sizes.py`. Standard input has the keys, as words of 64 bits.
//! Each that is missed is put.
//!
//! usage: ratio CAPACITY CACHE [SHARDS BOUND]     CACHE: map; number, objects by their number; objects, by their weight; shards, the same in 16 shards;
//! sizes; or server. It prints a line of 0 and 1: which lookups hit.
mod server;

use cefrodil_map::{Map, ObjectMap};
use std::env::args;
use std::io::{stdin, stdout, Read, Write};

type Failure = Box<dyn std::error::Error>;

/// A cache that has each key as its own value.
trait Cache {
    fn get(&mut self, key: u64) -> Option<u64>;

    fn put(&mut self, key: u64) -> Result<(), Failure>;
}

impl Cache for Map<u64, u64> {
    fn get(&mut self, key: u64) -> Option<u64> {
        Map::get(self, &key)
    }

    fn put(&mut self, key: u64) -> Result<(), Failure> {
        self.insert(&key, key)?;
        Ok(())
    }
}

impl Cache for ObjectMap<u64, u64> {
    fn get(&mut self, key: u64) -> Option<u64> {
        ObjectMap::get(self, &key)
    }

    fn put(&mut self, key: u64) -> Result<(), Failure> {
        self.insert(key, key)?;
        Ok(())
    }
}

/// One shard has room for just what was asked for.
fn map(capacity: usize) -> Result<Box<dyn Cache>, Failure> {
    Ok(Box::new(Map::<u64, u64>::builder(capacity).shards(1).threads(1).open()?))
}

/// Bounded by their number.
fn number(capacity: usize) -> Result<Box<dyn Cache>, Failure> {
    Ok(Box::new(ObjectMap::<u64, u64>::builder(capacity).shards(1).threads(1).open()?))
}

/// Bounded by weight alone: its index has room for more.
fn objects(capacity: usize, shards: u32) -> Result<Box<dyn Cache>, Failure> {
    let builder = ObjectMap::<u64, u64>::builder(2 * capacity).shards(shards).threads(1);
    Ok(Box::new(builder.max_weight(capacity as u64, |_, _| 1).open()?))
}

/// Bounded by their sizes, which are the last bits of the keys.
fn sizes(capacity: usize, shards: u32, bound: u64) -> Result<Box<dyn Cache>, Failure> {
    let builder = ObjectMap::<u64, u64>::builder(capacity).shards(shards).threads(1);
    Ok(Box::new(builder.max_weight(bound, |key, _| key % (1 << 17)).open()?))
}

fn main() -> Result<(), Failure> {
    let words: Vec<_> = args().skip(1).collect();
    let [capacity, name, more @ ..] = &words[..] else { return Err("usage: ratio CAPACITY CACHE [SHARDS BOUND]".into()) };
    let capacity = capacity.parse()?;
    let mut cache = match name.as_str() {
        "map" => map(capacity)?,
        "number" => number(capacity)?,
        "objects" => objects(capacity, 1)?,
        "shards" => objects(capacity, 16)?,
        "sizes" => sizes(capacity, more[0].parse()?, more[1].parse()?)?,
        "server" => server::open(capacity)?,
        _ => return Err(format!("there is no cache {name}").into()),
    };
    let mut bytes = Vec::new();
    stdin().read_to_end(&mut bytes)?;
    let mut found = Vec::with_capacity(bytes.len() / 8 + 1);
    for word in bytes.chunks_exact(8) {
        let key = u64::from_le_bytes(word.try_into()?);
        let value = cache.get(key);
        assert!(value.is_none_or(|value| value == key));
        if value.is_none() {
            cache.put(key)?;
        }
        found.push(if value.is_some() { b'1' } else { b'0' });
    }
    found.push(b'\n');
    Ok(stdout().write_all(&found)?)
}
