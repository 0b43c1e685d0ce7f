//! What a call of a map of the crate `cefrodil-map` costs, for valgrind's callgrind.
//!
//! usage: costs KIND CALLS MAP [full]     KIND: hit, miss, over or new; MAP: values or objects
use cefrodil_map::{Map, ObjectMap};
use std::env::args;

type Value = [u64; 4];

const KNOWN: u64 = 500;
const FRESH: u64 = 1_000_000;

trait Numbers {
    fn look_up(&self, key: u64) -> u64;

    fn put(&self, key: u64) -> u64;
}

// Each call is a function of its own, as in a program with many of them.
impl Numbers for Map<u64, Value> {
    #[inline(never)]
    fn look_up(&self, key: u64) -> u64 {
        self.get(&key).map_or(0, |value| value[0])
    }

    #[inline(never)]
    fn put(&self, key: u64) -> u64 {
        self.insert(&key, [key; 4]).is_ok().into()
    }
}

impl Numbers for ObjectMap<u64, Value> {
    #[inline(never)]
    fn look_up(&self, key: u64) -> u64 {
        self.get_with(&key, |value| value[0]).unwrap_or(0)
    }

    #[inline(never)]
    fn put(&self, key: u64) -> u64 {
        self.insert(key, [key; 4]).is_ok().into()
    }
}

fn call(map: &impl Numbers, kind: &str, number: u64) -> u64 {
    match kind {
        "hit" => map.look_up(number % KNOWN),
        "miss" => map.look_up(FRESH + number),
        "over" => map.put(number % KNOWN),
        _ => map.put(FRESH + number),
    }
}

// Some keys are known. A full map has had many others, and the known ones are used again and again.
fn fill(map: &impl Numbers, is_full: bool) {
    for key in 0..if is_full { 20 * KNOWN } else { KNOWN } {
        if map.look_up(key % KNOWN) == 0 {
            map.put(key % KNOWN);
        }
        if is_full {
            map.put(2 * FRESH + key);
        }
    }
}

fn make(map: &impl Numbers, kind: &str, calls: u64, is_full: bool) {
    fill(map, is_full);
    let sum: u64 = (0..calls).map(|number| call(map, kind, number)).sum();
    println!("{sum}");
}

fn main() -> Result<(), Box<dyn std::error::Error>> {
    let words: Vec<String> = args().skip(1).collect();
    let [kind, calls, map, full @ ..] = &words[..] else { return Err("usage: costs KIND CALLS MAP [full]".into()) };
    let (calls, is_full) = (calls.parse()?, !full.is_empty());
    match map.as_str() {
        "values" => make(&Map::<u64, Value>::new(1_000)?, kind, calls, is_full),
        _ => make(&ObjectMap::<u64, Value>::new(1_000)?, kind, calls, is_full),
    }
    Ok(())
}
