//! Maps of a program's own types, side by side: the same work as in `maps.cpp`. The contestants are in `contestants.rs`. All of them hash by
//! SipHash-1-3 with a secret (std's default; `cefrodil-map` has its own), or all by two multiplications.
mod contestants;

use contestants::{Cefrodil, Contestant, Key, Lru, Objects, Opens, Quick};
use dashmap::DashMap;
use lru::KeyRef;
use std::borrow::Borrow;
use std::collections::hash_map::RandomState;
use std::collections::HashMap;
use std::hash::BuildHasher;
use std::sync::atomic::{AtomicBool, AtomicU32, Ordering::SeqCst};
use std::sync::RwLock;
use std::time::{Duration, Instant};
use twin::protocol::{key_of, processor_time, Draw, Options, Signals, WARM};

#[derive(Default)]
struct Tally {
    calls: u64,
    lookups: u64,
    hits: u64,
    /// Lookups that found another value than the key's.
    torn: u64,
    refused: u64,
    nanos: u64,
}

/// The calls of a thread on a map whose values have `N` words, each of them the key's number.
impl Tally {
    #[inline(always)]
    fn look<const N: usize, K: Key, S, C: Contestant<K, [u64; N], S>>(
        &mut self,
        map: &C,
        key: &K::Borrowed,
        number: u64,
    ) -> bool {
        self.count(map.get(key), number)
    }

    #[inline(always)]
    fn count<const N: usize>(&mut self, found: Option<[u64; N]>, number: u64) -> bool {
        self.lookups += 1;
        self.hits += u64::from(found.is_some());
        self.torn += found.map_or(0, |value| u64::from(value.iter().fold(0, |bits, word| bits | (word ^ number)) != 0));
        found.is_some()
    }

    fn look_together<const N: usize, K: Key, S, C: Contestant<K, [u64; N], S>>(&mut self, map: &C, numbers: &[u64]) {
        let keys: Vec<K> = numbers.iter().map(|number| K::with(*number, ToOwned::to_owned)).collect();
        map.get_many(&keys).into_iter().zip(numbers).for_each(|(found, number)| _ = self.count(found, *number));
        self.calls += numbers.len() as u64;
    }

    #[inline(always)]
    fn put<const N: usize, K: Key, S, C: Contestant<K, [u64; N], S>>(&mut self, map: &C, key: &K::Borrowed, number: u64) {
        self.refused += u64::from(!map.put(key, [number; N]));
    }
}

/// One thread's work. If `puts`, it puts once in `write_every` calls. All other calls are lookups. In a full cache it puts each key that it misses.
#[inline(never)]
fn work<const N: usize, K: Key, S, C: Contestant<K, [u64; N], S>>(
    map: &C,
    options: &Options,
    seed: u64,
    puts: bool,
    signals: &Signals,
) -> Tally {
    let first = if options.workload == "miss" { 1 << 40 } else { 0 };
    let is_full_cache = options.workload == "cache";
    let mut draw = Draw::new(u64::from(options.seed) * 1000 + seed);
    let mut tally = Tally::default();
    let mut left = options.write_every;
    signals.waiting.fetch_sub(1, SeqCst);
    while signals.waiting.load(SeqCst) != 0 {
        std::hint::spin_loop();
    }
    let (began, used) = (Instant::now(), processor_time());
    let mut together = vec![0; options.many as usize];
    while !signals.over.load(SeqCst) {
        if together.len() > 1 {
            together.iter_mut().for_each(|number| *number = key_of(first + draw.below(options.keys.into())));
            tally.look_together::<N, K, S, C>(map, &together);
            continue;
        }
        for _ in 0..64 {
            let number = key_of(first + draw.below(options.keys.into()));
            K::with(number, |key| {
                left -= u32::from(puts);
                if left == 0 {
                    left = options.write_every;
                    tally.put(map, key, number);
                } else if !tally.look(map, key, number) && is_full_cache {
                    tally.put(map, key, number);
                }
            });
        }
        tally.calls += 64;
    }
    let spent = if options.alone() { processor_time() - used } else { began.elapsed() };
    tally.nanos = spent.as_nanos() as u64;
    tally
}

fn run<const N: usize, K: Key, S: BuildHasher, C: Contestant<K, [u64; N], S>>(options: &Options, hasher: S) {
    let map = C::new(options.capacity as usize, hasher);
    let mut filled = Tally::default();
    let numbers = || (0..options.keys.into()).map(key_of);
    numbers().for_each(|number| K::with(number, |key| filled.put(&map, key, number)));
    numbers().take(WARM as usize).for_each(|number| K::with(number, |key| _ = filled.look(&map, key, number)));
    let threads = options.readers + options.writers;
    let signals = Signals { waiting: AtomicU32::new(threads), over: AtomicBool::new(false) };
    let tallies: Vec<Tally> = std::thread::scope(|scope| {
        let (map, signals) = (&map, &signals);
        let workers: Vec<_> =
            (0..threads).map(|n| scope.spawn(move || work(map, options, n.into(), n >= options.readers, signals))).collect();
        std::thread::sleep(Duration::from_secs_f64(options.seconds));
        signals.over.store(true, SeqCst);
        workers.into_iter().map(|worker| worker.join().expect("a thread")).collect()
    });
    let sum = |of: fn(&Tally) -> u64| tallies.iter().map(of).sum::<u64>();
    println!(
        "{{\"ns_call\":{:.2},\"calls_s\":{:.0},\"hit_ratio\":{:.5},\"calls\":{},\"torn\":{},\"refused\":{},\"lost\":{}}}",
        sum(|t| t.nanos) as f64 / sum(|t| t.calls) as f64,
        tallies.iter().map(|t| t.calls as f64 * 1e9 / t.nanos as f64).sum::<f64>(),
        sum(|t| t.hits) as f64 / sum(|t| t.lookups) as f64,
        sum(|t| t.calls),
        sum(|t| t.torn) + filled.torn,
        sum(|t| t.refused) + filled.refused,
        filled.lookups - filled.hits,
    );
}

fn choose<const N: usize, K: Key, S: Opens>(options: &Options, hasher: S)
where
    KeyRef<K>: Borrow<K::Borrowed>,
{
    match options.contestant.as_str() {
        "cefrodil" => run::<N, K, S, Cefrodil<K, [u64; N], S>>(options, hasher),
        "dashmap" => run::<N, K, S, DashMap<K, [u64; N], S>>(options, hasher),
        "locked" => run::<N, K, S, RwLock<HashMap<K, [u64; N], S>>>(options, hasher),
        "lru" => run::<N, K, S, Lru<K, [u64; N], S>>(options, hasher),
        other => panic!("no contestant {other}"),
    }
}

fn main() {
    let options = Options::read();
    if options.contestant == "objects" {
        assert!((options.letters, options.words, options.quick) == (0, 4, 0), "objects have keys that are numbers, and four words");
        return run::<4, u64, _, Objects<u64, [u64; 4]>>(&options, RandomState::new());
    }
    match (options.letters, options.words, options.quick) {
        (0, 1, 0) => choose::<1, u64, _>(&options, RandomState::new()),
        (0, 4, 0) => choose::<4, u64, _>(&options, RandomState::new()),
        (0, 7, 0) => choose::<7, u64, _>(&options, RandomState::new()),
        (0, 4, 1) => choose::<4, u64, _>(&options, Quick::default()),
        (16, 4, 0) => choose::<4, String, _>(&options, RandomState::new()),
        _ => panic!("no such keys, values or hashes"),
    }
}
