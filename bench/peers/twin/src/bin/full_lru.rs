//! A full LRU cache behind a mutex: the work of `full_cache.hpp`, in Rust.
use lru::LruCache;
use rand::{rngs::StdRng, SeedableRng};
use rand_distr::{Distribution, Zipf};
use std::sync::atomic::{AtomicBool, Ordering::SeqCst};
use std::sync::{Barrier, Mutex};
use std::time::{Duration, Instant};
use twin::protocol::{key_of, processor_time, Options, Value, WARM};

type Cache = Mutex<LruCache<u64, Value>>;

#[derive(Default)]
struct Tally {
    lookups: u64,
    hits: u64,
    torn: u64,
    time: Duration,
}

impl Tally {
    #[inline(always)]
    fn look_or_put(&mut self, cache: &Cache, key: u64) {
        self.lookups += 1;
        let found = cache.lock().expect("the lock").get(&key).copied();
        match found {
            Some(value) => {
                self.hits += 1;
                self.torn += u64::from(value != [key; 4]);
            }
            None => drop(cache.lock().expect("the lock").put(key, [key; 4])),
        }
    }
}

/// The lookups of a thread, until it is over, and so many at least. The keys are drawn before, some at a time, and only the calls are timed.
fn work(cache: &Cache, options: &Options, seed: u32, least: u64, over: &AtomicBool) -> Tally {
    let zipf = Zipf::new(options.keys.into(), f64::from(options.skew) / 100.0).expect("a skew");
    let mut draws = StdRng::seed_from_u64(u64::from(options.seed) * 1000 + u64::from(seed));
    let now = |began: Instant| if options.alone() { processor_time() } else { began.elapsed() };
    let began = Instant::now();
    let mut tally = Tally::default();
    while tally.lookups < least || !over.load(SeqCst) {
        let keys: [u64; 1024] = std::array::from_fn(|_| key_of(zipf.sample(&mut draws) as u64 - 1));
        let before = now(began);
        for key in keys {
            tally.look_or_put(cache, key);
        }
        tally.time += now(began) - before;
    }
    tally
}

fn main() {
    let options = Options::read();
    let cache = Mutex::new(LruCache::new(options.capacity as usize));
    let over = AtomicBool::new(true);
    work(&cache, &options, options.readers, u64::from(WARM.max(10 * options.capacity)), &over);
    over.store(false, SeqCst);
    let begin = Barrier::new(options.readers as usize);
    let tallies: Vec<Tally> = std::thread::scope(|scope| {
        let (cache, options, over, begin) = (&cache, &options, &over, &begin);
        let start = |seed| {
            scope.spawn(move || {
                begin.wait();
                work(cache, options, seed, 1, over)
            })
        };
        let workers: Vec<_> = (0..options.readers).map(start).collect();
        std::thread::sleep(Duration::from_secs_f64(options.seconds));
        over.store(true, SeqCst);
        workers.into_iter().map(|worker| worker.join().expect("a thread")).collect()
    });
    let sum = |of: fn(&Tally) -> u64| tallies.iter().map(of).sum::<u64>() as f64;
    println!(
        "{{\"ns_call\":{:.2},\"calls_s\":{:.0},\"hit_ratio\":{:.5},\"lookups\":{},\"torn\":{},\"refused\":0}}",
        tallies.iter().map(|t| t.time.as_nanos() as f64).sum::<f64>() / sum(|t| t.lookups),
        tallies.iter().map(|t| t.lookups as f64 / t.time.as_secs_f64()).sum::<f64>(),
        sum(|t| t.hits) / sum(|t| t.lookups),
        sum(|t| t.lookups),
        sum(|t| t.torn),
    );
}
