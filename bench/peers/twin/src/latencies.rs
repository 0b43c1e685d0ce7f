//! How long single calls take, by the processor's time stamp counter: `latencies.hpp`, in Rust. The two reads of the counter are part of
//! what is counted.
use std::arch::x86_64::{__rdtscp, _mm_lfence, _rdtsc};
use std::time::Instant;

/// Everything before it has been executed when the counter is read.
#[inline(always)]
pub fn ticks_before() -> u64 {
    // Every processor of x86-64 has both instructions.
    unsafe {
        _mm_lfence();
        _rdtsc()
    }
}

/// It waits for what comes before, and what comes after waits for it.
#[inline(always)]
pub fn ticks_after() -> u64 {
    let mut core = 0;
    // Processors have had it since 2008. It writes to `core` alone.
    unsafe {
        let ticks = __rdtscp(&mut core);
        _mm_lfence();
        ticks
    }
}

/// The length of a tick, found by comparing the counter with the clock.
pub struct Ruler {
    ticks: u64,
    clock: Instant,
}

impl Ruler {
    pub fn start() -> Ruler {
        Ruler { ticks: ticks_before(), clock: Instant::now() }
    }

    pub fn nanos_per_tick(&self) -> f64 {
        self.clock.elapsed().as_nanos() as f64 / (ticks_before() - self.ticks) as f64
    }
}

const FINE: u32 = 5;
const EACH: usize = 1 << FINE;
const BUCKETS: usize = EACH * (65 - FINE as usize);

/// How many calls took how many ticks. There are 32 buckets for each power of two, so a count takes no memory, and is exact to a thirtieth.
#[derive(Clone)]
pub struct Latencies(Vec<u64>);

impl Latencies {
    pub fn new() -> Latencies {
        Latencies(vec![0; BUCKETS])
    }

    fn bucket_of(ticks: u64) -> usize {
        if ticks < EACH as u64 {
            return ticks as usize;
        }
        let shift = ticks.ilog2() - FINE;
        EACH * shift as usize + (ticks >> shift) as usize
    }

    /// The middle of a bucket.
    fn ticks_of(bucket: usize) -> f64 {
        if bucket < EACH {
            return bucket as f64;
        }
        let width = (1u64 << (bucket / EACH - 1)) as f64;
        (EACH + bucket % EACH) as f64 * width + (width - 1.0) / 2.0
    }

    #[inline(always)]
    pub fn count(&mut self, ticks: u64) {
        self.0[Self::bucket_of(ticks)] += 1;
    }

    pub fn add(&mut self, other: &Latencies) {
        self.0.iter_mut().zip(&other.0).for_each(|(sum, more)| *sum += more);
    }

    /// The ticks that this share of the calls doesn't exceed.
    pub fn percentile(&self, share: f64) -> f64 {
        let all: u64 = self.0.iter().sum();
        let mut below = 0;
        let reaches = |calls: &u64| {
            below += calls;
            below != 0 && below as f64 >= share * all as f64
        };
        self.0.iter().position(reaches).map_or(0.0, Self::ticks_of)
    }
}

impl Default for Latencies {
    fn default() -> Latencies {
        Latencies::new()
    }
}

/// What is counted if nothing is done between the two reads.
fn empty() -> Latencies {
    let mut empty = Latencies::new();
    for _ in 0..10_000 {
        let began = ticks_before();
        empty.count(ticks_after() - began);
    }
    empty
}

/// The percentiles, as more fields of a line of JSON.
pub fn fields(latencies: &Latencies, ruler: &Ruler) -> String {
    let tick = ruler.nanos_per_tick();
    let asked = [("p50_ns", 0.5), ("p90_ns", 0.9), ("p99_ns", 0.99), ("p999_ns", 0.999), ("p9999_ns", 0.9999)];
    let shown = asked.map(|(name, share)| format!(",\"{name}\":{:.1}", tick * latencies.percentile(share)));
    format!("{},\"empty_ns\":{:.1}", shown.concat(), tick * empty().percentile(0.5))
}
