//! Rounds of random calls by several threads, which signals stop.
use crate::drawn::Drawn;
use crate::history::{Call, Did, History, May};
use cefrodil_map::Stats;
use std::ffi::{c_int, c_long};
use std::process::abort;
use std::ptr;
use std::sync::atomic::{AtomicU64, AtomicUsize, Ordering::SeqCst};
use std::sync::{Barrier, Mutex};
use std::thread;
use std::time::{Duration, Instant};

/// The keys of all calls.
pub const KEYS: [u64; 2] = [1, 2];
const THREADS: usize = 4;
const MOST_CALLS: u64 = 8;
const MOST_SIGNALS: usize = 1000;

/// What a call says: what it did with its key, with all keys, with each, or that it did nothing with them.
pub enum Told {
    Key(Did),
    All(Did),
    Each([Did; KEYS.len()]),
    Nothing,
    /// It may have removed some keys. So the round says nothing.
    Unknown,
}

/// The calls of a map.
pub trait Calls: Sync {
    /// Makes a call for this key. If it puts a value, it is this one.
    fn call(&self, caller: &mut Caller, key: u64, value: u64) -> Told;

    /// Before a round, while no other call runs: the keys have nothing afterwards.
    fn empty(&self);

    /// The counts of the map.
    fn stats(&self) -> Stats;

    /// The options of the map.
    fn drawn(&self) -> &Drawn;

    /// What does not add up, after the calls of a round.
    fn fault(&self) -> Option<String>;

    /// What the key has, after the calls of a round.
    fn find(&self, key: u64) -> Option<u64>;

    /// Whether a call that waits for a value may get one that is not put.
    fn joins(&self) -> bool;
}

/// Counts moments.
pub struct Clock(AtomicU64);

impl Clock {
    pub fn next(&self) -> u64 {
        self.0.fetch_add(1, SeqCst)
    }
}

/// A thread that calls.
pub struct Caller<'a> {
    pub clock: &'a Clock,
    /// A token of each key, and the value that it is of.
    pub tokens: [Option<(u64, u64)>; KEYS.len()],
    pub random: Random,
}

impl Caller<'_> {
    /// A random number below this one.
    pub fn draw(&mut self, below: u64) -> u64 {
        self.random.draw(below)
    }
}

/// Draws numbers, the same from each seed.
pub struct Random(u64);

impl Random {
    pub fn new(seed: u64) -> Random {
        Random(seed.wrapping_mul(0x9e37_79b9_7f4a_7c15) | 1)
    }

    pub fn draw(&mut self, below: u64) -> u64 {
        self.0 ^= self.0 << 13;
        self.0 ^= self.0 >> 7;
        self.0 ^= self.0 << 17;
        self.0 % below
    }

    /// Once in so many times.
    pub fn is(&mut self, times: u64) -> bool {
        self.draw(times) == 0
    }
}

/// What a call computes takes a while, so that others come between.
pub fn take_a_while(value: u64) {
    match value % 8 {
        0 => thread::sleep(Duration::from_micros(20)),
        1..=3 => thread::yield_now(),
        _ => {}
    }
}

/// What came of all rounds.
#[derive(Debug, Default)]
pub struct Rounds {
    /// Those that say something.
    pub told: u64,
    /// In which a call was disturbed, or removed nobody knows what.
    pub untold: u64,
    /// The calls of those that say something.
    pub calls: u64,
    /// The first history without an order.
    pub wrong: Option<String>,
}

// What threads share in their rounds.
struct Shared<'a> {
    calls: &'a dyn Calls,
    clock: Clock,
    // Each thread's number for signals.
    threads: [AtomicUsize; THREADS],
    running: AtomicUsize,
    // Calls, each with its key or for all.
    histories: Mutex<Vec<(Option<u64>, Call)>>,
    failed: AtomicUsize,
    is_over: AtomicUsize,
    start: Barrier,
}

impl Rounds {
    /// Runs rounds for so long, and until one says something, or until one is wrong. The seed says what calls are made.
    pub fn run(calls: &dyn Calls, time: Duration, seed: u64) -> Rounds {
        handle_signals();
        let shared = Shared {
            calls,
            clock: Clock(AtomicU64::new(0)),
            threads: Default::default(),
            running: AtomicUsize::new(0),
            histories: Mutex::default(),
            failed: AtomicUsize::new(0),
            is_over: AtomicUsize::new(0),
            start: Barrier::new(THREADS + 1),
        };
        thread::scope(|threads| {
            for thread in 0..THREADS {
                let shared = &shared;
                threads.spawn(move || shared.work(thread, Random::new(seed * THREADS as u64 + thread as u64)));
            }
            shared.lead(time)
        })
    }
}

/// A call that panics ends the test: others would wait for its thread.
struct EndsAll;

impl Drop for EndsAll {
    fn drop(&mut self) {
        if thread::panicking() {
            abort();
        }
    }
}

impl Shared<'_> {
    fn lead(&self, time: Duration) -> Rounds {
        let (mut rounds, begin) = (Rounds::default(), Instant::now());
        while rounds.wrong.is_none() && (begin.elapsed() < time || rounds.told == 0 && rounds.untold < 1_000) {
            self.calls.empty();
            let before = self.calls.stats();
            self.running.store(THREADS, SeqCst);
            self.start.wait();
            self.stop_threads();
            self.start.wait();
            let ended: Vec<_> = KEYS.map(|key| (Some(key), self.timed(THREADS, || Did::Saw(self.calls.find(key))))).into();
            let mut calls = std::mem::take(&mut *self.histories.lock().unwrap());
            calls.extend(ended);
            let (after, drawn) = (self.calls.stats(), self.calls.drawn());
            let evict = after.evicted != before.evicted || drawn.ends() || drawn.collides();
            let may = May { evict, renew: drawn.ends(), refuse: after.refused != before.refused || drawn.collides() };
            rounds.wrong = self.calls.fault();
            if self.failed.swap(0, SeqCst) > 0 || after.busy != before.busy {
                rounds.untold += 1;
            } else if rounds.wrong.is_none() {
                rounds.told += 1;
                rounds.calls += calls.len() as u64;
                rounds.wrong = KEYS.iter().find_map(|key| self.wrong(*key, &calls, may));
            }
        }
        self.is_over.store(1, SeqCst);
        self.start.wait();
        rounds
    }

    // The history of this key, if it has no order.
    fn wrong(&self, key: u64, calls: &[(Option<u64>, Call)], may: May) -> Option<String> {
        let mine = calls.iter().filter(|(of, _)| of.is_none_or(|of| of == key)).map(|(_, call)| *call);
        let mut calls: Vec<Call> = mine.collect();
        calls.sort_by_key(|call| call.begin);
        let made: Vec<u64> =
            calls.iter().filter_map(|call| if let Did::Made { value, .. } = call.did { Some(value) } else { None }).collect();
        for call in &mut calls {
            match call.did {
                Did::Joined(value) if !self.calls.joins() || !made.contains(&value) => call.did = Did::Saw(Some(value)),
                _ => {}
            }
        }
        let mut history = History::new(calls, may);
        (!history.has_order()).then(|| format!("no order explains this of key {key}, where {may:?}:\n{history:?}"))
    }

    fn timed(&self, thread: usize, call: impl FnOnce() -> Did) -> Call {
        let begin = self.clock.next();
        let did = call();
        Call { begin, end: self.clock.next(), thread, did }
    }

    // Sends signals to the threads until all have made their calls, but not for ever: a call that sleeps begins anew at each.
    fn stop_threads(&self) {
        let mut number = 0;
        while self.running.load(SeqCst) > 0 {
            if number < MOST_SIGNALS {
                // SAFETY: the thread has told its number, and does not end before this has returned.
                unsafe { pthread_kill(self.threads[number % THREADS].load(SeqCst), SIGUSR1) };
                number += 1;
            }
            (0..number % 7 * 200).for_each(|_| std::hint::spin_loop());
            thread::yield_now();
        }
    }

    fn work(&self, thread: usize, random: Random) {
        let _ends_all = EndsAll;
        // SAFETY: it takes nothing.
        self.threads[thread].store(unsafe { pthread_self() }, SeqCst);
        let mut caller = Caller { clock: &self.clock, tokens: [None; KEYS.len()], random };
        let mut value = (thread as u64 + 1) << 40;
        loop {
            self.start.wait();
            if self.is_over.load(SeqCst) == 1 {
                break;
            }
            caller.tokens = [None; KEYS.len()];
            let mut calls = Vec::new();
            for _ in 0..1 + caller.draw(MOST_CALLS) {
                value += 1;
                self.call(&mut caller, thread, value, &mut calls);
            }
            self.histories.lock().unwrap().extend(calls);
            self.running.fetch_sub(1, SeqCst);
            self.start.wait();
        }
    }

    fn call(&self, caller: &mut Caller, thread: usize, value: u64, calls: &mut Vec<(Option<u64>, Call)>) {
        let key = KEYS[caller.draw(KEYS.len() as u64) as usize];
        let begin = self.clock.next();
        let told = self.calls.call(caller, key, value);
        let end = self.clock.next();
        match told {
            Told::Key(did) => calls.push((Some(key), Call { begin, end, thread, did })),
            Told::All(did) => calls.push((None, Call { begin, end, thread, did })),
            Told::Each(did) => {
                calls.extend(KEYS.iter().zip(did).map(|(key, did)| (Some(*key), Call { begin, end, thread, did })))
            }
            Told::Nothing => {}
            Told::Unknown => drop(self.failed.fetch_add(1, SeqCst)),
        }
    }
}

const SIGUSR1: c_int = 10;

#[repr(C)]
struct Time {
    seconds: c_long,
    nanoseconds: c_long,
}

extern "C" {
    fn signal(number: c_int, handler: extern "C" fn(c_int)) -> usize;
    fn pthread_self() -> usize;
    fn pthread_kill(thread: usize, number: c_int) -> c_int;
    fn nanosleep(time: *const Time, left: *mut Time) -> c_int;
    fn sched_yield() -> c_int;
}

// The thread stops for a moment, wherever it is.
extern "C" fn stop(_: c_int) {
    static SIGNALS: AtomicU64 = AtomicU64::new(0);
    let time = Time { seconds: 0, nanoseconds: 20_000 };
    // SAFETY: a handler may call both. `time` is a time.
    unsafe {
        if SIGNALS.fetch_add(1, SeqCst) % 3 == 0 {
            nanosleep(&time, ptr::null_mut());
        } else {
            sched_yield();
        }
    }
}

fn handle_signals() {
    // SAFETY: the handler changes nothing of the thread.
    unsafe { signal(SIGUSR1, stop) };
}
