//! What the calls by the handles of a cache came to: counted by handle, and added up.
use crate::memory::{room, NoMemory, Shared};
use crate::raw::{self, RawAnswer, RawPut, RawReply};
use std::fmt::{self, Debug, Formatter, Write};
use std::iter::successors;
use std::mem;
use std::sync::atomic::{AtomicU64, Ordering};
use std::sync::OnceLock;

/// Whether anything is counted.
const COUNTED: bool = cfg!(feature = "counts");

/// How many calls by the handles of one cache came to what, since it was opened.
#[derive(Clone, Copy, Debug, Default, PartialEq, Eq, Hash)]
#[non_exhaustive]
pub struct Counts {
    /// Lookups that found their key.
    pub hits: u64,
    /// Lookups of a key that was absent.
    pub misses: u64,
    /// Lookups that were busy.
    pub busy: u64,
    /// Calls whose try for a turn did not win. If it grows while no write succeeds, a thread holds the turns, or has stopped within a write.
    pub held: u64,
    /// Puts that evicted another key.
    pub evictions: u64,
    /// Writes that were refused: `NoPath`, `AllRecent` or `Spent`.
    pub refusals: u64,
}

impl Counts {
    /// Which part of the lookups that were not busy found their key: 0 to 1. Without any, 0.
    #[must_use]
    pub fn hit_rate(&self) -> f64 {
        if self.hits == 0 {
            0.0
        } else {
            self.hits as f64 / (self.hits + self.misses) as f64
        }
    }
}

/// Reads the counts of a cache, in any thread, at any time: also when its handles are dropped. A clone reads the same.
///
/// Without the crate's feature `counts`, which is on by default, nothing is counted and each count is 0.
///
/// ```
/// use cefrodil::{prometheus, Cache, Shape};
///
/// let mut handles = Cache::<1>::open(&Shape::for_items(100, 1)?, 1, 2)?;
/// let meter = handles[0].meter();
/// handles[0].try_put(7, &[70])?;
/// for key in 5..8 {
///     let _ = handles[1].get(key);
/// }
/// # if cfg!(feature = "counts") {
/// assert_eq!((meter.counts().hits, meter.counts().misses, meter.counts().hit_rate()), (1, 2, 1.0 / 3.0));
/// assert!(prometheus(&[("names", meter.counts())]).contains("\ncefrodil_hits_total{cache=\"names\"} 1\n"));
/// # }
/// # Ok::<(), Box<dyn std::error::Error>>(())
/// ```
#[derive(Clone)]
pub struct Meter(Option<Shared<Lines>>);

impl Debug for Meter {
    fn fmt(&self, text: &mut Formatter) -> fmt::Result {
        text.debug_struct("Meter").finish_non_exhaustive()
    }
}

impl Meter {
    /// The counts of all handles of the cache. What other threads count meanwhile is in it or not.
    #[must_use]
    pub fn counts(&self) -> Counts {
        let mut sums = [0; NUMBERS];
        for line in self.0.iter().flat_map(|lines| lines.all()).flat_map(|lines| &lines.lines) {
            sums.iter_mut().zip(&line.0).for_each(|(sum, number)| *sum += number.load(Ordering::Relaxed));
        }
        let [hits, misses, busy, held, evictions, refusals] = sums;
        Counts { hits, misses, busy, held, evictions, refusals }
    }
}

/// The counts of some caches, each by its name, in the text format of Prometheus.
#[must_use]
pub fn prometheus(caches: &[(&str, Counts)]) -> String {
    type Number = fn(&Counts) -> u64;
    let rows: [(&str, &str, Number); NUMBERS] = [
        ("hits", "Lookups that found their key.", |counts| counts.hits),
        ("misses", "Lookups of an absent key.", |counts| counts.misses),
        ("busy", "Lookups that were busy.", |counts| counts.busy),
        ("held", "Calls whose try for the turn did not win.", |counts| counts.held),
        ("evictions", "Puts that evicted another key.", |counts| counts.evictions),
        ("refusals", "Writes that were refused.", |counts| counts.refusals),
    ];
    let mut text = String::new();
    for (name, help, number) in rows {
        let _ = write!(text, "# HELP cefrodil_{name}_total {help}\n# TYPE cefrodil_{name}_total counter\n");
        for (cache, counts) in caches {
            let label = cache.replace('\\', "\\\\").replace('"', "\\\"").replace('\n', "\\n");
            let _ = writeln!(text, "cefrodil_{name}_total{{cache=\"{label}\"}} {}", number(counts));
        }
    }
    text
}

// The numbers of a line, in the order of `Counts`. The first three are the statuses of a lookup.
const NUMBERS: usize = 6;
const BUSY: usize = raw::BUSY as usize;
const HELD: usize = BUSY + 1;
const EVICTIONS: usize = BUSY + 2;
const REFUSALS: usize = BUSY + 3;

/// What a handle has counted. One thread at a time adds, and any thread reads. The processor loads cache lines in pairs, so it has a pair of
/// its own.
#[derive(Default)]
#[repr(align(128))]
struct Line([AtomicU64; NUMBERS]);

// Relaxed: a number says nothing of other memory.
impl Line {
    fn add(&self, number: usize, more: u64) {
        self.0[number].store(self.0[number].load(Ordering::Relaxed) + more, Ordering::Relaxed);
    }
}

/// The lines of handles that were opened at once, and those of handles that the cache got later. They stay as long as one of the handles, or a
/// meter.
struct Lines {
    lines: Vec<Shared<Line>>,
    later: OnceLock<Shared<Lines>>,
}

impl Lines {
    /// These, and the later ones.
    fn all(&self) -> impl Iterator<Item = &Lines> {
        successors(Some(self), |lines| lines.later.get().map(|later| &**later))
    }

    /// Puts these behind the last ones. Another thread may do so at the same time.
    fn append(&self, mut more: Shared<Lines>) {
        let mut last = self;
        while let Err(refused) = last.later.set(more) {
            more = refused;
            last = last.later.get().expect("only what is set refuses");
        }
    }
}

/// A handle's line, and those of all handles.
pub(crate) struct Counter(Option<(Shared<Line>, Shared<Lines>)>);

impl Counter {
    /// The counters of a new cache, one for each handle.
    pub fn many(count: usize) -> Result<Vec<Counter>, NoMemory> {
        let mut counters = room(count)?;
        if !COUNTED {
            counters.resize_with(count, Counter::none);
            return Ok(counters);
        }
        let mut lines = room(count)?;
        for _ in 0..count {
            lines.push(Shared::new(Line::default())?);
        }
        let all = Shared::new(Lines { lines, later: OnceLock::new() })?;
        counters.extend(all.lines.iter().map(|line| Counter(Some((line.clone(), all.clone())))));
        Ok(counters)
    }

    /// Makes these counters, which `many` made, count for the cache of this one.
    pub fn take_in(&self, more: &mut [Counter]) {
        let Some((_, all)) = &self.0 else { return };
        let mut own = None;
        for (_, lines) in more.iter_mut().flat_map(|counter| &mut counter.0) {
            own = Some(mem::replace(lines, all.clone()));
        }
        if let Some(own) = own {
            all.append(own);
        }
    }

    /// One that counts nothing.
    pub fn none() -> Counter {
        Counter(None)
    }

    pub fn meter(&self) -> Meter {
        Meter(self.0.as_ref().map(|(_, lines)| lines.clone()))
    }

    /// Counts the answer of a lookup.
    #[inline]
    pub fn looked(&self, status: u32) {
        if let (true, Some((line, _)), 0..=raw::BUSY) = (COUNTED, &self.0, status) {
            line.add(status as usize, 1);
        }
    }

    /// Counts the answers of a call for many keys.
    pub fn looked_up(&self, answers: &[RawAnswer]) {
        let Some((line, _)) = &self.0 else { return };
        let mut found = [0; BUSY + 1];
        for answer in answers {
            found[answer.status as usize] += 1;
        }
        for (number, more) in found.into_iter().enumerate() {
            line.add(number, more);
        }
    }

    /// Counts a try for the turn.
    #[inline]
    pub fn tried(&self, status: u32) {
        if let (Some((line, _)), raw::HELD) = (&self.0, status) {
            line.add(HELD, 1);
        }
    }

    /// Counts the answers of a call that puts many keys.
    pub fn wrote_all(&self, answers: &[RawPut]) {
        for answer in answers {
            self.wrote(answer.status, &answer.reply);
        }
    }

    /// Counts the answer of a write.
    #[inline]
    pub fn wrote(&self, status: u32, reply: &RawReply) {
        self.tried(status);
        let Some((line, _)) = &self.0 else { return };
        if reply.put == raw::PUT_EVICTED {
            line.add(EVICTIONS, 1);
        }
        if let raw::NO_PATH | raw::ALL_RECENT | raw::SPENT = status {
            line.add(REFUSALS, 1);
        }
    }
}
