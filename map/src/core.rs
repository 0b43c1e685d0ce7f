//! What a map of values and a map of objects have in common: access to the index, flights, the generation, deadlines and locks of keys.
use crate::bound::Bound;
use crate::clock::Clock;
use crate::ended::Cursors;
use crate::error::{ClearError, GetError};
use crate::flight::{Boarding, Flights, Leader};
use crate::generation::Generation;
use crate::handle::Index;
use crate::key_locks::KeyLocks;
use crate::minute::Minute;
use crate::print::Print;
use crate::settings::Settings;
use crate::slots::Slots;
use crate::stats::{Kind, Stats};
use crate::wait::LOOKS;
use cefrodil::{ListError, PutIfAbsentError, PutIfError, TurnError};
use std::sync::Arc;
use std::time::{Duration, Instant};

/// By handles `H` of the index. A flight hands on a `V`.
pub(crate) struct Core<H, V> {
    pub slots: Arc<Slots<H>>,
    pub flights: Flights<V>,
    pub generation: Generation,
    pub clock: Clock,
    locks: KeyLocks,
    /// The time to live of what is put.
    pub life: Option<Duration>,
    /// How long an entry lives that is not used.
    pub idle: Option<Duration>,
    most_wait: Duration,
    pub bound: Bound,
    /// If entries may end by their time.
    pub cursors: Option<Cursors>,
    pub minute: Minute,
    /// How often a call tries.
    pub tries: u32,
}

impl<H: Index + 'static, V: Copy> Core<H, V> {
    pub fn new<S>(mut handles: Vec<H>, shards: u32, settings: &Settings<S>, tries: u32) -> Core<H, V> {
        let room = handles[0].capacity();
        Core {
            slots: Arc::new(Slots::new(handles, settings.threads)),
            flights: Flights::new(),
            generation: Generation::new(),
            clock: Clock::new(),
            locks: KeyLocks::new(),
            life: settings.life,
            idle: settings.idle,
            most_wait: settings.most_wait,
            bound: Bound::new(room, shards),
            cursors: settings.life.or(settings.idle).map(|_| Cursors::new(room, shards)),
            minute: Minute::new(),
            tries,
        }
    }

    /// The value that was found, or what `lead` returns: it leads a flight, or none if it is called by the one of the key, perhaps by way of other threads,
    /// or has waited for so long as it may. When another flight has ended, `find` looks the key up, with what that has handed on.
    pub fn find_or_lead<T, E>(
        &self,
        print: Print,
        mut found: Option<T>,
        find: impl Fn(Option<V>) -> Option<T>,
        lead: impl FnOnce(Option<&Leader<V>>) -> Result<T, E>,
    ) -> Result<T, E> {
        let mut since = None;
        loop {
            if let Some(value) = found {
                return Ok(value);
            }
            match self.flights.board(print) {
                Boarding::First(leader) => return lead(Some(&leader)),
                Boarding::Within => return lead(None),
                Boarding::Other(flight) => {
                    let waited = since.get_or_insert_with(Instant::now).elapsed();
                    match flight.wait(self.most_wait.saturating_sub(waited)) {
                        Some(outcome) => found = find(outcome.value()),
                        None => return lead(None),
                    }
                }
            }
        }
    }

    /// The same for a value that was not found, but it waits for no flight.
    pub fn try_to_lead<T>(&self, print: Print, lead: impl FnOnce(Option<&Leader<V>>) -> T) -> Result<T, GetError> {
        match self.flights.board(print) {
            Boarding::First(leader) => Ok(lead(Some(&leader))),
            Boarding::Within => Ok(lead(None)),
            Boarding::Other(_) => Err(GetError::Computing),
        }
    }

    /// Ends all entries, and detaches what is being computed.
    pub fn invalidate_all(&self) {
        self.note_sums();
        self.generation.end();
        self.flights.detach_all();
    }
}

impl<H: Index + 'static, V> Core<H, V> {
    /// How often a lookup tries that is a miss if it stays busy.
    #[inline]
    pub fn looks(&self) -> u32 {
        self.tries.min(LOOKS)
    }

    /// What the calls of all threads came to, in a map that weighs so much.
    pub fn stats(&self, weight: u64) -> Stats {
        let stats = self.slots.stats();
        let (hits_of_last_minute, misses_of_last_minute) = self.minute.note(stats.hits, stats.misses);
        let capacity = self.bound.most() as u64;
        Stats { capacity, weight, hits_of_last_minute, misses_of_last_minute, ..stats }
    }

    /// Notes the sums of lookups, if they are due. Calls that are rare do this.
    pub fn note_sums(&self) {
        if self.minute.is_due() {
            self.stats(0);
        }
    }

    /// Counts a write that failed.
    pub fn refused<E>(&self, why: E) -> E {
        self.slots.count(Kind::Refused);
        why
    }

    /// Makes a call while no other thread makes one for the same key so.
    #[inline]
    pub fn in_lock<T, E>(&self, hash: u64, call: impl FnOnce(&mut H) -> Result<T, TurnError<E>>) -> Result<T, TurnError<E>> {
        self.slots.call(|handle| {
            let _locked = self.locks.lock(hash).ok_or(TurnError::Held)?;
            call(handle)
        })
    }

    /// Makes a call that puts where nothing is, under the lock of the key. If this generation has ended, that is as if the key were present: nothing
    /// that has ended is taken out meanwhile, so the key has had nothing since the look at the generation, or it was evicted.
    pub fn in_generation<T>(
        &self,
        hash: u64,
        generation: u64,
        put: impl FnOnce(&mut H) -> Result<T, TurnError<PutIfAbsentError>>,
    ) -> Result<T, TurnError<PutIfAbsentError>> {
        self.in_lock(hash, |handle| match self.generation.now() == generation {
            true => put(handle),
            false => Err(TurnError::Call(PutIfAbsentError::Present { since: 0 })),
        })
    }

    /// Takes out what is to leave of the entries under these hashes, and counts it. `look` makes one try, and gives the moment of what it finds if that is
    /// to leave. `take` takes out what was put at a moment.
    pub fn take_those<T>(
        &self,
        hashes: impl IntoIterator<Item = u64>,
        mut look: impl FnMut(u64) -> Option<Option<u64>>,
        take: impl Fn(u64, u64) -> Result<T, TurnError<PutIfError>>,
    ) -> Result<usize, ClearError> {
        let mut taken = hashes.into_iter().map(|hash| self.take_that(|| look(hash), |since| take(hash, since)));
        taken.try_fold(0, |sum, taken| Ok(sum + usize::from(taken?)))
    }

    // If another thread was first, `look` is called again. Returns whether the entry was taken out.
    fn take_that<T>(
        &self,
        mut look: impl FnMut() -> Option<Option<u64>>,
        take: impl Fn(u64) -> Result<T, TurnError<PutIfError>>,
    ) -> Result<bool, ClearError> {
        for _ in 0..self.tries {
            let leaves = self.slots.within(self.tries, &mut look).ok_or(ClearError::Held)?;
            let Some(since) = leaves else { return Ok(false) };
            match take(since) {
                Ok(_) => return Ok(true),
                Err(TurnError::Call(PutIfError::Spent)) => return Err(ClearError::Spent),
                Err(TurnError::Call(_)) => {}
                Err(TurnError::Held) => return Err(ClearError::Held),
            }
        }
        Err(ClearError::Held)
    }

    /// Makes a list of the entries by this call of the index.
    pub fn list<T>(&self, tries: u32, list: impl Fn(&mut H) -> Result<T, TurnError<ListError>>) -> Result<T, ClearError> {
        self.note_sums();
        self.slots.in_turn(tries, || self.slots.call(&list)).map_err(ClearError::of_list)
    }

    #[cfg(test)]
    pub fn hold_lock(&self, hash: u64) -> crate::key_locks::Guard<'_> {
        self.locks.lock(hash).unwrap()
    }
}

impl<H, V> Drop for Core<H, V> {
    fn drop(&mut self) {
        // In a forked child another thread may hold a lock for ever.
        if !self.slots.are_of_this_process() {
            self.flights.forget();
        }
    }
}
