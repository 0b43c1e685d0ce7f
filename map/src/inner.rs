//! What all clones of a map share: how a key is looked up, put and removed.
use crate::clock::NEVER;
use crate::core::Core;
use crate::error::{GetError, InsertError, RemoveError};
use crate::handle::{AnyHandle, MANY};
use crate::key::Key;
use crate::map::Inserted;
use crate::print::{Print, Printer};
use crate::stats::{Counts, Kind};
use crate::words::{check, deadline, set_check, Entry, Layout, Seen, Words};
use cefrodil::{Put, PutIfError, TurnError};
use std::hash::BuildHasher;
use std::time::Duration;

pub(crate) struct Inner<K: ?Sized, V, S> {
    /// A put has its key's lock, and so does a removal.
    pub core: Core<AnyHandle, V>,
    pub printer: Printer<K, S>,
    /// Which deadlines entries have.
    pub layout: Layout,
}

/// What there is under the first hash of a key.
pub(crate) enum Found<V> {
    /// The key's entry, and the moment when it was put.
    Live(Entry<V>, u64),
    /// The key's entry, which has expired.
    Expired(u64),
    /// The entry of another key.
    Other(u64),
    Absent,
}

impl<K: Key + ?Sized, V: Copy, S: BuildHasher> Inner<K, V, S> {
    /// By which a key is known whatever the generation: to flights.
    #[inline]
    pub fn print<Q: Key + ?Sized>(&self, key: &Q) -> Print {
        self.printer.print(key)
    }

    /// By which entries of this key are known that are put now: to lookups and puts.
    #[inline]
    pub fn print_now<Q: Key + ?Sized>(&self, key: &Q) -> Print {
        self.print(key).dated(self.core.generation.now())
    }

    /// The deadline of a value that is put now.
    pub fn deadline(&self, life: Option<Duration>) -> u64 {
        life.map_or(NEVER, |life| self.core.clock.deadline(life))
    }

    pub fn words(&self, print: Print, value: V, deadline: u64) -> Words {
        Entry { check: print.check, deadline, idle: self.deadline(self.core.idle), value }.words(self.layout)
    }

    /// Looks the key up. `None`: each try was busy. It isn't counted.
    pub fn look(&self, print: Print, tries: u32) -> Option<Found<V>> {
        let look =
            |handle: &mut AnyHandle| AnyHandle::get::<V, _>(handle, print.key, self.layout, |seen| self.found(print, seen));
        self.core.slots.call(look).or_else(|| self.look_again(print, tries - 1))
    }

    #[cold]
    fn look_again(&self, print: Print, tries: u32) -> Option<Found<V>> {
        self.core
            .slots
            .within(tries, || self.found(print, Seen::of(&mut self.core.slots.call(|handle| handle.get_or_turn(print.key)))))
    }

    /// What was seen under this key. `None`: nothing, since the try was busy.
    pub fn found(&self, print: Print, seen: Seen) -> Option<Found<V>> {
        let (words, since) = match seen {
            Seen::Entry(words, since) => (words, since),
            Seen::Absent => return Some(Found::Absent),
            Seen::Busy => return None,
        };
        let entry = Entry::of(words, self.layout);
        Some(if entry.check != print.check {
            Found::Other(since)
        } else if self.has_expired(&entry) {
            Found::Expired(since)
        } else {
            Found::Live(entry, since)
        })
    }

    #[inline]
    pub fn has_expired(&self, entry: &Entry<V>) -> bool {
        self.core.clock.has_passed(entry.deadline.min(entry.idle))
    }

    /// Looks the key up, and counts that. `told` makes of the answer what the caller returns.
    #[inline]
    pub fn get<R>(&self, print: Print, tries: u32, told: impl FnOnce(Result<Option<V>, GetError>) -> R) -> R {
        if let Layout::Plain = self.layout {
            self.get_laid::<false, R>(print, tries, told)
        } else {
            self.get_timed(print, tries, told)
        }
    }

    // Out of line, and with it what an idle entry needs: a map without deadlines pays for neither.
    #[inline(never)]
    fn get_timed<R>(&self, print: Print, tries: u32, told: impl FnOnce(Result<Option<V>, GetError>) -> R) -> R {
        if let Layout::Idle = self.layout {
            told(self.get_shared(print, tries))
        } else {
            self.get_laid::<true, R>(print, tries, told)
        }
    }

    // The compiler knows the layout, and leaves out what is for the other one. The value is read last: then it is copied once.
    #[inline(always)]
    fn get_laid<const TIMED: bool, R>(&self, print: Print, tries: u32, told: impl FnOnce(Result<Option<V>, GetError>) -> R) -> R {
        let Some((handle, counts)) = self.core.slots.own() else {
            return told(self.get_shared(print, tries));
        };
        let layout = Layout::laid::<TIMED>();
        AnyHandle::get::<V, _>(handle, print.key, layout, |seen| self.seen_first::<TIMED, R>(print, seen, counts, tries, told))
    }

    // What the first of so many tries saw by the thread's own handle.
    #[inline(always)]
    fn seen_first<const TIMED: bool, R>(
        &self,
        print: Print,
        seen: Seen,
        counts: &Counts,
        tries: u32,
        told: impl FnOnce(Result<Option<V>, GetError>) -> R,
    ) -> R {
        let layout = Layout::laid::<TIMED>();
        match seen {
            Seen::Entry(words, _) if check(words) == print.check && !self.core.clock.has_passed(deadline(words, layout)) => {
                counts.add_alone(Kind::Hit, 1);
                told(Ok(Some(Entry::of(words, layout).value)))
            }
            Seen::Absent => {
                counts.add_alone(Kind::Miss, 1);
                told(Ok(None))
            }
            other => told(self.get_again(print, other, tries)),
        }
    }

    // By the handle that threads without one of their own share, and in a map whose entries end if they are not used.
    #[inline(never)]
    fn get_shared(&self, print: Print, tries: u32) -> Result<Option<V>, GetError> {
        self.used(print, self.look(print, tries))
    }

    // Counts what the first of so many tries saw, or looks again.
    #[cold]
    #[inline(never)]
    fn get_again(&self, print: Print, first: Seen, tries: u32) -> Result<Option<V>, GetError> {
        self.used(print, self.found(print, first).or_else(|| self.look_again(print, tries - 1)))
    }

    // Notes the use of what was found, and counts the lookup.
    fn used(&self, print: Print, found: Option<Found<V>>) -> Result<Option<V>, GetError> {
        self.note_use(print, found.as_ref());
        self.counted(found)
    }

    // Moves the deadline of an entry that was used. If the key was put since, or another thread has the turn, this does nothing.
    fn note_use(&self, print: Print, found: Option<&Found<V>>) {
        let (Some(idle), Some(Found::Live(entry, since))) = (self.core.idle, found) else { return };
        let Some(next) = self.core.clock.moved(entry.idle, idle) else { return };
        let words = Entry { idle: next, ..*entry }.words(self.layout);
        // If the key was put meanwhile, that was a use, too.
        let _ = self.core.slots.call(|handle| handle.put_if(print.key, *since, &words));
    }

    /// Looks up to `MANY` keys up, and counts each: by one call of the index, unless uses are noted or the thread has no handle of its own.
    pub fn get_many(&self, prints: &[Print], values: &mut Vec<Option<V>>) {
        match self.layout {
            Layout::Plain => self.get_many_laid::<false>(prints, values),
            Layout::Timed => self.get_many_laid::<true>(prints, values),
            Layout::Idle => self.get_each(prints, values),
        }
    }

    // A key that is busy is looked up again by itself.
    fn get_many_laid<const TIMED: bool>(&self, prints: &[Print], values: &mut Vec<Option<V>>) {
        let Some((handle, counts)) = self.core.slots.own() else { return self.get_each(prints, values) };
        let mut keys = [0; MANY];
        keys.iter_mut().zip(prints).for_each(|(key, print)| *key = print.key);
        AnyHandle::get_many::<V>(handle, &keys[..prints.len()], Layout::laid::<TIMED>(), |index, seen| {
            let value = |told: Result<_, _>| told.unwrap_or(None);
            values.push(self.seen_first::<TIMED, _>(prints[index], seen, counts, self.core.looks(), value));
        });
    }

    fn get_each(&self, prints: &[Print], values: &mut Vec<Option<V>>) {
        values.extend(prints.iter().map(|print| self.get_shared(*print, self.core.looks()).unwrap_or(None)));
    }

    /// Looks the key up, which is no use of it, and counts nothing.
    pub fn peek(&self, print: Print, tries: u32) -> Result<Option<V>, GetError> {
        let found = self.core.slots.within(tries, || {
            let mut reply = self.core.slots.call(|handle| handle.peek(print.key));
            self.found(print, Seen::of(&mut reply))
        });
        match found.ok_or(GetError::Busy)? {
            Found::Live(entry, _) => Ok(Some(entry.value)),
            Found::Expired(_) | Found::Other(_) | Found::Absent => Ok(None),
        }
    }

    fn counted(&self, found: Option<Found<V>>) -> Result<Option<V>, GetError> {
        match found {
            Some(Found::Live(entry, _)) => {
                self.core.slots.count(Kind::Hit);
                return Ok(Some(entry.value));
            }
            Some(Found::Absent) => self.core.slots.count(Kind::Miss),
            Some(Found::Expired(_)) => self.core.slots.count_for(Kind::Miss, Kind::Expired),
            Some(Found::Other(_)) => self.core.slots.count_for(Kind::Miss, Kind::Collided),
            None => {
                self.core.slots.count(Kind::Busy);
                return Err(GetError::Busy);
            }
        }
        Ok(None)
    }

    pub fn insert<Q: Key + ?Sized>(
        &self,
        key: &Q,
        value: V,
        life: Option<Duration>,
        tries: u32,
    ) -> Result<Inserted, InsertError> {
        let print = self.print(key);
        let mut words = self.words(print, value, self.deadline(life));
        self.core.flights.detach(print);
        self.take_ended(print.key);
        let put = self.core.slots.in_turn(tries, || {
            self.core.in_lock(print.key, |handle| {
                // By who has the lock: so nothing that was put in a later generation gives way to this.
                set_check(&mut words, print.dated(self.core.generation.now()).check);
                match self.core.bound.is_full() {
                    true => self.core.bounded(handle.put_bounded(print.key, &words), |put| *put, drop),
                    false => handle.put(print.key, &words),
                }
            })
        });
        put.map(|put| self.count_put(print, put, tries)).map_err(|why| self.core.refused(InsertError::of(why)))
    }

    /// Counts a put under this key, and keeps to the bound.
    #[inline]
    pub fn count_put(&self, print: Print, put: Put, tries: u32) -> Inserted {
        let did = Inserted::of(put);
        self.core.slots.count_put(did);
        self.core.keep_bound(did, print.key, tries, drop)
    }

    /// Before a put under this key of the index: takes out what has expired at a few places, if the map has times.
    #[inline]
    pub fn take_ended(&self, hash: u64) {
        if self.core.has_times() {
            self.take_expired_near(hash);
        }
    }

    #[inline(never)]
    fn take_expired_near(&self, hash: u64) {
        self.core.look_for_ended(hash, |mut there| {
            if self.has_expired(&Entry::of(&mut there.value, self.layout)) {
                let _ = self.take_if(there.key, there.since, 1, Kind::Ended);
            }
        });
    }

    pub fn remove<Q: Key + ?Sized>(&self, key: &Q, tries: u32) -> Result<Option<V>, RemoveError> {
        let print = self.print(key);
        self.core.flights.detach(print);
        for _ in 0..tries {
            let (value, since) = match self.look(print.dated(self.core.generation.now()), tries) {
                Some(Found::Live(entry, since)) => (Some(entry.value), since),
                Some(Found::Expired(since)) => (None, since),
                Some(Found::Other(_) | Found::Absent) => return Ok(None),
                None => return Err(self.core.refused(RemoveError::Busy)),
            };
            match self.take_if(print.key, since, tries, Kind::Removed) {
                Ok(()) => return Ok(value),
                Err(TurnError::Call(PutIfError::NotThere { .. })) => return Ok(None),
                Err(TurnError::Call(PutIfError::Changed { .. })) => {}
                Err(TurnError::Call(_)) => return Err(self.core.refused(RemoveError::Spent)),
                Err(TurnError::Held) => return Err(self.core.refused(RemoveError::Held)),
            }
        }
        Err(self.core.refused(RemoveError::Contended))
    }

    /// Removes the entry under this key of the index if it was put at the moment `since`. Counts it, and by its cause: `Removed` is none.
    pub fn take_if(&self, hash: u64, since: u64, tries: u32, cause: Kind) -> Result<(), TurnError<PutIfError>> {
        self.core.slots.in_turn(tries, || self.core.in_lock(hash, |handle| handle.take_if(hash, since)))?;
        self.core.count_left(Kind::Removed, cause);
        Ok(())
    }
}
