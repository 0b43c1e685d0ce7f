//! What commands do with items, whatever their protocol.
use crate::books::Books;
use crate::counts::Count;
use crate::expire::Round;
use crate::index::{Index, Refused, Seen, Token};
use crate::item::Item;
use crate::key_locks::{KeyLock, KeyLocks, LOOKS, TRIES};
use crate::options::Options;
use crate::seat::Seats;
use crate::users::Users;
use std::sync::atomic::AtomicU64;
use std::sync::{Arc, Mutex};
use std::time::Duration;

pub struct Store {
    pub index: Box<dyn Index>,
    pub books: Arc<Books>,
    pub(crate) key_locks: KeyLocks,
    pub(crate) round: Mutex<Round>,
    /// The second since the start in which the system refused memory though items had given way.
    pub(crate) helpless: AtomicU64,
    pub options: Options,
    pub seats: Arc<Seats>,
    /// Who may use it. `None`: all clients.
    pub users: Option<Users>,
}

/// Why a command was not carried out.
#[derive(Clone, Copy, Debug, PartialEq, Eq)]
pub enum Fault {
    /// There is no place for the item. If the command was to overwrite an older one whatever it was, that one is gone.
    NoRoom,
    /// The value is too long. The older one is gone, as above.
    TooLong,
    /// The item was not stored, and the older one could not be removed.
    Stale,
    /// Others disturbed the command all the time. Nothing was changed.
    Disturbed,
}

/// What came of a command that stores or deletes.
#[derive(Clone, Copy, Debug, PartialEq, Eq)]
pub enum Answer {
    /// It is done. The token is that of the item that was stored.
    Done(Token),
    /// The condition on whether there is an item was not met.
    NotStored,
    /// The item has another token.
    Exists,
    NotFound,
}

/// What came of a change of a value, as arithmetic is.
#[derive(Clone, Copy, Debug, PartialEq, Eq)]
pub enum Changed<T = u64> {
    /// The new number, its token and its deadline.
    Changed(T, Token, u64),
    NotFound,
    /// The item has another token.
    Exists,
    NotNumeric,
}

/// What a lookup finds at this time: a live item.
#[derive(Clone, Copy)]
pub struct Hit<'a> {
    pub item: &'a Item,
    pub token: Token,
    pub now: u64,
}

/// What is under a key.
pub(crate) enum Found<T> {
    Live(T, Token),
    Dead(Token),
    Absent,
}

impl Store {
    pub fn new(index: Box<dyn Index>, books: Arc<Books>, options: Options) -> Store {
        let (key_locks, round, helpless) = (KeyLocks::new(), Mutex::default(), AtomicU64::new(u64::MAX));
        let seats = Seats::new(options.connections, Arc::clone(&books));
        Store { index, books, key_locks, round, helpless, seats, users: None, options }
    }

    /// Looks the keys up in order, and calls `each` with the position of each that has a value. It notes that a client fetches the item, and returns
    /// whether it goes on: if not, the keys behind are not looked at. Returns how many keys were looked at.
    pub fn look(&self, keys: &[&[u8]], mut each: impl FnMut(usize, Hit) -> bool) -> usize {
        let (now, mut looked, mut goes_on) = (self.books.clock.now(), 0, true);
        self.index.look(keys, &mut |position, seen| {
            if !goes_on {
                return;
            }
            looked += 1;
            match seen {
                Ok(Some((item, token))) if item.is_live(now, &self.books.flushes) => {
                    self.books.counts.add(Count::GetHits);
                    goes_on = each(position, Hit { item, token, now });
                }
                seen => self.count_miss(seen, now),
            }
        });
        self.books.counts.add_many(Count::Gets, looked as u64);
        looked
    }

    /// Does the same, and gives what is found this deadline.
    pub fn look_and_touch(&self, keys: &[&[u8]], deadline: u64, mut each: impl FnMut(usize, Hit) -> bool) -> usize {
        for (position, key) in keys.iter().enumerate() {
            let (mut is_hit, mut goes_on) = (false, true);
            if let Some(_lock) = self.lock_within(LOOKS, key) {
                self.look(&[key], |_, hit| {
                    is_hit = true;
                    hit.item.touch(deadline);
                    goes_on = each(position, hit);
                    goes_on
                });
            } else {
                self.books.counts.add(Count::Gets);
                self.count_miss(Err(Refused::Held), 0);
            }
            self.books.counts.add(Count::Touches);
            self.books.counts.add_if(is_hit, Count::TouchHits, Count::TouchMisses);
            if !goes_on {
                return position + 1;
            }
        }
        keys.len()
    }

    fn count_miss(&self, seen: Seen<'_>, now: u64) {
        self.books.counts.add(Count::GetMisses);
        match seen {
            Ok(Some((item, _))) if item.has_expired(now) => self.books.counts.add(Count::GetExpired),
            Ok(Some(_)) => self.books.counts.add(Count::GetFlushed),
            Ok(None) => {}
            Err(_) => self.books.counts.add(Count::Busy),
        }
    }

    pub(crate) fn find<T>(&self, key: &[u8], see: impl FnOnce(Hit) -> T) -> Result<Found<T>, Fault> {
        let (now, mut see, mut found) = (self.books.clock.now(), Some(see), Err(Fault::Disturbed));
        self.index.look(&[key], &mut |_, seen| {
            found = match (seen, see.take()) {
                (Ok(Some((item, token))), Some(see)) if item.is_live(now, &self.books.flushes) => {
                    Ok(Found::Live(see(Hit { item, token, now }), token))
                }
                (Ok(Some((_, token))), _) => Ok(Found::Dead(token)),
                (Ok(None), _) => Ok(Found::Absent),
                (Err(_), _) => {
                    self.books.counts.add(Count::Busy);
                    Err(Fault::Disturbed)
                }
            }
        });
        found
    }

    pub(crate) fn disturbed(&self, why: Refused) -> Fault {
        self.books.counts.add(if why == Refused::Held { Count::Held } else { Count::Refused });
        Fault::Disturbed
    }

    /// Locks the key against other changes of its deadline, and those that keep it.
    pub(crate) fn lock(&self, key: &[u8]) -> Result<KeyLock<'_>, Fault> {
        self.lock_within(TRIES, key).ok_or_else(|| self.disturbed(Refused::Held))
    }

    fn lock_within(&self, tries: u32, key: &[u8]) -> Option<KeyLock<'_>> {
        let lock = self.key_locks.lock(self.index.hash_of(key), tries);
        if lock.is_none() {
            self.key_locks.give_up(self.books.clock.uptime());
        }
        lock
    }

    /// For how long commands have given up, since a thread stopped within a change. Zero unless one did lately.
    pub fn stalled(&self) -> Duration {
        Duration::from_secs(self.key_locks.stalled(self.books.clock.uptime())).max(self.index.stalled())
    }

    /// Gives the key's item a new deadline. Returns whether the key has a value.
    pub fn touch(&self, key: &[u8], deadline: u64) -> Result<bool, Fault> {
        let _lock = self.lock(key)?;
        let found = self.find(key, |Hit { item, now, .. }| {
            item.note_fetched(now);
            item.touch(deadline);
        })?;
        Ok(matches!(found, Found::Live(..)))
    }

    /// Makes all items invalid that are stored by then: now, or after so many seconds.
    pub fn flush(&self, delay: i64) {
        self.flush_with(delay, || {});
    }

    /// The same. It calls `between` when it has asked for the time and no command knows of it yet, for tests.
    pub fn flush_with(&self, delay: i64, between: impl FnOnce()) {
        let (clock, flushes) = (&self.books.clock, &self.books.flushes);
        let times = || {
            let now = clock.now();
            (if delay > 0 { clock.deadline(delay).max(now) } else { now }, now)
        };
        flushes.flush_with(times, between);
        if delay <= 0 {
            // A command that did not see that flush looked at the time before it was there, so before this time.
            flushes.flush(times);
        }
    }
}
