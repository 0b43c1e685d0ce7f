//! The index of items: a map of objects over Cefrodil's index.
use crate::audit::{digest, Audit};
use crate::books::Books;
use crate::index::{Index, Over, Refused, Seen, Token};
use crate::item::{About, Item, NewItem};
use cefrodil_map::{AbsentError, BytesMap, GetError, IfError, Inserted, Look, OpenError, Put, Reason};
use std::cell::Cell;
use std::sync::Arc;
use std::time::Duration;

/// What an entry of the index takes, at most.
pub const BYTES_OF_AN_ENTRY: usize = 56;

pub struct MapIndex {
    map: BytesMap<About>,
    audit: Option<Arc<Audit>>,
}

/// How many items a shard has at most on average, and how many shards a map has by itself.
const ITEMS_OF_A_SHARD: usize = 3_000_000;
const SHARDS: usize = 16;

/// With at most so many items, the table of a shard takes less than 128 KB. With at least so many, it takes 2 MB or more. In between, the
/// allocator of Cefrodil's library loses as much again when it opens shards, so such sizes are avoided.
const ITEMS_OF_A_SMALL_SHARD: usize = 3_380;
const ITEMS_OF_A_LARGE_SHARD: usize = 60_000;
const MOST_SHARDS: usize = 256;

thread_local! {
    /// The key that gave way to the put that this thread makes, for the log.
    static EVICTED: Cell<Option<Vec<u8>>> = const { Cell::new(None) };
}

/// How many shards there are for so many items, if the map does not choose that well by itself.
pub fn shards_for(items: usize) -> Option<u32> {
    let small = items.div_ceil(ITEMS_OF_A_SMALL_SHARD).next_power_of_two();
    let shards = match items.div_ceil(ITEMS_OF_A_SHARD) {
        many if many > SHARDS => many.next_power_of_two(),
        _ if small <= SHARDS => return None,
        _ if small <= MOST_SHARDS => small,
        _ if items < SHARDS * ITEMS_OF_A_LARGE_SHARD => SHARDS / 2,
        _ => SHARDS,
    };
    Some(shards as u32)
}

fn seen(found: Result<Look<&Item>, GetError>) -> Seen<'_> {
    match found {
        Ok(Look::Found { result, since, .. }) => Ok(Some((result, since))),
        Ok(_) => Ok(None),
        Err(_) => Err(Refused::Held),
    }
}

impl MapIndex {
    /// Opens an index for at least so many items. `books` hears of each item that leaves it, and again when that is freed.
    pub fn open(items: usize, threads: usize, books: &Arc<Books>, audit: Option<Arc<Audit>>) -> Result<MapIndex, OpenError> {
        let ([freeing, leaving], is_logged) = ([Arc::clone(books), Arc::clone(books)], audit.is_some());
        let freed = move |item: &Item| freeing.freed(item);
        let listener = move |item: &Item, reason| {
            leaving.left(item, reason);
            if is_logged && reason == Reason::Evicted {
                EVICTED.set(Some(item.key().to_vec()));
            }
        };
        let mut builder = BytesMap::builder(items).threads(threads).listener(listener).freed(freed);
        if is_logged {
            // The log has one history, that of a shard.
            builder = builder.shards(1);
        } else if let Some(shards) = shards_for(items) {
            builder = builder.shards(shards);
        }
        Ok(MapIndex { map: builder.open()?, audit })
    }

    pub fn capacity(&self) -> usize {
        self.map.capacity()
    }

    fn log_look(&self, hash: impl FnOnce() -> u64, found: Look<&Item>) {
        let Some(audit) = &self.audit else { return };
        let hash = hash();
        match found {
            Look::Found { result, at, since } => audit.line(format_args!("found {at} {since} {hash} {}", digest(result))),
            Look::Absent { at } => audit.line(format_args!("absent {at} {hash}")),
            _ => {}
        }
    }

    fn log_put(&self, logged: Option<(u64, u64)>, put: Put) {
        let (Some(audit), Some((hash, digest))) = (&self.audit, logged) else { return };
        if let (Inserted::Evicted, Some(evicted)) = (put.did, EVICTED.take()) {
            audit.line(format_args!("evict {} {}", put.at - 1, self.hash_of(&evicted)));
        }
        audit.line(format_args!("put {} {hash} {digest}", put.at));
    }

    fn log_change(&self, change: &str, at: u64, hash: impl FnOnce() -> u64) {
        if let Some(audit) = &self.audit {
            audit.line(format_args!("{change} {at} {}", hash()));
        }
    }

    fn failed(&self, hash: u64, why: IfError) -> Refused {
        if let IfError::NotThere { at } = why {
            self.log_change("absent", at, || hash);
        }
        why.into()
    }
}

impl Index for MapIndex {
    fn hash_of(&self, key: &[u8]) -> u64 {
        self.map.hash_of(key)
    }

    fn look(&self, keys: &[&[u8]], each: &mut dyn FnMut(usize, Seen<'_>)) {
        let mut found = |position: usize, found: Result<Look<&Item>, GetError>| {
            if let Ok(found) = found {
                self.log_look(|| self.hash_of(keys[position]), found);
            }
            each(position, seen(found));
        };
        match keys {
            [key] => self.map.look(key, |look| found(0, look)),
            _ => self.map.look_many(keys, found),
        }
    }

    fn peek(&self, hash: u64, see: &mut dyn FnMut(&Item, Token)) {
        self.map.peek_hash(hash, |found| {
            if let Ok(Look::Found { result, since, .. }) = found {
                see(result, since);
            }
        });
    }

    fn put(&self, item: NewItem, over: Over) -> Result<Token, Refused> {
        // The hash of the key, and the item's digest.
        let logged = self.audit.is_some().then(|| (self.hash_of(item.key()), digest(&item)));
        let put = match over {
            Over::Any => self.map.put(item).map_err(AbsentError::from)?,
            Over::Nothing => self.map.put_if_absent(item)?,
            Over::Token(token) => {
                self.map.replace_if(token, item).map_err(|why| self.failed(logged.map_or(0, |(hash, _)| hash), why))?
            }
        };
        self.log_put(logged, put);
        Ok(put.at)
    }

    fn remove(&self, hash: u64, token: Token, reason: Reason) -> Result<Token, Refused> {
        let at = self.map.remove_stamped(hash, token, reason).map_err(|why| self.failed(hash, why))?;
        self.log_change("remove", at, || hash);
        Ok(at)
    }

    fn evict(&self, see: &mut dyn FnMut(&Item)) -> bool {
        let evicted = self.map.evict(|item, at| {
            self.log_change("evict", at, || self.hash_of(item.key()));
            see(item);
        });
        evicted.is_ok_and(|evicted| evicted.is_some())
    }

    fn len(&self) -> usize {
        self.map.len()
    }

    fn stalled(&self) -> Duration {
        self.map.stats().stalled
    }

    fn sweep(&self) {
        self.map.free_unused();
    }
}
