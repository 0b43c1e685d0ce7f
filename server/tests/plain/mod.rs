//! A plain index for tests, and clients of a store over it.
#![allow(dead_code, reason = "no test needs all of it")]
pub mod both;
pub mod client;
pub mod draw;

use cefrodil_map::Reason;
use cefrodild::books::Books;
use cefrodild::index::{Index, Over, Refused, Seen, Token};
use cefrodild::item::{Item, NewItem};
use std::collections::HashMap;
use std::hash::{BuildHasher, BuildHasherDefault, DefaultHasher};
use std::sync::atomic::{AtomicBool, AtomicU64, AtomicUsize, Ordering::SeqCst};
use std::sync::{Arc, Mutex};
use std::time::Duration;

/// What a test asks of the index.
#[derive(Default)]
pub struct Control {
    pub refuses_puts: AtomicBool,
    pub refuses_removals: AtomicBool,
    pub refuses_looks: AtomicBool,
    /// So many removals are refused, and then no more.
    pub removals_to_refuse: AtomicUsize,
    /// What happens right before the next change that has a condition.
    pub meanwhile: Mutex<Option<Box<dyn FnOnce() + Send>>>,
    /// What happens right before the next lookup.
    pub before_look: Mutex<Option<Box<dyn FnOnce() + Send>>>,
    /// For so many seconds calls have given up.
    pub stalled: AtomicU64,
    /// How often what had left was to be freed.
    pub sweeps: AtomicUsize,
    /// The limit of items at each eviction.
    pub limits: Mutex<Vec<u64>>,
    /// What is about to be found by a peek never expires from then on: another thread has found it before, and gives it a new time to live now.
    pub touches_before_peek: AtomicBool,
}

/// What is under the hash of a key.
struct Entry {
    item: NewItem,
    token: Token,
}

/// The items, and the last token.
type Items = (HashMap<u64, Entry>, Token);

fn act(others: &Mutex<Option<Box<dyn FnOnce() + Send>>>) {
    let act = others.lock().unwrap().take();
    act.into_iter().for_each(|act| act());
}

/// A map under a mutex.
pub struct Plain {
    items: Mutex<Items>,
    books: Arc<Books>,
    control: Arc<Control>,
}

impl Plain {
    pub fn new(books: &Arc<Books>, control: &Arc<Control>) -> Plain {
        Plain { items: Mutex::default(), books: Arc::clone(books), control: Arc::clone(control) }
    }

    fn left(&self, entry: &Entry, reason: Reason) {
        self.books.left(&entry.item, reason);
        self.books.freed(&entry.item);
    }

    fn refuses_removal(&self) -> bool {
        let one_less = self.control.removals_to_refuse.fetch_update(SeqCst, SeqCst, |left| left.checked_sub(1));
        self.control.refuses_removals.load(SeqCst) || one_less.is_ok()
    }
}

impl Index for Plain {
    fn hash_of(&self, key: &[u8]) -> u64 {
        BuildHasherDefault::<DefaultHasher>::default().hash_one(key)
    }

    fn look(&self, keys: &[&[u8]], each: &mut dyn FnMut(usize, Seen<'_>)) {
        act(&self.control.before_look);
        let (items, _) = &*self.items.lock().unwrap();
        for (position, key) in keys.iter().enumerate() {
            if self.control.refuses_looks.load(SeqCst) {
                each(position, Err(Refused::Held));
            } else {
                each(position, Ok(items.get(&self.hash_of(key)).map(|entry| (&*entry.item, entry.token))));
            }
        }
    }

    fn peek(&self, hash: u64, see: &mut dyn FnMut(&Item, Token)) {
        let (items, _) = &*self.items.lock().unwrap();
        let Some(entry) = items.get(&hash).filter(|_| !self.control.refuses_looks.load(SeqCst)) else { return };
        if self.control.touches_before_peek.load(SeqCst) {
            entry.item.touch(u64::MAX);
        }
        see(&entry.item, entry.token);
    }

    fn put(&self, item: NewItem, over: Over) -> Result<Token, Refused> {
        if !matches!(over, Over::Any) {
            act(&self.control.meanwhile);
        }
        if self.control.refuses_puts.load(SeqCst) {
            return Err(Refused::Full);
        }
        let (items, last) = &mut *self.items.lock().unwrap();
        let hash = self.hash_of(item.key());
        match (items.get(&hash).map(|entry| entry.token), over) {
            (None, Over::Token(_)) => return Err(Refused::Absent),
            (Some(_), Over::Nothing) => return Err(Refused::Changed),
            (Some(found), Over::Token(token)) if found != token => return Err(Refused::Changed),
            _ => *last += 1,
        }
        if let Some(old) = items.insert(hash, Entry { item, token: *last }) {
            self.left(&old, Reason::Replaced);
        }
        Ok(*last)
    }

    fn remove(&self, hash: u64, token: Token, reason: Reason) -> Result<Token, Refused> {
        act(&self.control.meanwhile);
        if self.refuses_removal() {
            return Err(Refused::Held);
        }
        let (items, last) = &mut *self.items.lock().unwrap();
        match items.get(&hash) {
            None => Err(Refused::Absent),
            Some(entry) if entry.token != token => Err(Refused::Changed),
            Some(entry) => {
                self.left(entry, reason);
                items.remove(&hash);
                *last += 1;
                Ok(*last)
            }
        }
    }

    /// The item that was stored longest ago.
    fn evict(&self, see: &mut dyn FnMut(&Item)) -> bool {
        self.control.limits.lock().unwrap().push(self.books.budget.limit());
        let (items, _) = &mut *self.items.lock().unwrap();
        let oldest = items.iter().min_by_key(|(_, entry)| entry.token).map(|(hash, _)| *hash);
        let Some(entry) = oldest.filter(|_| !self.refuses_removal()).and_then(|hash| items.remove(&hash)) else { return false };
        see(&entry.item);
        self.left(&entry, Reason::Evicted);
        true
    }

    fn len(&self) -> usize {
        self.items.lock().unwrap().0.len()
    }

    fn stalled(&self) -> Duration {
        Duration::from_secs(self.control.stalled.load(SeqCst))
    }

    fn sweep(&self) {
        self.control.sweeps.fetch_add(1, SeqCst);
    }
}
