//! Values that are counted: what was made, and how often each was dropped.
use std::sync::atomic::{AtomicU32, AtomicU64, Ordering::SeqCst};
use std::sync::Mutex;

// All ledgers, for tools that look for leaks.
static ALL: Mutex<Vec<&Ledger>> = Mutex::new(Vec::new());

/// The values of a test, by number. It is never freed, so a value that is dropped twice is counted, too.
pub struct Ledger {
    drops: Vec<AtomicU32>,
    made: AtomicU64,
    wrong: AtomicU64,
}

/// A value of a key.
pub struct Owned {
    pub number: u64,
    pub key: u64,
    // On the heap, so that tools see a use after the free.
    check: Box<u64>,
    ledger: &'static Ledger,
}

impl Ledger {
    pub fn new(most: usize) -> &'static Ledger {
        let drops = (0..most).map(|_| AtomicU32::new(0)).collect();
        let ledger: &Ledger = Box::leak(Box::new(Ledger { drops, made: AtomicU64::new(0), wrong: AtomicU64::new(0) }));
        ALL.lock().unwrap().push(ledger);
        ledger
    }

    pub fn make(&'static self, key: u64) -> Owned {
        let number = self.made.fetch_add(1, SeqCst);
        Owned { number, key, check: Box::new(!key), ledger: self }
    }

    pub fn made(&self) -> u64 {
        self.made.load(SeqCst)
    }

    pub fn has_dropped(&self, number: u64) -> bool {
        self.drops[number as usize].load(SeqCst) > 0
    }

    /// How many values were dropped.
    pub fn dropped(&self) -> u64 {
        (0..self.made()).filter(|number| self.has_dropped(*number)).count() as u64
    }

    /// Each value that was made has been dropped once, and was whole then.
    pub fn each_once(&self) {
        let twice = self.drops.iter().filter(|drops| drops.load(SeqCst) > 1).count();
        assert_eq!((self.dropped(), twice, self.wrong.load(SeqCst)), (self.made(), 0, 0), "made, dropped twice, wrong");
    }
}

impl Owned {
    /// It is one of this key, and is not dropped while it is used.
    pub fn is_right(&self, key: u64) {
        assert_eq!((self.key, *self.check), (key, !key));
        assert!(!self.ledger.has_dropped(self.number), "a value of key {key} is dropped while it is used");
    }
}

impl Clone for Owned {
    fn clone(&self) -> Owned {
        self.is_right(self.key);
        self.ledger.make(self.key)
    }
}

impl Drop for Owned {
    fn drop(&mut self) {
        if *self.check != !self.key {
            self.ledger.wrong.fetch_add(1, SeqCst);
        }
        *self.check = 7;
        self.ledger.drops[self.number as usize].fetch_add(1, SeqCst);
    }
}

/// A random number.
pub fn next(seed: &mut u64) -> u64 {
    *seed ^= *seed << 13;
    *seed ^= *seed >> 7;
    *seed ^= *seed << 17;
    *seed
}

/// Takes what a call returned that a test has no use for.
pub fn done<T>(_: T) {}
