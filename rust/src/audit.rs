//! Logs of changes and answers, which the program `mccheck` checks.
use crate::error::Why;
use crate::reply::{Entry, Evict, Put, Removal, Reply, Swapped, Take};
use std::io::{self, Write};

/// A log of what a cache's calls answered, for `mccheck`: it says how many answers are not what the map held at their moment.
///
/// Each thread may have a log of its own. `mccheck LOG..` needs every change since the cache was opened, in whatever log, and as many answers
/// as you like. `docs/USING.md` has the form of the lines. Each shard counts its own moments, so open the cache with one shard, or log the
/// keys of one alone.
///
/// ```
/// use cefrodil::{AuditLog, Cache, Shape};
///
/// let mut handles = Cache::<1>::open(&Shape::for_items(100, 1)?, 1, 1)?;
/// let mut log = AuditLog::new(Vec::new())?;
/// log.put(7, &[70], handles[0].try_put(7, &[70])?)?;
/// log.looked(7, handles[0].get(7))?;
/// log.removed(7, handles[0].try_remove(7)?)?;
/// assert_eq!(log.into_inner(), b"words 1\nput 1 7 70\nfound 1 1 7 70\nremove 2 7\n");
/// # Ok::<(), Box<dyn std::error::Error>>(())
/// ```
#[derive(Debug)]
pub struct AuditLog<const WORDS: usize, W> {
    out: W,
}

impl<const WORDS: usize, W: Write> AuditLog<WORDS, W> {
    /// Begins a log.
    ///
    /// # Errors
    ///
    /// As of each call here: the error of the stream that it writes to.
    pub fn new(mut out: W) -> io::Result<AuditLog<WORDS, W>> {
        writeln!(out, "words {WORDS}")?;
        Ok(AuditLog { out })
    }

    /// The entries with which a cache was opened, without those that were left out.
    ///
    /// # Errors
    ///
    /// That of the stream.
    pub fn opened(&mut self, entries: &[(u64, [u64; WORDS])], left: &[(usize, Why)]) -> io::Result<()> {
        let is_put = |index| left.binary_search_by_key(&index, |(left, _)| *left).is_err();
        let put = entries.iter().enumerate().filter(|(index, _)| is_put(*index));
        for ((_, (key, value)), at) in put.zip(1..) {
            self.put_at(*key, value, at)?;
        }
        Ok(())
    }

    /// The answer of a lookup. A busy one says nothing.
    ///
    /// # Errors
    ///
    /// That of the stream.
    pub fn looked(&mut self, key: u64, reply: Reply<WORDS>) -> io::Result<()> {
        match reply {
            Reply::Found { value, at, since } => self.found(at, &Entry { key, value, since }),
            Reply::Absent { at } => writeln!(self.out, "absent {at} {key}"),
            Reply::Busy => Ok(()),
        }
    }

    /// What a put did.
    ///
    /// # Errors
    ///
    /// That of the stream.
    pub fn put(&mut self, key: u64, value: &[u64; WORDS], put: Put) -> io::Result<()> {
        if let Put::Stored { at, evicted: Some(evicted), .. } = put {
            writeln!(self.out, "evict {} {evicted}", at - 1)?;
        }
        self.put_at(key, value, put.at())
    }

    /// A put at this moment, as `put_if` returns it.
    ///
    /// # Errors
    ///
    /// That of the stream.
    pub fn put_at(&mut self, key: u64, value: &[u64; WORDS], at: u64) -> io::Result<()> {
        write!(self.out, "put {at} {key}")?;
        self.words(value)
    }

    /// What a put did that returned the entry which gave way.
    ///
    /// # Errors
    ///
    /// That of the stream.
    pub fn swapped(&mut self, key: u64, value: &[u64; WORDS], swapped: &Swapped<WORDS>) -> io::Result<()> {
        if let Some(old) = &swapped.old {
            let changes = if old.key == key { 1 } else { 2 };
            self.found(swapped.put.at() - changes, old)?;
        }
        self.put(key, value, swapped.put)
    }

    /// What a removal did.
    ///
    /// # Errors
    ///
    /// That of the stream.
    pub fn removed(&mut self, key: u64, removal: Removal) -> io::Result<()> {
        match removal {
            Removal::Removed { at } => writeln!(self.out, "remove {at} {key}"),
            Removal::NotThere { at } => writeln!(self.out, "absent {at} {key}"),
        }
    }

    /// What a removal did that returned the entry.
    ///
    /// # Errors
    ///
    /// That of the stream.
    pub fn taken(&mut self, key: u64, take: &Take<WORDS>) -> io::Result<()> {
        match take {
            Take::Taken { at, old } => {
                self.found(at - 1, old)?;
                self.removed(key, Removal::Removed { at: *at })
            }
            Take::NotThere { at } => self.removed(key, Removal::NotThere { at: *at }),
        }
    }

    /// What an eviction did. That the shard has no key says nothing.
    ///
    /// # Errors
    ///
    /// That of the stream.
    pub fn evicted(&mut self, evict: &Evict<WORDS>) -> io::Result<()> {
        let Evict::Evicted { at, old } = evict else { return Ok(()) };
        self.found(at - 1, old)?;
        writeln!(self.out, "evict {at} {}", old.key)
    }

    /// The stream. What it has not written yet is for the caller to flush.
    pub fn into_inner(self) -> W {
        self.out
    }

    fn found(&mut self, at: u64, entry: &Entry<WORDS>) -> io::Result<()> {
        write!(self.out, "found {at} {} {}", entry.since, entry.key)?;
        self.words(&entry.value)
    }

    fn words(&mut self, value: &[u64; WORDS]) -> io::Result<()> {
        for word in value {
            write!(self.out, " {word}")?;
        }
        writeln!(self.out)
    }
}
