//! Answers that are to be sent. A large value is sent from the item itself: a client that reads late holds no copy of it.
use crate::item::Item;
use crate::large::Held;
use crate::memory::{buffer, try_reserve, APART};
use std::cell::Cell;
use std::io::{self, IoSlice, Write};
use std::mem;
use std::ops::{Deref, DerefMut};

/// While so many bytes of answers wait, or a large value, no command is carried out, and nothing is read.
pub const MOST_WAITING: usize = 1 << 16;

/// The bytes of a worker's buffer: for what waits, and for the answer of one step, which is no longer than that.
const ROOM: usize = APART;

thread_local! {
    /// A client has a buffer of its own only while answers wait in it.
    static WORKERS: Cell<Vec<u8>> = const { Cell::new(Vec::new()) };
}

/// Answers, as the list of their bytes. That lacks the large value, if there is one.
#[derive(Default)]
pub struct Output {
    bytes: Vec<u8>,
    large: Option<Large>,
    /// So many bytes of all have been sent.
    sent: usize,
}

/// A value that is sent from its item, behind so many bytes of the list.
struct Large {
    before: usize,
    item: Held,
}

impl Deref for Output {
    type Target = Vec<u8>;

    fn deref(&self) -> &Vec<u8> {
        &self.bytes
    }
}

impl DerefMut for Output {
    fn deref_mut(&mut self) -> &mut Vec<u8> {
        &mut self.bytes
    }
}

impl Output {
    /// For a turn in which nothing waits: takes the worker's buffer. Returns whether there is memory for one.
    pub fn borrow(&mut self) -> bool {
        self.bytes = WORKERS.take();
        self.bytes.capacity() >= ROOM || try_reserve(&mut self.bytes, ROOM)
    }

    /// After that turn: what is not sent goes to a buffer of its own size. Returns whether there is memory for it. If not, it is gone.
    pub fn give_back(&mut self) -> bool {
        let rest = self.take_rest();
        self.clear();
        WORKERS.set(mem::take(&mut self.bytes));
        let is_kept = rest.is_some();
        *self = rest.unwrap_or_default();
        is_kept
    }

    pub fn held(&self) -> usize {
        self.bytes.len()
    }

    /// Ends a line, and writes the item's value behind it.
    pub fn block(&mut self, item: &Item) {
        self.bytes.extend_from_slice(b"\r\n");
        match Held::of(item).filter(|_| self.large.is_none()) {
            Some(item) => self.large = Some(Large { before: self.bytes.len(), item }),
            None => self.bytes.extend_from_slice(item.value()),
        }
        self.bytes.extend_from_slice(b"\r\n");
    }

    /// Whether it must be sent before more is written.
    pub fn is_full(&self) -> bool {
        self.large.is_some() || self.bytes.len() >= MOST_WAITING
    }

    pub fn is_empty(&self) -> bool {
        self.bytes.is_empty()
    }

    pub fn item(&self) -> Option<&Held> {
        self.large.as_ref().map(|large| &large.item)
    }

    /// What is not sent: the bytes before the large value, that itself, and the bytes behind it.
    fn parts(&self) -> [&[u8]; 3] {
        let (before, value) = match &self.large {
            Some(Large { before, item }) => (*before, item.item().value()),
            None => (self.bytes.len(), [].as_slice()),
        };
        let mut sent = self.sent;
        [&self.bytes[..before], value, &self.bytes[before..]].map(|part| {
            let gone = sent.min(part.len());
            sent -= gone;
            &part[gone..]
        })
    }

    /// Writes what is not sent, as much as that takes at once. Returns how many bytes those were.
    pub fn send(&mut self, to: &mut impl Write) -> io::Result<usize> {
        let length = match &self.large {
            None => to.write(&self.bytes[self.sent..])?,
            Some(_) => to.write_vectored(&self.parts().map(IoSlice::new))?,
        };
        self.sent += length;
        if self.sent == self.bytes.len() + self.large.as_ref().map_or(0, |large| large.item.item().value().len()) {
            self.clear();
        }
        Ok(length)
    }

    /// What is not sent, in a list of its own size. `None`: there is no memory for that.
    fn take_rest(&mut self) -> Option<Output> {
        let [before, value, behind] = self.parts();
        let mut bytes = buffer(before.len() + behind.len())?;
        bytes.extend_from_slice(before);
        bytes.extend_from_slice(behind);
        let (before, left) = (before.len(), value.len());
        let large = self.large.take().filter(|_| left > 0).map(|large| Large { before, ..large });
        let sent = large.as_ref().map_or(0, |large| large.item.item().value().len() - left);
        Some(Output { bytes, large, sent })
    }

    fn clear(&mut self) {
        self.bytes.clear();
        self.large = None;
        self.sent = 0;
    }
}

const _: () = assert!(ROOM >= 2 * MOST_WAITING);
