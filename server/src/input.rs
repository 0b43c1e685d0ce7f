//! Bytes that a client has sent and that are not done with. While it has its turn, few of them lie in a buffer of the worker.
use crate::memory::{buffer, try_reserve, APART};
use std::cell::Cell;
use std::mem;

/// How many bytes are read at a time, at least. From so many on, those that wait have a buffer of their own, which grows as the client sends.
const CHUNK: usize = 1 << 14;

/// The bytes of a worker's buffer.
const ROOM: usize = APART;

thread_local! {
    static WORKERS: Cell<Vec<u8>> = const { Cell::new(Vec::new()) };
}

/// Those of `bytes` from `start` to `end`.
#[derive(Default)]
pub struct Input {
    bytes: Vec<u8>,
    start: usize,
    end: usize,
    /// Whether the buffer is the worker's.
    is_borrowed: bool,
}

/// A buffer of so many bytes, the first of which are these. `None`: there is no memory for it.
fn buffer_of(first: &[u8], size: usize) -> Option<Vec<u8>> {
    let mut bytes = buffer(size)?;
    bytes.extend_from_slice(first);
    bytes.resize(size, 0);
    Some(bytes)
}

impl Input {
    pub fn waiting(&self) -> &[u8] {
        &self.bytes[self.start..self.end]
    }

    pub fn len(&self) -> usize {
        self.end - self.start
    }

    /// How many bytes the client's own buffer has.
    pub fn held(&self) -> usize {
        if self.is_borrowed {
            0
        } else {
            self.bytes.len()
        }
    }

    pub fn consume(&mut self, count: usize) {
        self.start += count;
        if self.start == self.end {
            (self.start, self.end) = (0, 0);
        }
    }

    /// For a turn: few bytes go to the worker's buffer. Returns whether there is memory for one.
    pub fn borrow(&mut self) -> bool {
        if self.bytes.len() >= CHUNK {
            return true;
        }
        let mut bytes = WORKERS.take();
        if bytes.is_empty() {
            let Some(new) = buffer_of(&[], ROOM) else { return false };
            bytes = new;
        }
        let length = self.len();
        bytes[..length].copy_from_slice(self.waiting());
        *self = Input { bytes, start: 0, end: length, is_borrowed: true };
        true
    }

    /// After a turn: what waits goes to a buffer of its own, unless it has one. Returns whether there is memory for it.
    pub fn keep(&mut self) -> bool {
        if !self.is_borrowed && self.len() >= CHUNK {
            return true;
        }
        let end = self.len();
        let Some(rest) = buffer_of(self.waiting(), end) else { return false };
        self.replace(rest);
        self.end = end;
        true
    }

    pub fn forget(&mut self) {
        self.replace(Vec::new());
        self.end = 0;
    }

    /// Takes this buffer in place of the one that it has.
    fn replace(&mut self, bytes: Vec<u8>) {
        let old = mem::replace(&mut self.bytes, bytes);
        self.start = 0;
        if mem::take(&mut self.is_borrowed) {
            WORKERS.set(old);
        }
    }

    /// Makes room to read to, if so many bytes must be there. A client can make its buffer twice as large as what it has sent, and no larger. Returns
    /// whether there is memory for it.
    pub fn make_room(&mut self, needs: usize) -> bool {
        if self.start > 0 {
            self.bytes.copy_within(self.start..self.end, 0);
            (self.start, self.end) = (0, self.len());
        }
        let wanted = needs.min((self.end + CHUNK).max(2 * self.end));
        let length = self.bytes.len();
        if self.is_borrowed && self.end < ROOM || length >= wanted {
            return true;
        }
        if self.is_borrowed {
            return buffer_of(self.waiting(), wanted).map(|own| self.replace(own)).is_some();
        }
        let has_memory = try_reserve(&mut self.bytes, wanted - length);
        if has_memory {
            self.bytes.resize(wanted, 0);
        }
        has_memory
    }

    pub fn room(&mut self) -> &mut [u8] {
        let end = if self.is_borrowed { ROOM.min(self.end + CHUNK) } else { self.bytes.len() };
        &mut self.bytes[self.end..end]
    }

    pub fn add(&mut self, count: usize) {
        self.end += count;
    }
}
