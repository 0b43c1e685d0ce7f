//! Clients that hold more than does not count. If all hold too much, those are cut off that hold most for longest.
use crate::large::{left, Held};
use crate::memory::may_fail;
use mio::{Token, Waker};
use std::collections::HashMap;
use std::sync::Arc;
use std::time::{Duration, Instant};

/// Who serves a client, and its token there.
#[derive(Clone)]
pub struct Home {
    pub waker: Arc<Waker>,
    pub token: Token,
}

/// What a client that is to be cut off has held, and for how long.
#[derive(Clone, Copy, Debug)]
pub struct Cut {
    pub bytes: u64,
    pub time: Duration,
}

/// The clients by their seats.
#[derive(Default)]
pub struct Holders {
    all: HashMap<usize, Holder>,
    /// The bytes of all that are not cut off.
    bytes: u64,
}

struct Holder {
    home: Option<Home>,
    bytes: u64,
    item: Option<Held>,
    since: Instant,
    /// Whether it is to be cut off, and its worker has not heard that.
    cut: Option<bool>,
}

impl Holder {
    /// What it keeps from being freed.
    fn kept(&self) -> u64 {
        self.item.as_ref().map_or(0, Held::bytes)
    }

    fn size(&self) -> u64 {
        self.bytes + self.kept()
    }

    fn weight(&self) -> u128 {
        u128::from(self.size()) * self.since.elapsed().as_nanos()
    }

    fn counted(&self) -> u64 {
        self.cut.map_or(self.bytes, |_| 0)
    }
}

impl Holders {
    /// Notes what a client holds. Returns whether it counts: there may be no memory for one more.
    pub fn note(&mut self, seat: usize, home: Option<&Home>, bytes: u64, item: Option<&Held>) -> bool {
        if !self.all.contains_key(&seat) && may_fail(|| self.all.try_reserve(1)).is_err() {
            return false;
        }
        let new = || Holder { home: home.cloned(), bytes: 0, item: None, since: Instant::now(), cut: None };
        let holder = self.all.entry(seat).or_insert_with(new);
        let before = holder.counted();
        holder.bytes = bytes;
        holder.item = item.cloned();
        self.bytes = self.bytes - before + holder.counted();
        true
    }

    /// The client holds nothing that counts.
    pub fn remove(&mut self, seat: usize) {
        if let Some(holder) = self.all.remove(&seat) {
            self.bytes -= holder.counted();
        }
    }

    /// Cuts clients off until the others hold so many bytes at most.
    pub fn cut(&mut self, most: u64) {
        let held = self.bytes + left();
        if held <= most {
            return;
        }
        let going = self.all.values().filter(|holder| holder.cut.is_some()).map(Holder::kept).sum::<u64>();
        let mut over = held.saturating_sub(most + going);
        while over > 0 {
            let held = self.all.values_mut().filter(|holder| holder.cut.is_none() && holder.size() > 0);
            let Some(holder) = held.max_by_key(|holder| holder.weight()) else { return };
            over = over.saturating_sub(holder.size());
            self.bytes -= holder.bytes;
            holder.cut = Some(true);
            if let Some(Home { waker, .. }) = &holder.home {
                // If it can't be woken, it comes to this client at the client's next event.
                let _ = waker.wake();
            }
        }
    }

    /// The next client of this worker that is to be cut off, and that it has not heard of.
    pub fn next_cut(&mut self, worker: &Arc<Waker>) -> Option<Token> {
        self.all.values_mut().filter(|holder| holder.cut == Some(true)).find_map(|holder| {
            let token = holder.home.as_ref().filter(|home| Arc::ptr_eq(&home.waker, worker))?.token;
            holder.cut = Some(false);
            Some(token)
        })
    }

    /// What the client has held, if it is to be cut off.
    pub fn cut_of(&self, seat: usize) -> Option<Cut> {
        let holder = self.all.get(&seat).filter(|holder| holder.cut.is_some())?;
        Some(Cut { bytes: holder.size(), time: holder.since.elapsed() })
    }
}
