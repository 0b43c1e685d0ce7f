//! Items that have expired, or that a flush has hit, go after a while though nobody asks for them.
use crate::index::Refused;
use crate::store::Store;
use crate::walk;
use cefrodil_map::Reason;
use std::sync::PoisonError;
use std::time::Duration;

/// How often each worker looks at some items, and at how many.
pub const PAUSE: Duration = Duration::from_secs(1);
pub const LOOKED_AT: usize = 4096;

/// How far the workers have come in their walk over all items.
#[derive(Default)]
pub(crate) struct Round {
    position: usize,
    /// When the oldest item was made that was live.
    oldest: Option<u64>,
    /// The same, of the last round.
    oldest_before: Option<u64>,
}

impl Store {
    /// Looks at the next items, and removes those that are not live. If another worker is doing that, it does nothing.
    pub fn expire(&self) {
        let Ok(mut round) = self.round.try_lock() else { return };
        let (now, mut looked, mut dead) = (self.books.clock.now(), 0, Vec::new());
        while looked < LOOKED_AT {
            looked += 1;
            let next = walk::look(round.position, |item| {
                looked += 1;
                if item.is_live(now, &self.books.flushes) {
                    round.oldest = Some(item.born().min(round.oldest.unwrap_or(u64::MAX)));
                } else {
                    dead.push(self.index.hash_of(item.key()));
                }
            });
            let goes_on = dead.drain(..).all(|hash| self.remove_dead(hash));
            match next {
                Some(position) => round.position = position,
                None => {
                    *round = Round { oldest_before: round.oldest, ..Round::default() };
                    return;
                }
            }
            if !goes_on {
                return;
            }
        }
    }

    /// Removes the item with this hash if it is not live. The lock keeps a new time to live from coming between. If another thread has it, the item
    /// stays until the next round. Returns whether others did not keep this one waiting: if they did, it has taken a second.
    fn remove_dead(&self, hash: u64) -> bool {
        let Some(_lock) = self.key_locks.lock(hash, 1) else { return true };
        let mut dead = None;
        self.index.peek(hash, &mut |item, token| dead = (!self.books.is_live(item)).then_some(token));
        dead.is_none_or(|token| self.index.remove(hash, token, Reason::Expired) != Err(Refused::Held))
    }

    /// When the oldest item was made that this round over all items or the last one has found.
    pub(crate) fn oldest(&self) -> Option<u64> {
        let round = self.round.lock().unwrap_or_else(PoisonError::into_inner);
        round.oldest.into_iter().chain(round.oldest_before).min()
    }

    /// What a worker does each second, beside answering clients.
    pub fn tidy_up(&self) {
        self.expire();
        self.seats.look();
        self.books.budget.look(0);
    }
}
