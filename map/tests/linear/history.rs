//! What calls did with one key, and the search for an order of them, after Wing and Gong.
//!
//! Each key is checked by itself, with the calls for all keys in its history: what the map promises of those is said of each key.
use std::collections::HashSet;
use std::fmt::{self, Debug, Formatter};

/// What the key has.
pub type Value = Option<u64>;

/// What a call says that it did with a key.
#[derive(Clone, Copy, Debug)]
pub enum Did {
    /// The key had this.
    Saw(Value),
    /// It had something else than what the call would have written over.
    Missed(Value),
    /// It had nothing that the call could change. At an earlier try it may have had.
    Tried,
    /// It had the first, and has the second.
    Changed(Value, Value),
    /// It has this, whatever it had.
    Set(Value),
    /// It was refused, and changed nothing.
    Failed,
    /// It had nothing, and this was made, from that moment on, and put. It is not put only if another call wrote, or tried to, or if puts are refused.
    Made { value: u64, from: u64, is_put: Option<bool> },
    /// It had this, or nothing: then another call was making this, and this one waited for it.
    Joined(u64),
}

/// A call: between two moments, by a thread.
#[derive(Clone, Copy)]
pub struct Call {
    pub begin: u64,
    pub end: u64,
    pub thread: usize,
    pub did: Did,
}

impl Call {
    fn is_write(&self) -> bool {
        matches!(self.did, Did::Changed(..) | Did::Set(_))
    }

    // Whether what was being made may be lost by this call.
    fn may_outdate(&self) -> bool {
        self.is_write() || matches!(self.did, Did::Missed(_) | Did::Tried | Did::Failed)
    }

    fn is_beside(&self, other: &Call) -> bool {
        self.begin < other.end && other.begin < self.end
    }
}

impl Debug for Call {
    fn fmt(&self, text: &mut Formatter) -> fmt::Result {
        write!(text, "{:4} to {:4}, thread {}: {:?}", self.begin, self.end, self.thread, self.did)
    }
}

/// What else may happen.
#[derive(Clone, Copy, Debug, Default)]
pub struct May {
    /// The key may lose what it has at any time.
    pub evict: bool,
    /// What it has may have ended for one call, and then be renewed by another one that found it before.
    pub renew: bool,
    /// What was made may be refused, or lost by a write of another key with the same hash.
    pub refuse: bool,
}

/// The calls that concern one key.
pub struct History {
    calls: Vec<Call>,
    may: May,
    // The sets of calls, with what the key has after them, from which the search has gone on.
    tried: HashSet<(u64, Value)>,
}

impl History {
    /// At most 64 calls.
    pub fn new(calls: Vec<Call>, may: May) -> History {
        assert!(calls.len() <= 64);
        History { calls, may, tried: HashSet::new() }
    }

    /// Whether there is an order of the calls that explains what each did. At first the key has nothing.
    pub fn has_order(&mut self) -> bool {
        self.goes_on(0, None)
    }

    // Whether calls that are not done can come in an order after those that are.
    fn goes_on(&mut self, done: u64, value: Value) -> bool {
        let open: Vec<usize> = (0..self.calls.len()).filter(|call| done & 1 << call == 0).collect();
        let Some(first_end) = open.iter().map(|call| self.calls[*call].end).min() else { return true };
        if !self.tried.insert((done, value)) {
            return false;
        }
        if self.may.evict && value.is_some() && self.goes_on(done, None) {
            return true;
        }
        open.into_iter().any(|call| {
            let is_next = self.calls[call].begin < first_end;
            let nexts = if is_next { self.nexts(call, done, value) } else { [None; 2] };
            let is_hidden = is_next && self.may.renew && value.is_some();
            let hidden =
                if is_hidden { self.nexts(call, done, None).map(|next| next.map(|next| next.or(value))) } else { [None; 2] };
            nexts.into_iter().chain(hidden).flatten().any(|next| self.goes_on(done | 1 << call, next))
        })
    }

    // What the key may have after this call: none, one or two answers.
    fn nexts(&self, call: usize, done: u64, value: Value) -> [Option<Value>; 2] {
        let is = |is: bool, next: Value| is.then_some(next);
        match self.calls[call].did {
            Did::Saw(seen) => [is(seen == value, value), None],
            Did::Tried => [is(value.is_none(), None), None],
            Did::Missed(seen) => [is(seen != value, value), None],
            Did::Changed(old, new) => [is(old == value, new), None],
            Did::Set(new) => [Some(new), None],
            Did::Failed => [Some(value), None],
            Did::Made { value: made, from, is_put } => {
                let may_put = value.is_none() && is_put != Some(false) && !self.has_written(done, from);
                let may_lose = value.is_none() && is_put != Some(true) && (self.may.refuse || self.is_beside_writer(call));
                [is(may_put, Some(made)), is(may_lose, None)]
            }
            Did::Joined(made) => [is(value == Some(made), value), is(value.is_none() && self.may_join(call, made), None)],
        }
    }

    // Whether a call that is done wrote the key, and began after this moment: what was made before is not put after it.
    fn has_written(&self, done: u64, from: u64) -> bool {
        let mut others = self.calls.iter().enumerate();
        others.any(|(other, call)| done & 1 << other != 0 && call.is_write() && call.begin > from)
    }

    fn is_beside_writer(&self, call: usize) -> bool {
        self.calls.iter().any(|other| other.may_outdate() && other.is_beside(&self.calls[call]))
    }

    // Whether another call made this value beside this one, and no write came between its begin and this one.
    fn may_join(&self, call: usize, value: u64) -> bool {
        let this = &self.calls[call];
        let stale = |from: u64| self.calls.iter().any(|write| write.is_write() && write.begin > from && write.end < this.begin);
        self.calls.iter().any(|other| match other.did {
            Did::Made { value: made, from, .. } => made == value && other.is_beside(this) && !stale(from),
            _ => false,
        })
    }
}

impl Debug for History {
    fn fmt(&self, text: &mut Formatter) -> fmt::Result {
        self.calls.iter().try_for_each(|call| writeln!(text, "{call:?}"))
    }
}

#[cfg(test)]
mod tests {
    use super::*;

    fn has_order(calls: &[(u64, u64, Did)]) -> bool {
        let call = |&(begin, end, did): &(u64, u64, Did)| Call { begin, end, thread: 0, did };
        History::new(calls.iter().map(call).collect(), May::default()).has_order()
    }

    #[test]
    fn it_tells_histories_that_have_an_order() {
        use Did::{Changed, Made, Missed, Saw, Set};
        let put = (1, 2, Set(Some(7)));
        assert!(has_order(&[put, (3, 4, Saw(Some(7))), (5, 6, Changed(Some(7), None)), (7, 8, Saw(None))]));
        assert!(has_order(&[put, (3, 8, Set(Some(8))), (4, 5, Saw(Some(8))), (6, 7, Saw(Some(8))), (9, 10, Missed(Some(7)))]));
        assert!(has_order(&[(1, 6, Made { value: 7, from: 2, is_put: None }), (3, 4, Set(None)), (7, 8, Saw(None))]));
    }

    #[test]
    fn it_tells_histories_that_have_none() {
        use Did::{Changed, Joined, Made, Saw, Set};
        let put = (1, 2, Set(Some(7)));
        let lost_update = [put, (3, 6, Changed(Some(7), Some(8))), (4, 5, Changed(Some(7), Some(9)))];
        let made_twice = [put, (3, 8, Set(Some(8))), (4, 5, Changed(Some(8), None)), (9, 10, Saw(Some(8)))];
        let no_clear = [put, (3, 4, Set(None)), (5, 6, Saw(Some(7)))];
        let stale_fill = [(1, 6, Made { value: 7, from: 2, is_put: None }), (3, 4, Set(None)), (7, 8, Saw(Some(7)))];
        let lost_fill = [(1, 2, Made { value: 7, from: 1, is_put: None }), (3, 4, Saw(None))];
        let joined_late =
            [(1, 9, Made { value: 7, from: 2, is_put: None }), (3, 4, Set(None)), (5, 6, Joined(7)), (7, 8, Saw(None))];
        let flickers = [put, (3, 9, Set(Some(8))), (4, 5, Saw(Some(8))), (6, 7, Saw(Some(7)))];
        for history in [&lost_update[..], &made_twice, &no_clear, &stale_fill, &lost_fill, &joined_late, &flickers] {
            assert!(!has_order(history), "{history:?}");
        }
    }
}
