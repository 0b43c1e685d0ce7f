//! A handle of the index, whose entries have any width, 1 to 8 words. The width is chosen at opening.
use crate::words::{Layout, Seen, Words, MOST};
use cefrodil::{
    BoundedError, Cache, Entry, Evict, EvictError, Handle, ListError, OpenError, Put, PutError, PutIfAbsentError, PutIfError,
    Removal, Reply, Shape, Spent, TurnError,
};
use std::ops::DerefMut;

/// How many keys one call looks up at most.
pub(crate) const MANY: usize = 32;

/// What both kinds of maps do by a handle, whatever the width of its entries is.
pub(crate) trait Index: Sized {
    /// One more handle of the same index, if there is memory for it.
    fn more(&mut self) -> Option<Self>;

    fn capacity(&mut self) -> usize;

    /// The keys of all entries, in a turn at each shard.
    fn keys(&mut self) -> Result<Vec<u64>, TurnError<ListError>>;

    /// The entry at this place of the shard of this key, if there is one, and if the try wins the turn.
    fn entry_at(&mut self, near: u64, item: u32) -> Option<Entry<MOST>>;

    /// Evicts an entry in the shard of this key. Returns the moment, and the first word of the value. `None`: the shard is empty.
    fn evict(&mut self, near: u64) -> Result<Option<(u64, u64)>, TurnError<EvictError>>;
}

/// A put into a full map. If it failed, a key or an entry may have left all the same.
pub(crate) type Bounded<P, L, E> = Result<P, TurnError<BoundedError<L, E>>>;

/// A handle by the width of its entries.
pub(crate) enum AnyHandle {
    One(Handle<1>),
    Two(Handle<2>),
    Three(Handle<3>),
    Four(Handle<4>),
    Five(Handle<5>),
    Six(Handle<6>),
    Seven(Handle<7>),
    Eight(Handle<8>),
}

// What `$call` gives for the handle, whatever its width is.
macro_rules! any {
    ($any:expr, $handle:ident => $call:expr) => {
        match $any {
            AnyHandle::One($handle) => $call,
            AnyHandle::Two($handle) => $call,
            AnyHandle::Three($handle) => $call,
            AnyHandle::Four($handle) => $call,
            AnyHandle::Five($handle) => $call,
            AnyHandle::Six($handle) => $call,
            AnyHandle::Seven($handle) => $call,
            AnyHandle::Eight($handle) => $call,
        }
    };
}

// The same for a handle of a map of such values, with this layout. If the compiler knows the layout, it leaves the other widths out.
macro_rules! of_width {
    ($any:expr, $layout:expr, $value:ty, $handle:ident => $call:expr) => {
        match ($layout.width::<$value>(), $any) {
            (1, AnyHandle::One($handle)) => $call,
            (2, AnyHandle::Two($handle)) => $call,
            (3, AnyHandle::Three($handle)) => $call,
            (4, AnyHandle::Four($handle)) => $call,
            (5, AnyHandle::Five($handle)) => $call,
            (6, AnyHandle::Six($handle)) => $call,
            (7, AnyHandle::Seven($handle)) => $call,
            (8, AnyHandle::Eight($handle)) => $call,
            _ => unreachable!("opening takes this width"),
        }
    };
}

impl<const WIDTH: usize> Index for Handle<WIDTH> {
    fn more(&mut self) -> Option<Self> {
        Handle::more(self, 1).ok()?.pop()
    }

    fn capacity(&mut self) -> usize {
        Handle::capacity(self)
    }

    fn keys(&mut self) -> Result<Vec<u64>, TurnError<ListError>> {
        listed(self.try_entries()?, |(key, _)| key)
    }

    fn entry_at(&mut self, near: u64, item: u32) -> Option<Entry<MOST>> {
        let Entry { key, value, since } = self.try_entry_at(near, item).ok()??;
        Some(Entry { key, value: wide(&value), since })
    }

    fn evict(&mut self, near: u64) -> Result<Option<(u64, u64)>, TurnError<EvictError>> {
        Ok(match self.try_evict(near)? {
            Evict::Evicted { at, old } => Some((at, old.value[0])),
            Evict::Empty { .. } => None,
        })
    }
}

impl Index for AnyHandle {
    fn more(&mut self) -> Option<Self> {
        macro_rules! more {
            ($($width:ident)*) => {
                match self {
                    $(AnyHandle::$width(handle) => AnyHandle::$width(Index::more(handle)?),)*
                }
            };
        }
        Some(more!(One Two Three Four Five Six Seven Eight))
    }

    fn capacity(&mut self) -> usize {
        any!(self, handle => handle.capacity())
    }

    fn keys(&mut self) -> Result<Vec<u64>, TurnError<ListError>> {
        any!(self, handle => handle.keys())
    }

    fn entry_at(&mut self, near: u64, item: u32) -> Option<Entry<MOST>> {
        any!(self, handle => handle.entry_at(near, item))
    }

    fn evict(&mut self, near: u64) -> Result<Option<(u64, u64)>, TurnError<EvictError>> {
        any!(self, handle => handle.evict(near))
    }
}

impl AnyHandle {
    /// Opens an index whose entries have this width.
    pub fn open(width: usize, shape: &Shape, shards: u32, handles: usize) -> Result<Vec<AnyHandle>, OpenError> {
        macro_rules! open {
            ($variant:ident) => {
                Cache::open(shape, shards, handles)?.into_iter().map(AnyHandle::$variant).collect()
            };
        }
        Ok(match width {
            1 => open!(One),
            2 => open!(Two),
            3 => open!(Three),
            4 => open!(Four),
            5 => open!(Five),
            6 => open!(Six),
            7 => open!(Seven),
            _ => open!(Eight),
        })
    }

    /// Looks the key up by `get_or_turn` of a handle of a map of such values, with this layout. Gives the handle back, and then calls `then`. The words
    /// stay where the index wrote them.
    #[inline(always)]
    pub fn get<V, R>(mut handle: impl DerefMut<Target = AnyHandle>, key: u64, layout: Layout, then: impl FnOnce(Seen) -> R) -> R {
        of_width!(&mut *handle, layout, V, by_width => {
            let mut reply = Reply::Busy;
            by_width.get_or_turn_into(key, &mut reply);
            drop(handle);
            then(Seen::of(&mut reply))
        })
    }

    /// Looks these keys up, `MANY` at most. Gives the handle back, and then calls `then` for each, in order.
    #[inline(always)]
    pub fn get_many<V>(
        mut handle: impl DerefMut<Target = AnyHandle>,
        keys: &[u64],
        layout: Layout,
        mut then: impl FnMut(usize, Seen),
    ) {
        of_width!(&mut *handle, layout, V, by_width => {
            let mut replies = [Reply::Busy; MANY];
            let replies = &mut replies[..keys.len()];
            by_width.get_many(keys, replies);
            drop(handle);
            replies.iter_mut().enumerate().for_each(|(index, reply)| then(index, Seen::of(reply)));
        })
    }

    pub fn get_or_turn(&mut self, key: u64) -> Reply<MOST> {
        any!(self, handle => wide_reply(handle.get_or_turn(key)))
    }

    /// Looks the key up in a turn, which is no use of it. `Busy`: the try did not win.
    pub fn peek(&mut self, key: u64) -> Reply<MOST> {
        any!(self, handle => handle.try_peek(key).map_or(Reply::Busy, wide_reply))
    }

    pub fn put(&mut self, key: u64, words: &Words) -> Result<Put, TurnError<PutError>> {
        any!(self, handle => handle.try_put(key, narrow(words)))
    }

    pub fn put_if(&mut self, key: u64, since: u64, words: &Words) -> Result<u64, TurnError<PutIfError>> {
        any!(self, handle => handle.try_put_if(key, since, narrow(words)))
    }

    pub fn put_if_absent(&mut self, key: u64, words: &Words) -> Result<Put, TurnError<PutIfAbsentError>> {
        any!(self, handle => handle.try_put_if_absent(key, narrow(words)))
    }

    /// Like `put`, but another entry of the shard leaves for a new key.
    pub fn put_bounded(&mut self, key: u64, words: &Words) -> Bounded<Put, u64, PutError> {
        any!(self, handle => handle.try_put_bounded(key, 1, narrow(words)))
    }

    pub fn put_if_absent_bounded(&mut self, key: u64, words: &Words) -> Bounded<Put, u64, PutIfAbsentError> {
        any!(self, handle => handle.try_put_if_absent_bounded(key, 1, narrow(words)))
    }

    pub fn remove(&mut self, key: u64) -> Result<Removal, TurnError<Spent>> {
        any!(self, handle => handle.try_remove(key))
    }

    /// Removes the key if its last put was at the moment `since`.
    pub fn take_if(&mut self, key: u64, since: u64) -> Result<(), TurnError<PutIfError>> {
        any!(self, handle => handle.try_take_if(key, since).map(drop))
    }

    /// All entries, in a turn at each shard.
    pub fn entries(&mut self) -> Result<Vec<(u64, Words)>, TurnError<ListError>> {
        any!(self, handle => listed(handle.try_entries()?, |(key, value)| (key, wide(&value))))
    }
}

// A list of what this makes of each entry, if there is memory for it.
fn listed<T, U>(entries: Vec<T>, make: impl FnMut(T) -> U) -> Result<Vec<U>, TurnError<ListError>> {
    let mut list = Vec::new();
    list.try_reserve_exact(entries.len()).map_err(|_| TurnError::Call(ListError::NoMemory))?;
    list.extend(entries.into_iter().map(make));
    Ok(list)
}

fn narrow<const WIDTH: usize>(words: &Words) -> &[u64; WIDTH] {
    words.first_chunk().expect("no width is above the most")
}

fn wide<const WIDTH: usize>(value: &[u64; WIDTH]) -> Words {
    let mut words = [0; MOST];
    words[..WIDTH].copy_from_slice(value);
    words
}

fn wide_reply<const WIDTH: usize>(reply: Reply<WIDTH>) -> Reply<MOST> {
    match reply {
        Reply::Found { value, at, since } => Reply::Found { value: wide(&value), at, since },
        Reply::Absent { at } => Reply::Absent { at },
        Reply::Busy => Reply::Busy,
    }
}
