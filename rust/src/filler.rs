//! A guard against stale fills, for a cache beside a store.
use crate::error::{PutError, PutIfAbsentError, Spent};
use crate::reply::{Put, Removal};
use crate::writing::Writing;
use std::error::Error;
use std::fmt::{self, Debug, Display, Formatter};
use std::sync::atomic::{AtomicU64, Ordering};
use std::sync::Arc;

/// How many changes of the store a [`Filler`] knew when it was taken.
#[derive(Clone, Copy, Debug, PartialEq, Eq, Hash)]
pub struct Ticket(u64);

/// Gives tickets to the threads that read the store. A clone gives the same.
#[derive(Clone, Debug)]
pub struct Tickets(Arc<AtomicU64>);

impl Tickets {
    /// Take one before you read the store, and send it to the [`Filler`] with the value that you read.
    #[must_use]
    pub fn take(&self) -> Ticket {
        // With the release in `changed`: a thread whose ticket counts a change of the store sees that change when it reads the store.
        Ticket(self.0.load(Ordering::Acquire))
    }
}

/// The one place from which a program writes, which knows the last changes of the store, each by its key. So it refuses stale fills.
///
/// A thread that misses a key reads the store and has the value put. If another thread changes the store and removes the key in between,
/// a plain put brings the old value back.
///
/// ```
/// use cefrodil::{Cache, FillError, Filler, Reply, Shape};
///
/// let mut handles = Cache::<1>::open(&Shape::for_items(100, 1)?, 1, 2)?;
/// let mut filler = Filler::new(handles.remove(0).into_writing()?, 1000);
/// let (mut store, tickets) = (70, filler.tickets());
/// // One thread misses the key, and reads the store.
/// let (ticket, read) = (tickets.take(), store);
/// // Another one changes the store, and then has the key removed.
/// store = 71;
/// filler.remove(7)?;
/// // The first one's value comes late.
/// assert_eq!(filler.fill(7, ticket, &[read]), Err(FillError::Stale));
/// filler.fill(7, tickets.take(), &[store])?;
/// assert_eq!(handles[0].get(7).value(), Some([71]));
/// # Ok::<(), Box<dyn std::error::Error>>(())
/// ```
pub struct Filler<const WORDS: usize> {
    writing: Writing<'static, WORDS>,
    count: Arc<AtomicU64>,
    // The keys of the last changes: that of change n at place n, modulo their number.
    keys: Vec<u64>,
}

impl<const WORDS: usize> Filler<WORDS> {
    /// A filler that knows this many changes, at least one. A fill is refused if more have come since its ticket, so take what may
    /// come while a thread reads the store, and some more.
    ///
    /// # Panics
    ///
    /// If `changes` times 8 bytes are more than a `Vec` can have.
    #[must_use]
    pub fn new(writing: Writing<'static, WORDS>, changes: usize) -> Filler<WORDS> {
        Filler { writing, count: Arc::default(), keys: vec![0; changes.max(1)] }
    }

    /// Gives tickets to the threads that read the store.
    #[must_use]
    pub fn tickets(&self) -> Tickets {
        Tickets(Arc::clone(&self.count))
    }

    /// Puts a value that was read in the store after the ticket was taken, if the key is absent.
    ///
    /// # Errors
    ///
    /// [`FillError`]: nothing was put.
    pub fn fill(&mut self, key: u64, ticket: Ticket, value: &[u64; WORDS]) -> Result<Put, FillError> {
        if self.is_stale(key, ticket) {
            return Err(FillError::Stale);
        }
        self.writing.put_if_absent(key, value).map_err(|why| match why {
            PutIfAbsentError::Present { since } => FillError::Present { since },
            PutIfAbsentError::Put(why) => FillError::Put(why),
        })
    }

    /// Removes a key that was changed in the store before.
    ///
    /// # Errors
    ///
    /// [`Spent`]: the key is still there, and no removal will succeed. Open a new cache.
    pub fn remove(&mut self, key: u64) -> Result<Removal, Spent> {
        self.changed(key);
        self.writing.remove(key)
    }

    /// Puts the key's new value, which is in the store. Only one thread may change the store then: of two, the later change's put could
    /// come first. So [`remove`](Filler::remove) the key if several do.
    ///
    /// # Errors
    ///
    /// [`PutError`]: the key's old value may still be there, so remove the key.
    pub fn put(&mut self, key: u64, value: &[u64; WORDS]) -> Result<Put, PutError> {
        self.changed(key);
        self.writing.put(key, value)
    }

    /// The handle that holds, for all other calls. What it puts and removes is no change of the store.
    pub fn writing(&mut self) -> &mut Writing<'static, WORDS> {
        &mut self.writing
    }

    /// The handle that holds. The tickets that were taken are of no use any more.
    pub fn into_writing(self) -> Writing<'static, WORDS> {
        self.writing
    }

    fn changed(&mut self, key: u64) {
        // Relaxed: this thread alone changes the count. So too in `is_stale`.
        let (count, places) = (self.count.load(Ordering::Relaxed), self.keys.len() as u64);
        self.keys[(count % places) as usize] = key;
        // Else a ticket could count this change though its thread still reads the old value, and `fill` would put that.
        self.count.store(count + 1, Ordering::Release);
    }

    fn is_stale(&self, key: u64, Ticket(taken): Ticket) -> bool {
        let (count, places) = (self.count.load(Ordering::Relaxed), self.keys.len() as u64);
        let is_known = count.checked_sub(taken).is_some_and(|since| since <= places);
        !is_known || (taken..count).any(|change| self.keys[(change % places) as usize] == key)
    }
}

impl<const WORDS: usize> Debug for Filler<WORDS> {
    fn fmt(&self, text: &mut Formatter) -> fmt::Result {
        text.debug_struct("Filler").finish_non_exhaustive()
    }
}

/// Why a value of the store was not put.
#[derive(Clone, Copy, Debug, PartialEq, Eq, Hash)]
#[non_exhaustive]
pub enum FillError {
    /// The key was changed in the store since the ticket was taken, or that is not known any more. Read the store again if you like.
    Stale,
    /// The key is there.
    Present {
        /// The moment of the key's last put.
        since: u64,
    },
    /// The key is absent, and its put failed.
    Put(PutError),
}

impl Display for FillError {
    fn fmt(&self, text: &mut Formatter) -> fmt::Result {
        match self {
            FillError::Stale => text.write_str("the store may have changed since the value was read"),
            FillError::Present { since } => write!(text, "present since {since}"),
            FillError::Put(why) => Display::fmt(why, text),
        }
    }
}

impl Error for FillError {}
