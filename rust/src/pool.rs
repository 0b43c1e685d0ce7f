//! A pool of handles.
use std::fmt::{self, Debug, Formatter};
use std::ops::{Deref, DerefMut};
use std::sync::{Arc, Mutex, PoisonError};

/// A pool of [`Handle`](crate::Handle)s, for threads that come and go. A cache has at most 1024 handles, so a thread takes one and gives it
/// back. A clone is the same pool.
///
/// ```
/// use cefrodil::{Cache, Pool, Shape};
///
/// let mut handles = Cache::<1>::open(&Shape::for_items(100, 1)?, 1, 2)?;
/// handles[0].try_put(7, &[70])?;
/// let pool = Pool::new(handles);
/// let threads: Vec<_> = (0..2)
///     .map(|_| {
///         let pool = pool.clone();
///         std::thread::spawn(move || {
///             let mut handle = pool.take().expect("there is a handle for each thread");
///             assert_eq!(handle.get(7).value(), Some([70]));
///         })
///     })
///     .collect();
/// for thread in threads {
///     thread.join().expect("it ends");
/// }
/// # Ok::<(), Box<dyn std::error::Error>>(())
/// ```
pub struct Pool<T> {
    free: Arc<Mutex<Vec<T>>>,
}

/// A handle that a [`Pool`] lends. Dropping it gives it back.
#[must_use = "what is dropped goes back to its pool"]
pub struct Lent<T> {
    lent: Option<T>,
    pool: Pool<T>,
}

impl<T> Pool<T> {
    /// A pool of these.
    #[must_use]
    pub fn new(free: Vec<T>) -> Pool<T> {
        Pool { free: Arc::new(Mutex::new(free)) }
    }

    /// Takes the one that came back last, or returns `None` if all are taken. This locks a mutex: take one per request or per
    /// thread, not per lookup.
    #[must_use]
    pub fn take(&self) -> Option<Lent<T>> {
        let taken = self.free.lock().unwrap_or_else(PoisonError::into_inner).pop()?;
        Some(Lent { lent: Some(taken), pool: self.clone() })
    }
}

impl<T> Clone for Pool<T> {
    fn clone(&self) -> Pool<T> {
        Pool { free: Arc::clone(&self.free) }
    }
}

impl<T> Debug for Pool<T> {
    fn fmt(&self, text: &mut Formatter) -> fmt::Result {
        text.debug_struct("Pool").finish_non_exhaustive()
    }
}

impl<T: Debug> Debug for Lent<T> {
    fn fmt(&self, text: &mut Formatter) -> fmt::Result {
        (**self).fmt(text)
    }
}

impl<T> Deref for Lent<T> {
    type Target = T;

    fn deref(&self) -> &T {
        self.lent.as_ref().expect(UNTIL_DROPPED)
    }
}

impl<T> DerefMut for Lent<T> {
    fn deref_mut(&mut self) -> &mut T {
        self.lent.as_mut().expect(UNTIL_DROPPED)
    }
}

impl<T> Drop for Lent<T> {
    fn drop(&mut self) {
        self.pool.free.lock().unwrap_or_else(PoisonError::into_inner).extend(self.lent.take());
    }
}

const UNTIL_DROPPED: &str = "it is lent until it is dropped";
