//! Calls that are made again while another thread has the turn.
use crate::error::MayBeHeld;
use crate::handle::Handle;

impl<const WORDS: usize> Handle<WORDS> {
    /// Makes a call again while it is held: at most `tries` times, at least once, without a pause. A thread that has the turn may be stopped for
    /// longer. What must not be lost, such as a removal, is made again until it is not held, with a
    /// [`yield_now`](std::thread::yield_now) in between. [`put_within`](Handle::put_within) is the same for a put, and a little faster.
    ///
    /// ```
    /// use cefrodil::{Cache, Shape, Take};
    ///
    /// let mut handles = Cache::<1>::open(&Shape::for_items(100, 1)?, 1, 1)?;
    /// let taken = handles[0].within(1000, |handle| handle.try_take(7))?;
    /// assert_eq!(taken, Take::NotThere { at: 0 });
    /// # Ok::<(), Box<dyn std::error::Error>>(())
    /// ```
    ///
    /// # Errors
    ///
    /// What the last call returned. [`Held`](crate::Held) or [`TurnError::Held`](crate::TurnError::Held): no try won.
    pub fn within<T, E: MayBeHeld>(&mut self, tries: u32, mut call: impl FnMut(&mut Self) -> Result<T, E>) -> Result<T, E> {
        for _ in 1..tries {
            match call(self) {
                Err(why) if why.is_held() => {}
                done => return done,
            }
        }
        call(self)
    }
}
