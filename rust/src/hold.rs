//! How a handle holds the turns of all shards, and gives them back.
use crate::error::{Held, NotHeld};
use crate::handle::Handle;
use crate::open_handle::OpenHandle;
use crate::raw;
use crate::reply;
use crate::writing::{Holder, Writing};
use std::mem;

impl<const WORDS: usize> Handle<WORDS> {
    /// Takes the turn of every shard, and holds them until what it returns is dropped. Nobody else writes meanwhile. Other handles look up as
    /// before, and their tries are held. It takes no memory.
    ///
    /// # Errors
    ///
    /// [`Held`]: one of the tries did not win. It holds none.
    ///
    /// # Examples
    ///
    /// ```
    /// use cefrodil::{Cache, Shape, TurnError};
    ///
    /// let mut handles = Cache::<1>::open(&Shape::for_items(1000, 4)?, 4, 2)?;
    /// let [mine, other] = &mut handles[..] else { unreachable!() };
    /// let mut writing = mine.hold()?;
    /// writing.put(7, &[70])?;
    /// writing.put(8, &[80])?;
    /// assert_eq!(other.try_put(7, &[71]), Err(TurnError::Held));
    /// assert_eq!((writing.len(), writing.moment()), (2, 2));
    /// drop(writing);
    /// other.try_put(7, &[71])?;
    /// # Ok::<(), Box<dyn std::error::Error>>(())
    /// ```
    ///
    /// While other threads write, it may take many tries: see [`hold_within`](Handle::hold_within). To do something else between two tries:
    ///
    /// ```
    /// use cefrodil::{Cache, Held, Shape};
    ///
    /// let mut handles = Cache::<1>::open(&Shape::for_items(1000, 1)?, 1, 2)?;
    /// let mut writing = loop {
    ///     match handles[0].hold() {
    ///         Ok(writing) => break writing,
    ///         Err(Held) => std::thread::yield_now(),
    ///     }
    /// };
    /// writing.put(7, &[70])?;
    /// # Ok::<(), Box<dyn std::error::Error>>(())
    /// ```
    pub fn hold(&mut self) -> Result<Writing<'_, WORDS>, Held> {
        self.holds()?;
        Ok(Writing(Holder::Lent(&mut self.0)))
    }

    /// Like [`hold`](Handle::hold), with up to `tries` tries, at least one, one after the other without a pause. A function that returns what
    /// `hold` returns can't make it again in a loop: the borrow checker takes the first `Writing` to last as long as the last one.
    ///
    /// # Errors
    ///
    /// [`Held`]: none of the tries got every turn. It holds none.
    ///
    /// # Examples
    ///
    /// ```
    /// use cefrodil::{Cache, Handle, Held, Shape, Writing};
    ///
    /// fn hold(handle: &mut Handle<1>) -> Result<Writing<'_, 1>, Held> {
    ///     handle.hold_within(1000)
    /// }
    ///
    /// let mut handles = Cache::<1>::open(&Shape::for_items(1000, 4)?, 4, 2)?;
    /// let [mine, other] = &mut handles[..] else { unreachable!() };
    /// hold(mine)?.put(7, &[70])?;
    /// let _writing = hold(other)?;
    /// assert_eq!(hold(mine).unwrap_err(), Held);
    /// # Ok::<(), Box<dyn std::error::Error>>(())
    /// ```
    pub fn hold_within(&mut self, tries: u32) -> Result<Writing<'_, WORDS>, Held> {
        for _ in 1..tries {
            if self.holds().is_ok() {
                return Ok(Writing(Holder::Lent(&mut self.0)));
            }
        }
        self.hold()
    }

    /// Like [`hold`](Handle::hold), for as long as the program likes. [`Writing::into_handle`] ends it. Dropping what this returns gives the
    /// turns back and closes the handle.
    ///
    /// # Errors
    ///
    /// [`NotHeld`], with the handle: one of the tries did not win.
    ///
    /// # Examples
    ///
    /// ```
    /// use cefrodil::{Cache, Shape};
    ///
    /// let mut handles = Cache::<1>::open(&Shape::for_items(1000, 1)?, 1, 2)?;
    /// let mut writing = handles.remove(0).into_writing()?;
    /// writing.put(7, &[70])?;
    /// assert_eq!(handles[0].get(7).value(), Some([70]));
    /// # Ok::<(), Box<dyn std::error::Error>>(())
    /// ```
    pub fn into_writing(mut self) -> Result<Writing<'static, WORDS>, NotHeld<WORDS>> {
        match self.holds() {
            Ok(()) => Ok(Writing(Holder::Own(self.0))),
            Err(Held) => Err(NotHeld { handle: self }),
        }
    }

    fn holds(&mut self) -> Result<(), Held> {
        match self.0.hold() {
            raw::HELD => Err(Held),
            // It holds already if an earlier `Writing` was forgotten.
            raw::OK | raw::HOLDS => Ok(()),
            other => reply::not_told(other),
        }
    }
}

impl<const WORDS: usize> Writing<'static, WORDS> {
    /// Gives the turns back, and returns the handle.
    ///
    /// ```
    /// use cefrodil::{Cache, Shape};
    ///
    /// let mut handles = Cache::<1>::open(&Shape::for_items(1000, 1)?, 1, 2)?;
    /// let mut mine = handles.remove(0).into_writing()?.into_handle();
    /// handles[0].try_put(7, &[70])?;
    /// assert_eq!(mine.get(7).value(), Some([70]));
    /// # Ok::<(), Box<dyn std::error::Error>>(())
    /// ```
    #[must_use]
    pub fn into_handle(mut self) -> Handle<WORDS> {
        // A handle that was borrowed for ever is replaced by a closed one, which nobody can use.
        let mut handle = mem::replace(self.handle(), OpenHandle::closed());
        handle.release();
        Handle(handle)
    }
}
