//! A value that a task loads where the map has none, while other tasks wait without blocking a thread.
use crate::error::InsertError;
use crate::flight::{Leader, Passenger};
use crate::inner::Inner;
use crate::key::Key;
use crate::map::Map;
use crate::print::Print;
use crate::published::Published;
use crate::wait::SLEEPS_FROM;
use std::borrow::Borrow;
use std::collections::hash_map::RandomState;
use std::fmt::{self, Debug, Formatter};
use std::future::Future;
use std::hash::BuildHasher;
use std::pin::Pin;
use std::task::{Context, Poll};
use std::time::Duration;

/// What a task finds that wants a key's value: see [`Map::try_board`].
#[derive(Debug)]
#[must_use = "if a `Lead` is dropped, the others that want the key begin anew"]
pub enum Board<V, L, W> {
    /// The key has this value.
    Found(V),
    /// Nobody else loads the value. So load it, and `publish` it.
    Lead(L),
    /// Another task or thread loads it. Await this.
    Wait(W),
}

/// The right to load a key's value: see [`Map::try_board`]. If it is dropped, those that wait begin anew, and one of them gets it.
pub struct Lead<'a, K: ?Sized, V: Copy, S = RandomState> {
    inner: &'a Inner<K, V, S>,
    print: Print,
    // In which its load began.
    generation: u64,
    leader: Leader<'a, V>,
}

/// Waits until another task or thread has loaded a key's value: see [`Map::try_board`]. It gives that value. `None`: the other one failed, or
/// was cancelled, or its value came too late. Then call `try_board` again.
///
/// If it is dropped, the map keeps nothing of it. It borrows nothing from the map.
#[must_use = "a future does nothing unless it is awaited"]
pub struct Wait<V: Copy>(Passenger<V>);

/// How often a call for a task tries. It doesn't sleep.
pub(crate) const TASK_TRIES: u32 = SLEEPS_FROM;

impl<K: Key + ?Sized, V: Copy + Send + Sync + 'static, S: BuildHasher> Map<K, V, S> {
    /// The key's value, or else the right to load it, or else a future that waits for another one that loads it. So of all tasks that want a
    /// key, one loads it. It needs no runtime, and no thread waits for a load.
    /// [`get_or_insert_async`](Map::get_or_insert_async) does all this in one call:
    ///
    /// ```
    /// use cefrodil_map::{Board, Map};
    ///
    /// /// The user's age, from the map or from the database.
    /// async fn age(ages: &Map<str, u64>, user: &str) -> Result<u64, Error> {
    ///     loop {
    ///         match ages.try_board(user) {
    ///             Board::Found(age) => return Ok(age),
    ///             Board::Lead(lead) => return Ok(lead.publish(query(user).await?)),
    ///             Board::Wait(wait) => {
    ///                 if let Some(age) = wait.await {
    ///                     return Ok(age);
    ///                 }
    ///             }
    ///         }
    ///     }
    /// }
    /// # type Error = std::convert::Infallible;
    /// # async fn query(user: &str) -> Result<u64, Error> {
    /// #     Ok(user.len() as u64)
    /// # }
    /// # let ages = Map::<str, u64>::new(100)?;
    /// # use std::{future::Future, pin::pin, sync::Arc, task::{Context, Wake}};
    /// # struct Nobody;
    /// # impl Wake for Nobody {
    /// #     fn wake(self: Arc<Self>) {}
    /// # }
    /// # let nobody = Arc::new(Nobody).into();
    /// # let run = |user| pin!(age(&ages, user)).as_mut().poll(&mut Context::from_waker(&nobody));
    /// # assert_eq!(run("ann"), std::task::Poll::Ready(Ok(3)));
    /// # assert_eq!(ages.get("ann"), Some(3));
    /// # Ok::<(), Box<dyn std::error::Error>>(())
    /// ```
    ///
    /// - If a [`Lead`] is dropped, because the load failed, panicked or was cancelled, all that wait begin anew, and one of them leads.
    /// - It works together with [`get_or_insert_with`](Map::get_or_insert_with): threads and tasks wait for each other's values. So don't call
    ///   that in a task: the thread waits for a value that another task of the same thread may be loading.
    /// - If a task that leads awaits its own key, it waits for ever. So do tasks that lead and await each other's keys, unless the program drops one, and those
    ///   that wait for a [`Lead`] that is leaked by `mem::forget`.
    /// - This may spin and yield, but it never sleeps. A lookup that writes disturb all the time counts as a miss.
    pub fn try_board<Q: Key + ?Sized>(&self, key: &Q) -> Board<V, Lead<'_, K, V, S>, Wait<V>>
    where
        K: Borrow<Q>,
    {
        let inner = &*self.inner;
        let (print, tries) = (inner.print(key), inner.core.tries.min(TASK_TRIES));
        if let Some(value) = inner.get(print.dated(inner.core.generation.now()), tries, |told| told.unwrap_or(None)) {
            return Board::Found(value);
        }
        let leader = match inner.core.flights.board_task(print) {
            Ok(leader) => leader,
            Err(passenger) => return Board::Wait(Wait(passenger)),
        };
        // After the begin of the flight: an invalidation has detached it, or ended this generation.
        let generation = inner.core.generation.now();
        // An earlier flight may have ended since the lookup.
        match inner.find(print, tries) {
            Some(value) => Board::Found(value),
            None => Board::Lead(Lead { inner, print, generation, leader }),
        }
    }
}

impl<K: Key + ?Sized, V: Copy + Send + Sync + 'static, S: BuildHasher> Lead<'_, K, V, S> {
    /// Puts the value, and gives it to all that wait. Returns it, or the value that the key has by now.
    ///
    /// If the key was written or removed since `try_board`, the map keeps that, and this value isn't put: it may be older. This call, and those that
    /// were waiting, may return it all the same. A `try_board` that begins after the write has returned doesn't wait for this load. The value isn't
    /// put either if it finds no place, or if other threads have the turn of its shard at each of some tries: `refused` of [`stats`](Map::stats)
    /// counts that. Its time to live begins now.
    pub fn publish(self, value: V) -> V {
        self.try_publish(value).value()
    }

    /// Like [`publish`](Lead::publish), and says whether the value was put.
    ///
    /// ```
    /// use cefrodil_map::{Board, Map, Published};
    ///
    /// let ages = Map::<str, u64>::new(100)?;
    /// let Board::Lead(lead) = ages.try_board("ann") else { panic!("nobody else loads it") };
    /// ages.remove("ann")?;
    /// assert_eq!(lead.try_publish(41), Published::Outdated(41));
    /// # Ok::<(), Box<dyn std::error::Error>>(())
    /// ```
    pub fn try_publish(self, value: V) -> Published<V> {
        self.end(value, None)
    }

    /// Like [`try_publish`](Lead::try_publish), with a time to live of its own, as [`insert_for`](Map::insert_for) says. The value is refused with
    /// [`InsertError::NoTimeToLive`] if the map was opened without one.
    pub fn publish_for(self, value: V, life: Duration) -> Published<V> {
        self.end(value, Some(life))
    }

    fn end(self, value: V, life: Option<Duration>) -> Published<V> {
        let Lead { inner, print, generation, leader } = self;
        leader.end(value, || {
            if life.is_some() && inner.core.life.is_none() {
                return Published::Refused { value, why: inner.core.refused(InsertError::NoTimeToLive.into()) };
            }
            inner.fill(print, generation, value, life, inner.core.tries.min(TASK_TRIES))
        })
    }
}

impl<V: Copy> Future for Wait<V> {
    type Output = Option<V>;

    fn poll(mut self: Pin<&mut Self>, context: &mut Context) -> Poll<Option<V>> {
        self.0.poll(context)
    }
}

impl<K: Key + ?Sized, V: Copy, S> Debug for Lead<'_, K, V, S> {
    fn fmt(&self, text: &mut Formatter) -> fmt::Result {
        text.debug_struct("Lead").finish_non_exhaustive()
    }
}

impl<V: Copy> Debug for Wait<V> {
    fn fmt(&self, text: &mut Formatter) -> fmt::Result {
        text.debug_struct("Wait").finish_non_exhaustive()
    }
}
