//! An object that a task loads where the map has none, while other tasks wait without blocking a thread.
use super::inner::ObjectInner;
use super::map::ObjectMap;
use super::object::Object;
use crate::board::{Board, TASK_TRIES};
use crate::flight::{Leader, Passenger};
use crate::print::Print;
use crate::published::Published;
use std::borrow::Borrow;
use std::collections::hash_map::RandomState;
use std::fmt::{self, Debug, Formatter};
use std::future::Future;
use std::hash::{BuildHasher, Hash};
use std::pin::Pin;
use std::task::{Context, Poll};
use std::time::Duration;

/// The right to load a key's value: see [`ObjectMap::try_board`]. If it is dropped, those that wait begin anew, and one of them gets it.
pub struct ObjectLead<'a, K, V, S = RandomState> {
    inner: &'a ObjectInner<Object<K, V>, S>,
    hash: u64,
    key: K,
    // In which its load began.
    generation: u64,
    leader: Leader<'a, ()>,
}

/// Waits until another task or thread has loaded a key's value, or has failed: see [`ObjectMap::try_board`]. Then call that again.
///
/// If it is dropped, the map keeps nothing of it. It borrows nothing from the map.
#[must_use = "a future does nothing unless it is awaited"]
pub struct ObjectWait(Passenger<()>);

impl<K, V, S> ObjectMap<K, V, S>
where
    K: Hash + Eq + Send + Sync + 'static,
    V: Clone + Send + Sync + 'static,
    S: BuildHasher,
{
    /// A clone of the key's value, or else the right to load it, or else a future that waits for another one that loads it. So of all tasks
    /// that want a key, one loads it. It needs no runtime, and no thread waits for a load.
    ///
    /// [`get_or_insert_async`](Self::get_or_insert_async) does all this in one call. What [`Map::try_board`](crate::Map::try_board) says of a lead that is
    /// dropped, of threads and of waiting is true here, too. Its example is one for this map, but that a wait gives no value: call this again. Keys with
    /// the same hash wait for each other.
    pub fn try_board<Q>(&self, key: &Q) -> Board<V, ObjectLead<'_, K, V, S>, ObjectWait>
    where
        K: Borrow<Q>,
        Q: Hash + Eq + ToOwned<Owned = K> + ?Sized,
    {
        let inner = &*self.inner;
        let (hash, tries) = (inner.hash(key), inner.core.tries.min(TASK_TRIES));
        if let Ok(Some(value)) = inner.get(hash, key, tries) {
            return Board::Found(value);
        }
        let print = Print::of_hash(hash);
        let leader = match inner.core.flights.board_task(print) {
            Ok(leader) => leader,
            Err(passenger) => return Board::Wait(ObjectWait(passenger)),
        };
        // After the begin of the flight: an invalidation has detached it, or ended this generation.
        let generation = inner.core.generation.now();
        // An earlier flight may have ended since the lookup.
        match inner.find(hash, key, tries) {
            Some(value) => Board::Found(value),
            None => Board::Lead(ObjectLead { inner, hash, key: key.to_owned(), generation, leader }),
        }
    }
}

impl<K, V, S> ObjectLead<'_, K, V, S>
where
    K: Hash + Eq + Send + Sync + 'static,
    V: Clone + Send + Sync + 'static,
    S: BuildHasher,
{
    /// Puts a clone of the value, and wakes all that wait. Returns the value, or that which the key has by now.
    ///
    /// If the key was written or removed since `try_board`, the map keeps that, and this value isn't put: it may be older. Nor is it if it
    /// finds no place, which `refused` of [`stats`](ObjectMap::stats) counts.
    pub fn publish(self, value: V) -> V {
        self.end(value, None).value()
    }

    /// Like [`publish`](Self::publish), and says whether the value was put.
    pub fn try_publish(self, value: V) -> Published<V> {
        self.end(value, None)
    }

    /// Like [`try_publish`](Self::try_publish), with a time to live of its own, as [`insert_for`](ObjectMap::insert_for) says.
    pub fn publish_for(self, value: V, life: Duration) -> Published<V> {
        self.end(value, Some(life))
    }

    fn end(self, value: V, life: Option<Duration>) -> Published<V> {
        let ObjectLead { inner, hash, key, generation, leader } = self;
        let object = inner.object(key, value.clone(), life, generation);
        inner.fill(hash, object, value, &leader, inner.core.tries.min(TASK_TRIES))
    }
}

impl Future for ObjectWait {
    type Output = ();

    fn poll(mut self: Pin<&mut Self>, context: &mut Context) -> Poll<()> {
        self.0.poll(context).map(drop)
    }
}

impl Debug for ObjectWait {
    fn fmt(&self, text: &mut Formatter) -> fmt::Result {
        text.debug_struct("ObjectWait").finish_non_exhaustive()
    }
}

impl<K, V, S> Debug for ObjectLead<'_, K, V, S> {
    fn fmt(&self, text: &mut Formatter) -> fmt::Result {
        text.debug_struct("ObjectLead").finish_non_exhaustive()
    }
}
