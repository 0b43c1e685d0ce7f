//! An object that a task loads where the map has none, in one call.
use super::map::ObjectMap;
use crate::board::Board;
use std::borrow::Borrow;
use std::convert::Infallible;
use std::future::Future;
use std::hash::{BuildHasher, Hash};

impl<K, V, S> ObjectMap<K, V, S>
where
    K: Hash + Eq + Send + Sync + 'static,
    V: Clone + Send + Sync + 'static,
    S: BuildHasher,
{
    /// A clone of the key's value, or else what `load` gives, of which a clone is put: as [`Map::get_or_insert_async`](crate::Map::get_or_insert_async)
    /// says.
    pub async fn get_or_insert_async<Q>(&self, key: &Q, load: impl Future<Output = V>) -> V
    where
        K: Borrow<Q>,
        Q: Hash + Eq + ToOwned<Owned = K> + ?Sized,
    {
        let Ok(value) = self.get_or_try_insert_async(key, async { Ok::<V, Infallible>(load.await) }).await;
        value
    }

    /// Like [`get_or_insert_async`](Self::get_or_insert_async), with a `load` that may fail. Then nothing is put, and one of the tasks that wait
    /// awaits its own.
    ///
    /// # Errors
    ///
    /// That of `load`.
    pub async fn get_or_try_insert_async<Q, E>(&self, key: &Q, load: impl Future<Output = Result<V, E>>) -> Result<V, E>
    where
        K: Borrow<Q>,
        Q: Hash + Eq + ToOwned<Owned = K> + ?Sized,
    {
        loop {
            match self.try_board(key) {
                Board::Found(value) => return Ok(value),
                Board::Lead(lead) => return Ok(lead.publish(self.inner.core.load_async(load).await?)),
                Board::Wait(wait) => wait.await,
            }
        }
    }
}
