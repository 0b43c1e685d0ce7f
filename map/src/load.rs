//! A value that a task loads where the map has none, in one call.
use crate::board::Board;
use crate::key::Key;
use crate::map::Map;
use std::borrow::Borrow;
use std::convert::Infallible;
use std::future::Future;
use std::hash::BuildHasher;

impl<K: Key + ?Sized, V: Copy + Send + Sync + 'static, S: BuildHasher> Map<K, V, S> {
    /// The key's value, or else what `load` gives, which is put. Of all tasks that want the key meanwhile, one awaits its `load`, and the others await that
    /// one. If it is dropped before its end, one of the others awaits its own. What [`try_board`](Map::try_board) and
    /// [`publish`](crate::Lead::publish) say is true here, too. There is an [example](crate#async).
    pub async fn get_or_insert_async<Q: Key + ?Sized>(&self, key: &Q, load: impl Future<Output = V>) -> V
    where
        K: Borrow<Q>,
    {
        let Ok(value) = self.get_or_try_insert_async(key, async { Ok::<V, Infallible>(load.await) }).await;
        value
    }

    /// Like [`get_or_insert_async`](Map::get_or_insert_async), with a `load` that may fail. Then nothing is put, and one of the tasks that wait
    /// awaits its own.
    ///
    /// # Errors
    ///
    /// That of `load`.
    pub async fn get_or_try_insert_async<Q: Key + ?Sized, E>(
        &self,
        key: &Q,
        load: impl Future<Output = Result<V, E>>,
    ) -> Result<V, E>
    where
        K: Borrow<Q>,
    {
        loop {
            match self.try_board(key) {
                Board::Found(value) => return Ok(value),
                Board::Lead(lead) => return Ok(lead.publish(self.inner.core.load_async(load).await?)),
                Board::Wait(wait) => {
                    if let Some(value) = wait.await {
                        return Ok(value);
                    }
                }
            }
        }
    }
}
