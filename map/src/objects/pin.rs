//! A handle that keeps the value of one entry.
use super::map::ObjectMap;
use super::object::Object;
use crate::error::RemoveError;
use std::borrow::Borrow;
use std::fmt::{self, Debug, Formatter};
use std::hash::{BuildHasher, Hash};
use std::ops::Deref;
use std::sync::Arc;

/// Keeps a value of an [`ObjectMap`], and nothing else: see [`ObjectMap::pin`]. A clone keeps the same value. It borrows nothing from the map, and may
/// outlive it.
pub struct Pinned<V>(Arc<dyn HasValue<V> + Send + Sync>);

trait HasValue<V> {
    fn value(&self) -> &V;
}

impl<K, V> HasValue<V> for Object<K, V> {
    fn value(&self) -> &V {
        &self.value
    }
}

impl<K, V, S> ObjectMap<K, V, S>
where
    K: Hash + Eq + Send + Sync + 'static,
    V: Send + Sync + 'static,
    S: BuildHasher,
{
    /// The key's value, which counts as used lately. It stays until the handle is dropped, also if it leaves the map meanwhile. Other objects that leave are
    /// freed as ever, so a thread may block while it has a pin. `None`: as [`get`](Self::get).
    ///
    /// What has left the map counts for no bound, though a pin keeps it. The last pin frees it, and drops its key, too.
    ///
    /// ```
    /// let pages = cefrodil_map::ObjectMap::<String, String>::new(100)?;
    /// pages.insert("/".into(), "old".into())?;
    /// let page = pages.pin("/").expect("it has just been put");
    /// pages.insert("/".into(), "new".into())?;
    /// assert_eq!((page.as_str(), pages.get("/").as_deref()), ("old", Some("new")));
    /// # Ok::<(), Box<dyn std::error::Error>>(())
    /// ```
    #[must_use]
    pub fn pin<Q: Hash + Eq + ?Sized>(&self, key: &Q) -> Option<Pinned<V>>
    where
        K: Borrow<Q>,
    {
        // SAFETY: the lookup passes what it has found, and ends after that.
        self.inner.find_with(key, |object| unsafe { Pinned::of(object) })
    }

    /// Like [`remove`](Self::remove), without a clone: the handle has the value that was removed.
    ///
    /// # Errors
    ///
    /// As [`remove`](Self::remove).
    pub fn take<Q: Hash + Eq + ?Sized>(&self, key: &Q) -> Result<Option<Pinned<V>>, RemoveError>
    where
        K: Borrow<Q>,
    {
        // SAFETY: the removal passes what it has found, and ends after that.
        let taken = self.inner.remove(key, self.inner.core.tries, |object| unsafe { Pinned::of(object) })?;
        Ok(taken.found())
    }
}

impl<V> Pinned<V> {
    /// # Safety
    ///
    /// As [`Object::share`].
    unsafe fn of<K>(object: &Object<K, V>) -> Pinned<V>
    where
        K: Send + Sync + 'static,
        V: Send + Sync + 'static,
    {
        // SAFETY: the caller says that this may be called.
        Pinned(unsafe { object.share() })
    }
}

impl<V> Deref for Pinned<V> {
    type Target = V;

    fn deref(&self) -> &V {
        self.0.value()
    }
}

impl<V> Clone for Pinned<V> {
    fn clone(&self) -> Pinned<V> {
        Pinned(Arc::clone(&self.0))
    }
}

impl<V: Debug> Debug for Pinned<V> {
    fn fmt(&self, text: &mut Formatter) -> fmt::Result {
        text.debug_tuple("Pinned").field(&**self).finish()
    }
}
