//! Maps that are filled from an iterator.
use crate::error::OpenError;
use crate::key::Key;
use crate::map::Map;
#[cfg(feature = "objects")]
use crate::objects::ObjectMap;
use std::hash::BuildHasher;
#[cfg(feature = "objects")]
use std::hash::Hash;

/// Inserts each entry. One that is not put is left out, and [`refused`](crate::Stats::refused) counts it.
impl<K: Key, V: Copy + Send + Sync + 'static, S: BuildHasher> Extend<(K, V)> for Map<K, V, S> {
    fn extend<I: IntoIterator<Item = (K, V)>>(&mut self, entries: I) {
        entries.into_iter().for_each(|(key, value)| _ = self.insert(&key, value));
    }
}

/// Inserts each entry, by a reference to its key, so that this may be unsized. One that is not put is left out, and [`refused`](crate::Stats::refused)
/// counts it.
///
/// ```
/// let mut ages: cefrodil_map::Map<str, u64> = [("ann", 41), ("bob", 42)].into_iter().collect();
/// ages.extend([("ann", 43)]);
/// assert_eq!((ages.get("ann"), ages.get("bob")), (Some(43), Some(42)));
/// ```
impl<'a, K: Key + ?Sized, V: Copy + Send + Sync + 'static, S: BuildHasher> Extend<(&'a K, V)> for Map<K, V, S> {
    fn extend<I: IntoIterator<Item = (&'a K, V)>>(&mut self, entries: I) {
        entries.into_iter().for_each(|(key, value)| _ = self.insert(key, value));
    }
}

// A map that is opened for so many entries as there are.
fn filled<T, M: Extend<T>>(entries: impl IntoIterator<Item = T>, open: impl FnOnce(usize) -> Result<M, OpenError>) -> M {
    let entries: Vec<T> = entries.into_iter().collect();
    let mut map = open(entries.len().max(1)).expect("a map is opened");
    map.extend(entries);
    map
}

/// A map for so many entries as there are, with the defaults of [`Builder`](crate::Builder).
///
/// # Panics
///
/// If no map can be opened: [`OpenError`].
impl<K: Key, V: Copy + Send + Sync + 'static> FromIterator<(K, V)> for Map<K, V> {
    fn from_iter<I: IntoIterator<Item = (K, V)>>(entries: I) -> Map<K, V> {
        filled(entries, Map::new)
    }
}

/// As from an iterator of keys and values.
///
/// # Panics
///
/// If no map can be opened: [`OpenError`].
impl<'a, K: Key + ?Sized, V: Copy + Send + Sync + 'static> FromIterator<(&'a K, V)> for Map<K, V> {
    fn from_iter<I: IntoIterator<Item = (&'a K, V)>>(entries: I) -> Map<K, V> {
        filled(entries, Map::new)
    }
}

/// Inserts each entry. One that is not put is left out, and [`refused`](crate::Stats::refused) counts it.
#[cfg(feature = "objects")]
impl<K, V, S> Extend<(K, V)> for ObjectMap<K, V, S>
where
    K: Hash + Eq + Send + Sync + 'static,
    V: Send + Sync + 'static,
    S: BuildHasher,
{
    fn extend<I: IntoIterator<Item = (K, V)>>(&mut self, entries: I) {
        entries.into_iter().for_each(|(key, value)| _ = self.insert(key, value));
    }
}

/// A map for so many entries as there are, with the defaults of [`ObjectBuilder`](crate::ObjectBuilder).
///
/// # Panics
///
/// If no map can be opened: [`OpenError`].
#[cfg(feature = "objects")]
impl<K, V> FromIterator<(K, V)> for ObjectMap<K, V>
where
    K: Hash + Eq + Send + Sync + 'static,
    V: Send + Sync + 'static,
{
    fn from_iter<I: IntoIterator<Item = (K, V)>>(entries: I) -> ObjectMap<K, V> {
        filled(entries, ObjectMap::new)
    }
}
