//! Iterators over the entries of a map.
use crate::error::ClearError;
use crate::key::{Key, Number};
use crate::map::Map;
#[cfg(feature = "objects")]
use crate::objects::ObjectMap;
use std::hash::BuildHasher;
#[cfg(feature = "objects")]
use std::hash::Hash;
use std::vec::IntoIter;

// Adds what this makes to a list. Without memory there is no list any more.
fn push<T>(list: &mut Option<Vec<T>>, make: impl FnOnce() -> T) {
    let has_room = list.as_mut().is_some_and(|entries| entries.try_reserve(1).is_ok());
    match list {
        Some(entries) if has_room => entries.push(make()),
        _ => *list = None,
    }
}

// The bound is that of the calls: so the compiler says of other keys why they can't be given back.
impl<K: Key + ?Sized, V: Copy + Send + Sync + 'static, S: BuildHasher> Map<K, V, S> {
    /// The entries that there are now, in no order, as [`for_each`](Map::for_each) shows them. They are copied before the first one is returned.
    ///
    /// ```
    /// let ages: cefrodil_map::Map<u32, u64> = [(7, 41), (8, 37)].into_iter().collect();
    /// assert_eq!(ages.iter()?.map(|(_, age)| age).sum::<u64>(), 78);
    /// # Ok::<(), Box<dyn std::error::Error>>(())
    /// ```
    ///
    /// # Errors
    ///
    /// [`ClearError`]: there is no list of the entries.
    pub fn iter(&self) -> Result<IntoIter<(K, V)>, ClearError>
    where
        K: Number,
    {
        let mut entries = Some(Vec::new());
        self.for_each(|key, value| push(&mut entries, || (*key, *value)))?;
        Ok(entries.ok_or(ClearError::NoMemory)?.into_iter())
    }
}

#[cfg(feature = "objects")]
impl<K, V, S> ObjectMap<K, V, S>
where
    K: Hash + Eq + Clone + Send + Sync + 'static,
    V: Clone + Send + Sync + 'static,
    S: BuildHasher,
{
    /// The entries that there are now, in no order, as [`for_each`](ObjectMap::for_each) shows them. They are cloned before the first one is
    /// returned.
    ///
    /// ```
    /// let names = cefrodil_map::ObjectMap::<String, u32>::new(100)?;
    /// names.insert("ann".into(), 41)?;
    /// assert_eq!(names.iter()?.collect::<Vec<_>>(), [("ann".into(), 41)]);
    /// # Ok::<(), Box<dyn std::error::Error>>(())
    /// ```
    ///
    /// # Errors
    ///
    /// [`ClearError`]: there is no list of the entries.
    pub fn iter(&self) -> Result<IntoIter<(K, V)>, ClearError> {
        let mut entries = Some(Vec::new());
        self.for_each(|key, value| push(&mut entries, || (key.clone(), value.clone())))?;
        Ok(entries.ok_or(ClearError::NoMemory)?.into_iter())
    }
}
