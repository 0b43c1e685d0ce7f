//! The maps of the crate `cefrodil-map` as maps of serde, for `#[serde(with = "cefrodil_map_serde")]`. This is a crate of its own, since cargo wants even
//! crates at hand that are optional.
//!
//! ```
//! use cefrodil_map::{Map, ObjectMap};
//!
//! #[derive(serde::Serialize, serde::Deserialize)]
//! struct Caches {
//!     #[serde(with = "cefrodil_map_serde")]
//!     ages: Map<u32, u64>,
//!     #[serde(with = "cefrodil_map_serde")]
//!     pages: ObjectMap<String, String>,
//! }
//!
//! let text = r#"{"ages":{"7":41},"pages":{"/":"hello"}}"#;
//! let caches: Caches = serde_json::from_str(text)?;
//! assert_eq!((caches.ages.get(&7), caches.pages.get("/")), (Some(41), Some("hello".into())));
//! assert_eq!(serde_json::to_string(&caches)?, text);
//! # Ok::<(), serde_json::Error>(())
//! ```
use cefrodil_map::{ClearError, InsertError, Key, Map, Number, ObjectMap, OpenError};
use serde::de::{Deserializer, Error as _, MapAccess, Visitor};
use serde::ser::{Error as _, Serializer};
use serde::{Deserialize, Serialize};
use std::fmt::{self, Formatter};
use std::hash::Hash;
use std::marker::PhantomData;

/// A map that can list its entries, and that can be made of a list.
pub trait Entries: Sized {
    /// What it has for keys.
    type Key;
    /// What it has for values.
    type Value;

    /// The entries that there are now, in no order.
    ///
    /// # Errors
    ///
    /// [`ClearError`]: there is no list of them.
    fn entries(&self) -> Result<impl Iterator<Item = (Self::Key, Self::Value)>, ClearError>;

    /// A map for this many entries, with the defaults of its builder.
    ///
    /// # Errors
    ///
    /// [`OpenError`].
    fn open(capacity: usize) -> Result<Self, OpenError>;

    /// Puts an entry.
    ///
    /// # Errors
    ///
    /// [`InsertError`]: it was not put.
    fn put(&self, key: Self::Key, value: Self::Value) -> Result<(), InsertError>;
}

impl<K: Key + Number, V: Copy + Send + Sync + 'static> Entries for Map<K, V> {
    type Key = K;
    type Value = V;

    fn entries(&self) -> Result<impl Iterator<Item = (K, V)>, ClearError> {
        self.iter()
    }

    fn open(capacity: usize) -> Result<Map<K, V>, OpenError> {
        Map::new(capacity)
    }

    fn put(&self, key: K, value: V) -> Result<(), InsertError> {
        self.insert(&key, value).map(drop)
    }
}

impl<K, V> Entries for ObjectMap<K, V>
where
    K: Hash + Eq + Clone + Send + Sync + 'static,
    V: Clone + Send + Sync + 'static,
{
    type Key = K;
    type Value = V;

    fn entries(&self) -> Result<impl Iterator<Item = (K, V)>, ClearError> {
        self.iter()
    }

    fn open(capacity: usize) -> Result<ObjectMap<K, V>, OpenError> {
        ObjectMap::new(capacity)
    }

    fn put(&self, key: K, value: V) -> Result<(), InsertError> {
        self.insert(key, value).map(drop).map_err(|refused| refused.why)
    }
}

/// Serializes the entries that there are now, without their times.
///
/// # Errors
///
/// There is no list of the entries, or those of the serializer.
pub fn serialize<M: Entries, S: Serializer>(map: &M, serializer: S) -> Result<S::Ok, S::Error>
where
    M::Key: Serialize,
    M::Value: Serialize,
{
    serializer.collect_map(map.entries().map_err(S::Error::custom)?)
}

/// Makes a map of all entries, for just so many of them, or for one. Of a key that comes twice it has the last value.
///
/// # Errors
///
/// No map can be opened, an entry can't be put, or those of the deserializer.
pub fn deserialize<'de, M: Entries, D: Deserializer<'de>>(deserializer: D) -> Result<M, D::Error>
where
    M::Key: Deserialize<'de>,
    M::Value: Deserialize<'de>,
{
    let entries = deserializer.deserialize_map(List(PhantomData::<M>))?;
    let map = M::open(entries.len().max(1)).map_err(D::Error::custom)?;
    entries.into_iter().try_for_each(|(key, value)| map.put(key, value)).map_err(D::Error::custom)?;
    Ok(map)
}

// Lists the entries first, since not all formats tell their number.
struct List<M>(PhantomData<M>);

impl<'de, M: Entries> Visitor<'de> for List<M>
where
    M::Key: Deserialize<'de>,
    M::Value: Deserialize<'de>,
{
    type Value = Vec<(M::Key, M::Value)>;

    fn expecting(&self, text: &mut Formatter) -> fmt::Result {
        text.write_str("a map")
    }

    fn visit_map<A: MapAccess<'de>>(self, mut access: A) -> Result<Self::Value, A::Error> {
        let mut entries = Vec::new();
        while let Some(entry) = access.next_entry()? {
            entries.push(entry);
        }
        Ok(entries)
    }
}
