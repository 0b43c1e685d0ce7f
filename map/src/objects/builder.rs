//! How a map of objects is opened, and who hears of the objects that leave it.
use super::epochs::Epochs;
use super::inner::ObjectInner;
use super::map::ObjectMap;
use super::object::{Held, Object};
use super::weights::{Weigher, Weights};
use crate::core::Core;
use crate::error::OpenError;
use crate::settings::Settings;
use crate::wait::TRIES;
use cefrodil::{Cache, Shape};
use std::collections::hash_map::RandomState;
use std::fmt::{self, Debug, Formatter};
use std::hash::{BuildHasher, Hash};
use std::marker::PhantomData;
use std::sync::Arc;
use std::time::Duration;

/// Why an object left the map.
#[derive(Clone, Copy, Debug, PartialEq, Eq, Hash)]
#[non_exhaustive]
pub enum Reason {
    /// It gave way: to a new key, to the bound on weights, or by [`BytesMap::evict`](crate::BytesMap::evict).
    Evicted,
    /// Another value was put in its place: of its own key, or of one with the same hash.
    Replaced,
    /// A call removed it.
    Removed,
    /// It had expired before one of these happened, or [`invalidate_all`](ObjectMap::invalidate_all) had ended it.
    Expired,
}

/// Who hears of each object that leaves.
pub(crate) struct Listener<O>(pub Box<Call<O>>);

type Call<O> = dyn Fn(&O, Reason) + Send + Sync;

/// Who hears of each object that is freed.
pub(crate) type Freed<O> = Box<dyn Fn(&O) + Send + Sync>;

/// Who hears of objects, and which of them give way.
pub(crate) struct Hears<O> {
    pub listener: Option<Listener<O>>,
    pub freed: Option<Freed<O>>,
    /// What they may weigh together, and what weighs them.
    pub weigher: Option<(u64, Weigher<O>)>,
}

impl<O> Hears<O> {
    /// Nobody hears of them, and nothing weighs them.
    pub fn nothing() -> Hears<O> {
        Hears { listener: None, freed: None, weigher: None }
    }
}

/// Chooses how a map of objects is opened.
///
/// ```
/// use cefrodil_map::ObjectMap;
///
/// let names = ObjectMap::<String, Vec<u8>>::builder(10_000)
///     .listener(|key, _, reason| println!("{key} has left: {reason:?}"))
///     .open()?;
/// names.insert("one".into(), vec![1])?;
/// assert_eq!(names.get("one"), Some(vec![1]));
/// # Ok::<(), Box<dyn std::error::Error>>(())
/// ```
#[must_use = "a builder opens nothing before `open`"]
pub struct ObjectBuilder<K, V, S = RandomState> {
    settings: Settings<S>,
    hears: Hears<Object<K, V>>,
}

impl<K, V> ObjectBuilder<K, V> {
    /// For a map of at least this many entries.
    pub fn new(capacity: usize) -> ObjectBuilder<K, V> {
        ObjectBuilder { settings: Settings::new(capacity), hears: Hears::nothing() }
    }
}

impl<K, V, S> ObjectBuilder<K, V, S> {
    /// As [`Builder::shards`](crate::Builder::shards).
    pub fn shards(mut self, shards: u32) -> Self {
        self.settings.shards = Some(shards);
        self
    }

    /// As [`Builder::threads`](crate::Builder::threads).
    pub fn threads(mut self, threads: usize) -> Self {
        self.settings.threads = threads;
        self
    }

    /// What hashes the keys, once each. Of two keys with the same hash the map holds one, so all 64 bits must be well spread. If an enemy
    /// may choose keys, take a keyed hasher. The default is std's, which is keyed.
    pub fn hasher<T>(self, hasher: T) -> ObjectBuilder<K, V, T> {
        ObjectBuilder { settings: self.settings.hasher(hasher), hears: self.hears }
    }

    /// How long a value lives, unless it is put with another time. `Duration::MAX` never ends, and `Duration::ZERO` is over at once. By
    /// default a value lives for ever. The clock is as [`Builder::time_to_live`](crate::Builder::time_to_live) says.
    ///
    /// A put begins the time anew. [`update`](ObjectMap::update) and [`modify`](ObjectMap::modify) of a value don't. A put first looks at two places of its
    /// key's shard, and removes what has expired or was invalidated there.
    pub fn time_to_live(mut self, life: Duration) -> Self {
        self.settings.life = Some(life);
        self
    }

    /// How long a value lives that is not used. A lookup that finds it begins the time anew, and so does a write, but not
    /// [`peek`](ObjectMap::peek). It may have a time to live, too: it expires when one of the two times is over.
    ///
    /// A lookup writes only if the deadline moves by more than a sixteenth of the time. So a value expires when the time since its last use is over,
    /// or up to a sixteenth earlier.
    pub fn time_to_idle(mut self, idle: Duration) -> Self {
        self.settings.idle = Some(idle);
        self
    }

    /// As [`Builder::most_wait`](crate::Builder::most_wait).
    pub fn most_wait(mut self, most: Duration) -> Self {
        self.settings.most_wait = most;
        self
    }

    /// Who hears of each object that leaves the map, once. The thread whose call made it leave calls `listener` before that call returns. It
    /// hears nothing when the map is dropped.
    ///
    /// `listener` may call the map. A put by it may make another object leave, and then it is called again, within the first call. The sixteenth call
    /// within each other puts nothing: its put is refused with [`InsertError::TooDeep`](crate::InsertError::TooDeep). Removals have no such end: a
    /// listener that removes one object for each that it hears of needs stack for all of them. A listener that owns a clone of the map keeps it for ever. If `listener` panics, so does the call, which has made its change.
    pub fn listener(mut self, listener: impl Fn(&K, &V, Reason) + Send + Sync + 'static) -> Self {
        self.hears.listener = Some(Listener(Box::new(move |object, reason| listener(&object.key, &object.value, reason))));
        self
    }

    /// Who hears of each object right before it is freed, once: also when the map is dropped. One that is [pinned](ObjectMap::pin) stays after that. So a
    /// program can count what the objects take that have left the map and are still there, but for pins. It hears in any thread, in calls that write.
    /// If `freed` panics, the panic ends there, as that of a destructor does.
    pub fn freed(mut self, freed: impl Fn(&K, &V) + Send + Sync + 'static) -> Self {
        self.hears.freed = Some(Box::new(move |object| freed(&object.key, &object.value)));
        self
    }

    /// Bounds the sum of what the entries weigh. `weigher` says what an entry weighs: its bytes, say. It is called once for each put, before it.
    ///
    /// ```
    /// use cefrodil_map::ObjectMap;
    ///
    /// let weigher = |url: &String, page: &Vec<u8>| (url.len() + page.len()) as u64;
    /// let pages = ObjectMap::builder(10_000).max_weight(1_000, weigher).open()?;
    /// for number in 0..100 {
    ///     pages.insert(format!("/{number:03}"), vec![0; 96])?;
    /// }
    /// assert_eq!((pages.len(), pages.weight()), (10, 1_000));
    /// # Ok::<(), Box<dyn std::error::Error>>(())
    /// ```
    ///
    /// - A put that brings the sum above `most` evicts others: those that would give way to new keys in a full map. So the sum is above `most` only
    ///   while a put runs. It stays above until the next put if the call that evicts gets no turn for over a second.
    /// - A put of a new key makes room first. It is refused if it gets no turn for that, as any write.
    /// - An entry that alone is heavier than `most` is refused: [`InsertError::TooHeavy`](crate::InsertError::TooHeavy). What its key had stays.
    /// - The map is still bounded by its number of entries, too. Take a capacity for at least as many entries as fit by their weight.
    /// - [`weight`](ObjectMap::weight) is the sum. Objects that have left and wait to be freed don't count.
    /// - [`set_most_weight`](ObjectMap::set_most_weight) changes `most`. A number above 2^48 is taken for 2^48.
    pub fn max_weight(mut self, most: u64, weigher: impl Fn(&K, &V) -> u64 + Send + Sync + 'static) -> Self {
        self.hears.weigher = Some((most, Box::new(move |object| weigher(&object.key, &object.value))));
        self
    }
}

impl<K, V, S> ObjectBuilder<K, V, S>
where
    K: Hash + Eq + Send + Sync + 'static,
    V: Send + Sync + 'static,
    S: BuildHasher,
{
    /// Opens the map. This takes all memory for its index. Each object takes its own when it is put.
    ///
    /// # Errors
    ///
    /// The first [`OpenError`] that applies.
    pub fn open(self) -> Result<ObjectMap<K, V, S>, OpenError> {
        let (shape, shards) = self.settings.shape()?;
        let bound = self.settings.bound(&shape, shards);
        let map = self.open_shaped(&shape, shards, TRIES)?;
        map.inner.core.bound.set(bound);
        Ok(map)
    }

    /// Opens the map with shards of this shape, and calls that try so often.
    pub(crate) fn open_shaped(self, shape: &Shape, shards: u32, tries: u32) -> Result<ObjectMap<K, V, S>, OpenError> {
        Ok(ObjectMap { inner: Arc::new(ObjectInner::open(self.settings, (shape, shards), tries, self.hears)?) })
    }
}

impl<O: Held, S> ObjectInner<O, S> {
    /// Opens so many shards of this shape.
    pub fn open(
        settings: Settings<S>,
        (shape, shards): (&Shape, u32),
        tries: u32,
        hears: Hears<O>,
    ) -> Result<ObjectInner<O, S>, OpenError> {
        let count = settings.handles()?;
        let handles = Cache::open(shape, shards, count).map_err(OpenError::of)?;
        let Hears { listener, freed, weigher } = hears;
        let core = Core::new(handles, shards, &settings, tries);
        let Settings { hasher, once, threads, .. } = settings;
        Ok(ObjectInner {
            core,
            epochs: Epochs::new(threads),
            hasher,
            mixes: !once,
            listener,
            freed,
            weights: weigher.map(|(most, weigher)| Weights::new(most, weigher, shards)),
            kept: Arc::default(),
            objects: PhantomData,
        })
    }
}

impl<K, V, S> Debug for ObjectBuilder<K, V, S> {
    fn fmt(&self, text: &mut Formatter) -> fmt::Result {
        self.settings.fmt("ObjectBuilder", text)
    }
}
