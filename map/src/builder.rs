//! How a map is opened.
use crate::core::Core;
use crate::error::OpenError;
use crate::handle::AnyHandle;
use crate::inner::Inner;
use crate::map::Map;
use crate::print::Printer;
use crate::settings::Settings;
use crate::wait::TRIES;
use crate::words::{Layout, MOST};
use cefrodil::Shape;
use std::collections::hash_map::RandomState;
use std::fmt::{self, Debug, Formatter};
use std::hash::BuildHasher;
use std::marker::PhantomData;
use std::sync::Arc;
use std::time::Duration;

/// Chooses how a map is opened.
///
/// ```
/// use cefrodil_map::Map;
/// use std::time::Duration;
///
/// let names = Map::<str, u64>::builder(10_000).threads(8).time_to_live(Duration::from_secs(60)).open()?;
/// names.insert("one", 1)?;
/// assert_eq!(names.get("one"), Some(1));
/// # Ok::<(), Box<dyn std::error::Error>>(())
/// ```
#[must_use = "a builder opens nothing before `open`"]
pub struct Builder<K: ?Sized, V, S = RandomState> {
    settings: Settings<S>,
    entries: PhantomData<fn(&K) -> V>,
}

impl<K: ?Sized, V> Builder<K, V> {
    /// For a map of at least this many entries.
    pub fn new(capacity: usize) -> Builder<K, V> {
        Builder { settings: Settings::new(capacity), entries: PhantomData }
    }
}

impl<K: ?Sized, V, S> Builder<K, V, S> {
    /// How many shards: a power of two, 1 to 256. Threads that write to different shards don't wait for each other. Each shard evicts for
    /// itself, and several shards together have more room than was asked for. The map holds a tenth more at most. One shard
    /// has just what was asked for. The default is one for each 62 entries, 16 at most.
    pub fn shards(mut self, shards: u32) -> Self {
        self.settings.shards = Some(shards);
        self
    }

    /// How many threads at a time have a handle of their own, at most 1,023. A thread keeps its handle from its first call to its end. Further
    /// threads share one more handle, and wait for each other. So does a thread for whose handle there is no memory. The default is 64.
    pub fn threads(mut self, threads: usize) -> Self {
        self.settings.threads = threads;
        self
    }

    /// What hashes the keys. Each key is hashed twice, with different prefixes. Two keys with the same two hashes are one key to the map, so
    /// all 64 bits must be well spread. If an enemy may choose keys, take a keyed hasher. The default is SipHash-1-3, with a secret by std's
    /// `RandomState`. It hashes each key once, to 128 bits. If `K` is a [`Number`](crate::Number), the map keeps the number instead of a second hash,
    /// whatever the hasher is. Two such numbers are never confused.
    pub fn hasher<T>(self, hasher: T) -> Builder<K, V, T> {
        Builder { settings: self.settings.hasher(hasher), entries: PhantomData }
    }

    /// How long a value lives, unless it is put with another time. Each entry then keeps a deadline, so a value has at most 48 bytes; a
    /// larger one doesn't compile. `Duration::MAX` never ends, and `Duration::ZERO` is over at once. The default is a map without deadlines.
    ///
    /// The clock is that of [`Instant`](std::time::Instant), which is monotonic. It stops while the machine is suspended, so an entry then
    /// lives longer by that time.
    ///
    /// A put first looks at two places of its key's shard, and removes what has expired there. [`remove_expired`](Map::remove_expired) looks at all.
    ///
    /// | what is called | the deadline |
    /// |---|---|
    /// | `insert`, also over a value; `get_or_insert_with` that puts one | begins anew |
    /// | `update` and `modify` of a value | stays |
    /// | `update` where the value has expired | begins anew: `change` gets `None` |
    /// | `insert_for`, `modify_for` | begins anew, with the time that the call says |
    ///
    /// ```compile_fail,E0080
    /// let _ = cefrodil_map::Map::<u64, [u8; 49]>::builder(100).time_to_live(std::time::Duration::MAX);
    /// ```
    pub fn time_to_live(mut self, life: Duration) -> Self {
        const { assert!(Layout::Timed.width::<V>() <= MOST, "in a map with a time to live, a value has at most 48 bytes") };
        self.settings.life = Some(life);
        self
    }

    /// How long a value lives that is not used. A lookup that finds it begins the time anew, and so does a write, but not [`peek`](Map::peek).
    /// It may have a time to live, too: it expires when one of the two times is over. Each entry keeps both deadlines, so a value has at most 40
    /// bytes; a larger one doesn't compile. The clock is that of [`time_to_live`](Builder::time_to_live).
    ///
    /// A lookup writes only if the deadline moves by more than a sixteenth of the time. So a value expires when the time since its last use is over,
    /// or up to a sixteenth earlier. A use is not noted either if another thread writes to the shard right then: the next one is.
    ///
    /// ```
    /// use cefrodil_map::Map;
    /// use std::time::Duration;
    ///
    /// let sessions = Map::<str, u64>::builder(10_000).time_to_idle(Duration::from_secs(900)).open()?;
    /// sessions.insert("token", 7)?;
    /// assert_eq!(sessions.get("token"), Some(7));
    /// # Ok::<(), Box<dyn std::error::Error>>(())
    /// ```
    ///
    /// ```compile_fail,E0080
    /// let _ = cefrodil_map::Map::<u64, [u8; 41]>::builder(100).time_to_idle(std::time::Duration::MAX);
    /// ```
    pub fn time_to_idle(mut self, idle: Duration) -> Self {
        const { assert!(Layout::Idle.width::<V>() <= MOST, "in a map with a time to idle, a value has at most 40 bytes") };
        self.settings.idle = Some(idle);
        self
    }
    /// How long a call waits at most for the values that others compute: `get_or_insert_with` and its other forms but those for tasks. Then it calls its
    /// own function, for itself alone: that value isn't put. `Duration::ZERO` waits for nobody. The default is to wait for as long as it takes. A task
    /// waits in the program's runtime, which may have limits of its own.
    pub fn most_wait(mut self, most: Duration) -> Self {
        self.settings.most_wait = most;
        self
    }
}

impl<K: ?Sized, V: Copy + Send + Sync + 'static, S: BuildHasher> Builder<K, V, S> {
    /// Opens the map. This takes all memory for its entries.
    ///
    /// # Errors
    ///
    /// The first [`OpenError`] that applies.
    pub fn open(self) -> Result<Map<K, V, S>, OpenError> {
        let (shape, shards) = self.settings.shape()?;
        let bound = self.settings.bound(&shape, shards);
        let map = self.open_shaped(&shape, shards, TRIES)?;
        map.inner.core.bound.set(bound);
        Ok(map)
    }

    /// Opens the map with shards of this shape, and calls that try so often.
    pub(crate) fn open_shaped(self, shape: &Shape, shards: u32, tries: u32) -> Result<Map<K, V, S>, OpenError> {
        const { assert!(Layout::Plain.width::<V>() <= MOST, "a value has at most 56 bytes") };
        let layout = Layout::of(self.settings.life, self.settings.idle);
        let count = self.settings.handles()?;
        let handles = AnyHandle::open(layout.width::<V>(), shape, shards, count).map_err(OpenError::of)?;
        let core = Core::new(handles, shards, &self.settings, tries);
        let Settings { hasher, once, .. } = self.settings;
        let printer = if once { Printer::once(hasher) } else { Printer::twice(hasher) };
        Ok(Map { inner: Arc::new(Inner { core, printer, layout }) })
    }
}

impl<K: ?Sized, V, S> Debug for Builder<K, V, S> {
    fn fmt(&self, text: &mut Formatter) -> fmt::Result {
        self.settings.fmt("Builder", text)
    }
}
