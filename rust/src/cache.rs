//! How a cache is opened.
use crate::error::{OpenError, Why};
use crate::handle::Handle;
use crate::loads::Loads;
use crate::open_handle::openings;
use crate::shape::Shape;
use crate::width::Value;

/// Opens caches whose values have this many words, 1 to 8. It is only a name: [`Cache::open`] returns handles, and dropping the last
/// of them frees the cache.
///
/// A cache is one shard or several. Each is a table with a turn of its own, and evicts for itself. The hash of a key says which shard holds
/// it, so threads that write different keys rarely want the same turn. Moments and `since` count the changes of the key's shard: never
/// compare those of two keys in a cache of several.
#[derive(Debug)]
pub struct Cache<const WORDS: usize>(());

/// A cache that was opened with entries.
#[derive(Debug)]
pub struct Opened<const WORDS: usize> {
    /// The handles.
    pub handles: Vec<Handle<WORDS>>,
    /// The entries that were left out: the index of each, in order, and the reason.
    pub left: Vec<(usize, Why)>,
}

impl<const WORDS: usize> Cache<WORDS> {
    /// Opens an empty cache of `shards` shards, a power of two from 1 to 256, each of this shape, with this many handles, 1 to 1024.
    /// [`Shape::for_items`] chooses the shape: give it the same number of shards. This takes all memory; of later calls only lists of entries and
    /// [`Handle::more`] take any.
    ///
    /// # Errors
    ///
    /// The first variant of [`OpenError`] that applies, in their order. Nothing leaks.
    ///
    /// # Examples
    ///
    /// ```
    /// use cefrodil::{Cache, Reply, Shape};
    ///
    /// let mut handles = Cache::<2>::open(&Shape::for_items(100, 1)?, 1, 3)?;
    /// let mut mine = handles.pop().expect("there are three");
    /// std::thread::scope(|threads| {
    ///     for mut handle in handles {
    ///         threads.spawn(move || match handle.get(1) {
    ///             Reply::Found { value, .. } => assert_eq!(value, [10, 20]),
    ///             Reply::Absent { at } => assert_eq!(at, 0),
    ///             Reply::Busy => {}
    ///         });
    ///     }
    ///     mine.try_put(1, &[10, 20])
    /// })?;
    /// # Ok::<(), Box<dyn std::error::Error>>(())
    /// ```
    ///
    /// Another width doesn't compile:
    ///
    /// ```compile_fail,E0277
    /// let _ = cefrodil::Cache::<0>::open(&cefrodil::Shape::for_items(100, 1).unwrap(), 1, 1);
    /// ```
    /// ```compile_fail,E0277
    /// let _ = cefrodil::Cache::<9>::open(&cefrodil::Shape::for_items(100, 1).unwrap(), 1, 1);
    /// ```
    pub fn open(shape: &Shape, shards: u32, handles: usize) -> Result<Vec<Handle<WORDS>>, OpenError>
    where
        [u64; WORDS]: Value,
    {
        openings::open(&shape.raw(), shards, handles)
    }

    /// Opens a cache like [`Cache::open`], and puts these entries, in order, each in its key's shard. No entry evicts another: one that
    /// can't be put so is left out, and reported with the reason. A key that is listed twice is put twice. These puts are the first changes
    /// of their shards, and each handle finds the entries from its first lookup on.
    ///
    /// # Errors
    ///
    /// Those of [`Cache::open`]. An entry that is left out is no error.
    ///
    /// # Examples
    ///
    /// ```
    /// use cefrodil::{Cache, Reply, Shape, Why};
    ///
    /// let small = Shape { items: 2, ..Shape::for_items(100, 1)? };
    /// let mut opened = Cache::<1>::open_with(&small, 1, 1, &[(7, [70]), (8, [80]), (9, [90])])?;
    /// assert_eq!(opened.left, [(2, Why::NoItem)]);
    /// assert_eq!(opened.handles[0].get(8), Reply::Found { value: [80], at: 2, since: 2 });
    /// # Ok::<(), Box<dyn std::error::Error>>(())
    /// ```
    ///
    /// Another width doesn't compile:
    ///
    /// ```compile_fail,E0277
    /// let _ = cefrodil::Cache::<9>::open_with(&cefrodil::Shape::for_items(100, 1).unwrap(), 1, 1, &[]);
    /// ```
    pub fn open_with(
        shape: &Shape,
        shards: u32,
        handles: usize,
        entries: &[(u64, [u64; WORDS])],
    ) -> Result<Opened<WORDS>, OpenError>
    where
        [u64; WORDS]: Value,
    {
        let mut loads = Loads::of(entries)?;
        let handles = openings::open_with(&shape.raw(), shards, handles, &mut loads)?;
        Ok(Opened { handles, left: loads.left()? })
    }
}
