//! Entries with which a cache is opened, as the words that the library takes.
use crate::error::{OpenError, Why};
use crate::memory::room;
use crate::open_handle::same_version;
use crate::raw;

/// Each entry as its key and then its value, and the status of each.
pub struct Loads {
    pub words: Vec<u64>,
    pub statuses: Vec<u32>,
}

impl Loads {
    /// The words of these entries, and room for their statuses. Fails if the archive has another version, or without memory.
    pub fn of<const WORDS: usize>(entries: &[(u64, [u64; WORDS])]) -> Result<Loads, OpenError> {
        same_version()?;
        let mut words = room(entries.len() * (1 + WORDS))?;
        for (key, value) in entries {
            words.push(*key);
            words.extend_from_slice(value);
        }
        let mut statuses = room(entries.len())?;
        statuses.resize(entries.len(), raw::OK);
        Ok(Loads { words, statuses })
    }

    /// The index of each entry that was left out, and the reason.
    pub fn left(&self) -> Result<Vec<(usize, Why)>, OpenError> {
        let mut left = room(self.statuses.iter().filter(|status| **status != raw::OK).count())?;
        let statuses = self.statuses.iter().enumerate().filter(|(_, status)| **status != raw::OK);
        left.extend(statuses.map(|(index, status)| (index, Why::of(*status))));
        Ok(left)
    }
}
