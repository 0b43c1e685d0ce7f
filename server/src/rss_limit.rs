//! A limit of the memory of the process (RSS). If it is exceeded, items get less room: the allocator loses some of it, and how much depends on their
//! sizes.
use nix::unistd::{sysconf, SysconfVar};
use std::fs::File;
use std::io;
use std::os::unix::fs::FileExt;

/// The room of items shrinks by this part of it at most, or by so many times the bytes of the item that is about to be put. So no command has to
/// remove too many items.
pub(crate) const PART_OF_CUT: u64 = 32;
pub(crate) const TIMES_OF_CUT: u64 = 4;

/// The items always keep this part of the room that they have at first.
const PART_OF_LEAST: u64 = 8;

/// The system's page: aarch64 has three sizes.
pub(crate) fn bytes_of_page() -> io::Result<u64> {
    Ok(sysconf(SysconfVar::PAGE_SIZE)?.ok_or(io::ErrorKind::Unsupported)? as u64)
}

/// The most that the process may take.
pub struct RssLimit {
    /// The kernel's numbers of pages.
    pages: File,
    pub bytes: u64,
    /// The room of items at first.
    pub most: u64,
}

impl RssLimit {
    /// A limit of so many bytes. All that the process does not take yet is room for items.
    pub fn new(bytes: u64) -> io::Result<RssLimit> {
        let mut limit = RssLimit { pages: File::open("/proc/self/statm")?, bytes, most: 0 };
        limit.most = bytes.saturating_sub(limit.resident()?);
        Ok(limit)
    }

    /// How many bytes the process takes.
    pub fn resident(&self) -> io::Result<u64> {
        let mut text = [0; 128];
        let length = self.pages.read_at(&mut text, 0)?;
        // The second number is that of pages in memory.
        let word = text[..length].split(|byte| *byte == b' ').nth(1).and_then(|word| std::str::from_utf8(word).ok());
        let pages = word.and_then(|word| word.parse::<u64>().ok());
        Ok(pages.ok_or(io::ErrorKind::InvalidData)? * bytes_of_page()?)
    }

    /// The next room of items, if the process takes so much, and items so much of it: what they take, and what is free below the limit. An item
    /// of `bytes` is about to be put.
    pub fn next_limit(&self, taken: u64, used: u64, bytes: u64) -> u64 {
        let next = match self.bytes.checked_sub(taken) {
            Some(free) => used + free,
            None => used.saturating_sub((taken - self.bytes).min((used / PART_OF_CUT).max(TIMES_OF_CUT * bytes))),
        };
        next.clamp(self.most / PART_OF_LEAST, self.most)
    }
}
