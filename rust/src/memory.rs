//! Memory that may be refused. If there is none, std's own ways to take it end the process.
use std::mem::ManuallyDrop;
use std::ops::Deref;
use std::ptr::NonNull;
use std::sync::atomic::{AtomicUsize, Ordering};

/// There was no memory.
#[derive(Debug)]
pub struct NoMemory;

/// An empty list with room for `count` entries.
pub fn room<T>(count: usize) -> Result<Vec<T>, NoMemory> {
    let mut list = Vec::new();
    list.try_reserve_exact(count).map_err(|_| NoMemory)?;
    Ok(list)
}

struct Block<T> {
    owners: AtomicUsize,
    // The capacity of the list that holds the block.
    capacity: usize,
    shared: T,
}

/// What several own, as by an `Arc`.
pub struct Shared<T>(NonNull<Block<T>>);

// SAFETY: as for an `Arc`. An owner has a `&T` alone, in whatever thread, and the last one drops the `T`.
unsafe impl<T: Send + Sync> Send for Shared<T> {}
unsafe impl<T: Send + Sync> Sync for Shared<T> {}

impl<T> Shared<T> {
    /// The first owner.
    pub fn new(shared: T) -> Result<Shared<T>, NoMemory> {
        let mut list = ManuallyDrop::new(room(1)?);
        let capacity = list.capacity();
        list.push(Block { owners: AtomicUsize::new(1), capacity, shared });
        // No list is at null.
        NonNull::new(list.as_mut_ptr()).map(Shared).ok_or(NoMemory)
    }

    fn block(&self) -> &Block<T> {
        // SAFETY: the block stays while it has an owner, and nobody borrows it as `&mut`.
        unsafe { self.0.as_ref() }
    }
}

impl<T> Clone for Shared<T> {
    fn clone(&self) -> Shared<T> {
        // Relaxed: this owner keeps the block meanwhile, and whatever hands the new owner to another thread orders the rest.
        self.block().owners.fetch_add(1, Ordering::Relaxed);
        Shared(self.0)
    }
}

impl<T> Deref for Shared<T> {
    type Target = T;

    fn deref(&self) -> &T {
        &self.block().shared
    }
}

impl<T> Drop for Shared<T> {
    fn drop(&mut self) {
        // By the release, what this owner did comes before its end. By the acquire, the last one frees the block after all that.
        if self.block().owners.fetch_sub(1, Ordering::AcqRel) == 1 {
            let capacity = self.block().capacity;
            // SAFETY: this was the last owner, and the block is in a list of one that `new` took apart.
            drop(unsafe { Vec::from_raw_parts(self.0.as_ptr(), 1, capacity) });
        }
    }
}
