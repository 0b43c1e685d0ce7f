//! A head, a key and a value in one block on the heap.
use super::object::{Held, Keyed};
use crate::clock::NEVER;
use std::alloc::{alloc, dealloc, handle_alloc_error, Layout};
use std::fmt::{self, Debug, Formatter};
use std::mem;
use std::ops::Deref;
use std::ptr::{copy_nonoverlapping, NonNull};
use std::slice;

/// What lies before the key and the value of a block: their lengths, and whatever else belongs to them. It needs no destructor.
///
/// # Safety
///
/// No field lies behind the first `SIZE` bytes. `lengths` returns the same as long as the head exists, whatever else of it changes. `allocate` and
/// `deallocate` do what a global allocator does.
pub unsafe trait Head: Send + Sync + Sized + 'static {
    /// How many bytes of it are before the key, at most its size.
    const SIZE: usize;

    /// How many bytes the key and the value have.
    fn lengths(&self) -> (usize, usize);

    /// Memory of this layout for a block, or null.
    ///
    /// # Safety
    ///
    /// The same as for [`alloc`]. That is what it calls, unless a head has memory of its own.
    unsafe fn allocate(layout: Layout) -> *mut u8 {
        // SAFETY: the caller says that it may be called.
        unsafe { alloc(layout) }
    }

    /// Frees memory that [`allocate`](Self::allocate) returned for this layout.
    ///
    /// # Safety
    ///
    /// The same as for [`dealloc`]. That is what it calls, unless a head has memory of its own.
    unsafe fn deallocate(at: *mut u8, layout: Layout) {
        // SAFETY: the caller says that it may be called.
        unsafe { dealloc(at, layout) }
    }
}

/// A head with its key and its value behind it. It exists in a [`Block`] alone.
#[repr(transparent)]
pub struct Bytes<H>(H);

/// Owns [`Bytes`] on the heap.
pub struct Block<H: Head>(NonNull<Bytes<H>>);

/// Any key with the hash by which one was looked up.
pub(crate) struct Any;

impl<H: Head> Bytes<H> {
    /// The key.
    #[inline]
    pub fn key(&self) -> &[u8] {
        let (key, _) = self.0.lengths();
        self.part(0, key)
    }

    /// The value.
    #[inline]
    pub fn value(&self) -> &[u8] {
        let (key, value) = self.0.lengths();
        self.part(key, value)
    }

    /// How many bytes of the heap the block takes, without what the allocator adds.
    pub fn size(&self) -> usize {
        let (key, value) = self.0.lengths();
        size_of::<H>(key, value)
    }

    #[inline]
    fn part(&self, first: usize, length: usize) -> &[u8] {
        let at = (self as *const Self as usize + H::SIZE + first) as *const u8;
        // SAFETY: only `Block::try_new` makes a `Bytes`. It has written so many bytes there, in the same block, and exposed a pointer to all of
        // it. Nobody writes them again, and no field of the head lies there. The block stays while `self` is borrowed.
        unsafe { slice::from_raw_parts(at, length) }
    }
}

impl<H> Deref for Bytes<H> {
    type Target = H;

    #[inline]
    fn deref(&self) -> &H {
        &self.0
    }
}

const TOO_LONG: &str = "a block has less bytes than the address space";

fn size_of<H: Head>(key: usize, value: usize) -> usize {
    H::SIZE.checked_add(key).and_then(|size| size.checked_add(value)).expect(TOO_LONG).max(mem::size_of::<H>())
}

fn layout_of<H: Head>(size: usize) -> Layout {
    Layout::from_size_align(size, mem::align_of::<H>()).expect(TOO_LONG)
}

// One slice may be there often.
fn length_of(parts: &[&[u8]]) -> usize {
    parts.iter().try_fold(0, |sum: usize, part| sum.checked_add(part.len())).expect(TOO_LONG)
}

impl<H: Head> Block<H> {
    /// A block with this head, this key, and a value of these parts.
    ///
    /// # Panics
    ///
    /// If the head says other lengths, or the parts have more bytes than the address space.
    pub fn new(head: H, key: &[u8], value: &[&[u8]]) -> Block<H> {
        let size = size_of::<H>(key.len(), length_of(value));
        Block::try_new(head, key, value).unwrap_or_else(|| handle_alloc_error(layout_of::<H>(size)))
    }

    /// The same, or `None` if there is no memory for it.
    ///
    /// # Panics
    ///
    /// As [`new`](Self::new).
    #[must_use]
    pub fn try_new(head: H, key: &[u8], value: &[&[u8]]) -> Option<Block<H>> {
        const { assert!(!mem::needs_drop::<H>() && H::SIZE <= mem::size_of::<H>() && mem::size_of::<H>() > 0) };
        let lengths = (key.len(), length_of(value));
        assert_eq!(head.lengths(), lengths, "the head says what the lengths are");
        let layout = layout_of::<H>(size_of::<H>(lengths.0, lengths.1));
        // SAFETY: its size is that of a head, or more.
        let at = unsafe { H::allocate(layout) };
        let block = NonNull::new(at.cast::<Bytes<H>>())?;
        // SAFETY: the block is new, aligned for a head, and has room for it and for all that is behind its first `SIZE` bytes. The head is
        // written first, since its padding may lie there.
        unsafe {
            block.as_ptr().cast::<H>().write(head);
            let mut to = at.add(H::SIZE);
            for part in [key].iter().chain(value) {
                copy_nonoverlapping(part.as_ptr(), to, part.len());
                to = to.add(part.len());
            }
        }
        // The cast exposes the pointer, by which `part` comes to what is behind the head.
        let _ = at as usize;
        Some(Block(block))
    }
}

impl<H: Head> Deref for Block<H> {
    type Target = Bytes<H>;

    #[inline]
    fn deref(&self) -> &Bytes<H> {
        // SAFETY: `try_new` has written it, and it is freed when `self` is dropped.
        unsafe { self.0.as_ref() }
    }
}

impl<H: Head> Drop for Block<H> {
    fn drop(&mut self) {
        let layout = layout_of::<H>(self.size());
        // SAFETY: `try_new` allocated it with this layout, since the lengths are the same. Nobody else owns it. The head needs no destructor.
        unsafe { H::deallocate(self.0.as_ptr().cast(), layout) }
    }
}

// SAFETY: a block owns what it points to, which may be sent to other threads and shared by them.
unsafe impl<H: Head> Send for Block<H> {}
// SAFETY: as above.
unsafe impl<H: Head> Sync for Block<H> {}

// SAFETY: the word is the address of a block, and `Block::try_new` has exposed a pointer to all of it.
unsafe impl<H: Head> Held for Bytes<H> {
    type Owner = Block<H>;

    fn into_word(owner: Block<H>) -> u64 {
        let word = owner.0.as_ptr() as usize as u64;
        mem::forget(owner);
        word
    }

    unsafe fn of_word(word: u64) -> Block<H> {
        // SAFETY: `into_word` made the word of the address of a block, which is not null. The caller says that nobody else uses it.
        Block(unsafe { NonNull::new_unchecked(word as usize as *mut Bytes<H>) })
    }

    #[inline]
    fn deadline(&self) -> u64 {
        NEVER
    }

    fn set_deadline(&self, _: u64) {}
}

impl<H: Head> Keyed<[u8]> for Bytes<H> {
    #[inline]
    fn has_key(&self, key: &[u8]) -> bool {
        self.key() == key
    }
}

impl<H: Head> Keyed<Any> for Bytes<H> {
    fn has_key(&self, _: &Any) -> bool {
        true
    }
}

impl<H: Head + Debug> Debug for Bytes<H> {
    fn fmt(&self, text: &mut Formatter) -> fmt::Result {
        text.debug_struct("Bytes").field("head", &self.0).field("key", &self.key()).field("value", &self.value()).finish()
    }
}

impl<H: Head + Debug> Debug for Block<H> {
    fn fmt(&self, text: &mut Formatter) -> fmt::Result {
        (**self).fmt(text)
    }
}
