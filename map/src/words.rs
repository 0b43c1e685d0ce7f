//! How an entry lies in the words of the index: its check word, its deadlines if it may expire, and the bytes of its value.
use crate::clock::NEVER;
use cefrodil::Reply;
use std::arch::asm;
use std::mem::MaybeUninit;
use std::ptr;
use std::time::Duration;

/// The most words of an entry.
pub(crate) const MOST: usize = 8;

/// The words of an entry. Those behind its last one are 0.
pub(crate) type Words = [u64; MOST];

const BYTES_OF_A_WORD: usize = size_of::<u64>();

/// An entry of the map.
#[derive(Clone, Copy)]
pub(crate) struct Entry<V> {
    pub check: u64,
    pub deadline: u64,
    /// When it expires if it is not used.
    pub idle: u64,
    pub value: V,
}

/// Which deadlines entries have.
#[derive(Clone, Copy, PartialEq, Eq)]
pub(crate) enum Layout {
    Plain,
    Timed,
    /// Both.
    Idle,
}

impl Layout {
    /// That of a map with these times to live and to idle.
    pub fn of(life: Option<Duration>, idle: Option<Duration>) -> Layout {
        match (life, idle) {
            (_, Some(_)) => Layout::Idle,
            (Some(_), None) => Layout::Timed,
            (None, None) => Layout::Plain,
        }
    }

    /// That of entries with or without a deadline.
    #[inline(always)]
    pub const fn laid<const TIMED: bool>() -> Layout {
        if TIMED {
            Layout::Timed
        } else {
            Layout::Plain
        }
    }

    // How many words come before the value.
    #[inline]
    const fn head(self) -> usize {
        match self {
            Layout::Plain => 1,
            Layout::Timed => 2,
            Layout::Idle => 3,
        }
    }

    /// How many words an entry has.
    pub const fn width<V>(self) -> usize {
        self.head() + size_of::<V>().div_ceil(BYTES_OF_A_WORD)
    }
}

impl<V: Copy> Entry<V> {
    pub fn words(&self, layout: Layout) -> Words {
        let mut words = [0; MOST];
        words[0] = self.check;
        match layout {
            Layout::Plain => {}
            Layout::Timed => words[1] = self.deadline,
            Layout::Idle => (words[1], words[2]) = (self.deadline, self.idle),
        }
        write(&self.value, &mut words[layout.head()..]);
        words
    }

    /// The words must be those of an entry of the same map: `words` made them.
    #[inline]
    pub fn of(words: &mut [u64], layout: Layout) -> Entry<V> {
        let (check, deadline) = (check(words), deadline(words, layout));
        let idle = if layout == Layout::Idle { words[2] } else { NEVER };
        Entry { check, deadline, idle, value: read(&mut words[layout.head()..]) }
    }
}

/// The check word of an entry.
#[inline]
pub(crate) fn check(words: &[u64]) -> u64 {
    words[0]
}

/// Gives an entry another check word.
#[inline]
pub(crate) fn set_check(words: &mut Words, check: u64) {
    words[0] = check;
}

/// The deadline of an entry, whether it is used or not.
#[inline]
pub(crate) fn deadline(words: &[u64], layout: Layout) -> u64 {
    match layout {
        Layout::Plain => NEVER,
        Layout::Timed | Layout::Idle => words[1],
    }
}

/// What a lookup of the index saw.
pub(crate) enum Seen<'a> {
    /// An entry, and the moment when it was put.
    Entry(&'a mut [u64], u64),
    Absent,
    Busy,
}

impl Seen<'_> {
    #[inline]
    pub fn of<const WIDTH: usize>(reply: &mut Reply<WIDTH>) -> Seen<'_> {
        match reply {
            Reply::Found { value, since, .. } => Seen::Entry(value, *since),
            Reply::Absent { .. } => Seen::Absent,
            Reply::Busy => Seen::Busy,
        }
    }
}

/// Writes the value's bytes over the first words, which are 0 before.
fn write<V: Copy>(value: &V, words: &mut [u64]) {
    assert!(size_of::<V>() <= size_of_val(words), "opening refuses such a value");
    let bytes = words.as_mut_ptr().cast::<MaybeUninit<u8>>();
    // SAFETY: `value` can be read for its size, and `words` written for as much, by the assertion. They don't overlap, since `words` is
    // borrowed as `&mut`. The copied bytes need not be initialized: `value` may have padding. The instructions (there are none) may write
    // what `bytes` points to. So for all that the compiler knows, they initialize each byte there, and reading the words is allowed. They
    // leave each byte as it was, and use no stack and no flag. They order no memory between threads: the index does that.
    unsafe {
        ptr::copy_nonoverlapping(ptr::from_ref(value).cast::<MaybeUninit<u8>>(), bytes, size_of::<V>());
        asm!("/* {0} */", in(reg) bytes, options(nostack, preserves_flags));
    }
}

/// Reads the value whose bytes `write` left in these words.
#[inline]
fn read<V: Copy>(words: &mut [u64]) -> V {
    assert!(size_of::<V>() <= size_of_val(words), "opening refuses such a value");
    let bytes = words.as_mut_ptr();
    // SAFETY: `words` can be read for the size of a `V`, by the assertion. They may be less aligned than a `V`. Their bytes are a valid `V`:
    // `Entry::of` gets what the map's own index returned, only `Entry::words` of the same `V` makes what the map puts there, and the index
    // returns the words of one put, whole (that is proved of it). `V` is `Copy`, `Send` and `'static`, so a copy of its bytes is a value of
    // its own, in any thread and at any time. If it has a pointer, that keeps its provenance by the instructions here and in `write`: for
    // all that the compiler knows, those exposed the pointer, and these write it.
    unsafe {
        asm!("/* {0} */", in(reg) bytes, options(nostack, preserves_flags));
        ptr::read_unaligned(bytes.cast())
    }
}
