//! How much memory an empty map takes. This test is alone in its program, so nothing else allocates meanwhile.
#[cfg(feature = "objects")]
use cefrodil::{Cache, Shape};
use cefrodil_map::Map;

const MOST: usize = 16 << 10;

// What glibc says of the blocks of malloc, from which the index takes its memory, too.
#[repr(C)]
struct Mallinfo2 {
    before: [usize; 4],
    mapped: usize,
    between: [usize; 2],
    used: usize,
    after: [usize; 2],
}

extern "C" {
    fn mallinfo2() -> Mallinfo2;
}

// The bytes of all blocks that are in use.
fn in_use() -> usize {
    // SAFETY: it takes nothing, and glibc's struct has these fields.
    let said = unsafe { mallinfo2() };
    said.mapped + said.used
}

// The bytes that stay in use of what this returns.
fn kept<T>(open: impl Fn() -> T) -> usize {
    // What the thread keeps for all maps is there after this.
    drop(open());
    let before = in_use();
    let _open = open();
    in_use() - before
}

#[test]
fn an_empty_map_takes_sixteen_kilobytes_at_most() {
    let used = || {
        let map = Map::<u64, u64>::new(16).unwrap();
        map.insert(&1, 1).unwrap();
        map
    };
    assert!(kept(used) <= MOST, "{} bytes", kept(used));
    #[cfg(feature = "objects")]
    {
        let index = kept(|| Cache::<1>::open(&Shape::for_items(16, 1).unwrap(), 1, 1).unwrap());
        let objects = kept(|| cefrodil_map::ObjectMap::<u64, u64>::new(16).unwrap());
        assert!(objects - index <= MOST, "{objects} bytes, of the index {index}");
    }
}
