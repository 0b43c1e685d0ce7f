//! Maps of bytes: what a block has, and that the map takes none for another, loses none and frees each once.
use crate::ledger::{done, next};
use cefrodil_map::{AbsentError, Block, Bytes, BytesMap, GetError, Head, IfError, Look, Reason};
use std::alloc::{alloc, dealloc, Layout};
use std::hash::{BuildHasherDefault, Hasher, RandomState};
use std::mem::offset_of;
use std::sync::atomic::{AtomicU64, AtomicUsize, Ordering::Relaxed, Ordering::SeqCst};
use std::sync::Arc;
use std::thread;

/// A head whose last bytes are padding, in which the key begins.
#[repr(C)]
#[derive(Debug)]
struct Counted {
    number: u64,
    uses: AtomicU64,
    value: u32,
    key: u8,
}

// SAFETY: `key` is the last field, and has one byte. Nobody changes the lengths.
unsafe impl Head for Counted {
    const SIZE: usize = offset_of!(Counted, key) + 1;

    fn lengths(&self) -> (usize, usize) {
        (self.key.into(), self.value as usize)
    }
}

fn block(number: u64, key: &[u8], value: &[&[u8]]) -> Block<Counted> {
    let length = value.iter().map(|part| part.len() as u32).sum();
    Block::new(Counted { number, uses: AtomicU64::new(0), value: length, key: key.len() as u8 }, key, value)
}

/// The value of this key with this number. Its length depends on the number.
fn value_of(key: u64, number: u64) -> Vec<u8> {
    format!("{key}:{number};").repeat(1 + (number % 40) as usize).into_bytes()
}

fn check(key: u64, found: &Bytes<Counted>) {
    assert_eq!((found.key(), found.value()), (key.to_string().as_bytes(), value_of(key, found.number).as_slice()));
}

fn make(key: u64, number: u64) -> Block<Counted> {
    block(number, key.to_string().as_bytes(), &[&value_of(key, number)])
}

/// A head that counts the bytes of its blocks.
#[repr(C)]
struct Own(u8);

static OWN: AtomicUsize = AtomicUsize::new(0);

// SAFETY: its one field has one byte, and the lengths are constant. The memory is that of the global allocator.
unsafe impl Head for Own {
    const SIZE: usize = 1;

    fn lengths(&self) -> (usize, usize) {
        (2, 3)
    }

    unsafe fn allocate(layout: Layout) -> *mut u8 {
        OWN.fetch_add(layout.size(), Relaxed);
        // SAFETY: the caller says that it may be called.
        unsafe { alloc(layout) }
    }

    unsafe fn deallocate(at: *mut u8, layout: Layout) {
        OWN.fetch_sub(layout.size(), Relaxed);
        // SAFETY: as above.
        unsafe { dealloc(at, layout) }
    }
}

#[test]
fn a_head_may_have_memory_of_its_own() {
    let blocks = [7, 8].map(|number| Block::new(Own(number), b"ab", &[b"cde"]));
    assert_eq!(OWN.load(Relaxed), 12);
    assert_eq!((blocks[1].key(), blocks[1].value()), (&b"ab"[..], &b"cde"[..]));
    drop(blocks);
    assert_eq!(OWN.load(Relaxed), 0);
}

#[test]
fn a_block_has_what_it_was_made_of() {
    for key in [0, 1, 2, 3, 4, 5, 12, 250] {
        for value in [0, 1, 2, 3, 7, 8, 100, 5_000] {
            let (key, first, second) = (vec![b'k'; key], vec![b'v'; value / 2], vec![b'w'; value - value / 2]);
            let block = block(7, &key, &[&first, &second]);
            block.uses.fetch_add(3, Relaxed);
            assert_eq!((block.key(), block.value()), (key.as_slice(), [first, second].concat().as_slice()));
            assert_eq!((block.number, block.uses.load(Relaxed)), (7, 3));
            assert_eq!(block.size(), (21 + key.len() + value).max(24), "the key begins in the padding");
        }
    }
}

#[test]
#[should_panic = "the head says what the lengths are"]
fn a_head_with_other_lengths_is_refused() {
    let _ = Block::new(Counted { number: 1, uses: AtomicU64::new(0), value: 2, key: 1 }, b"k", &[b"v"]);
}

#[test]
fn each_call_does_what_it_says() {
    let map = BytesMap::<Counted>::builder(100).shards(1).threads(1).open().unwrap();
    let found = |key: u64| {
        let mut found = None;
        map.look_many(&[key.to_string().as_bytes()], |_, look| {
            if let Ok(Look::Found { result, since, .. }) = look {
                check(key, result);
                found = Some((result.number, since));
            }
        });
        let alone = map.look(key.to_string().as_bytes(), |look| match look {
            Ok(Look::Found { result, since, .. }) => Some((result.number, since)),
            _ => None,
        });
        assert_eq!(alone, found);
        found
    };
    assert_eq!(found(1), None);
    let first = map.put(make(1, 10)).unwrap().at;
    assert_eq!(found(1), Some((10, first)));
    assert!(matches!(map.put_if_absent(make(1, 11)), Err(AbsentError::Present { since }) if since == first));
    let second = map.replace_if(first, make(1, 12)).unwrap().at;
    assert!(matches!(map.replace_if(first, make(1, 13)), Err(IfError::Changed { since }) if since == second));
    assert!(matches!(map.replace_if(first, make(2, 14)), Err(IfError::NotThere { .. })));
    assert_eq!(found(1), Some((12, second)));
    let hash = map.hash_of(b"1");
    let hits = map.stats().hits;
    map.peek_hash(hash, |look| {
        assert!(matches!(look, Ok(Look::Found { result, since, .. }) if result.number == 12 && since == second))
    });
    map.peek_hash(!hash, |look| assert!(matches!(look, Ok(Look::Absent { .. }))));
    assert_eq!(map.stats().hits, hits, "it is not counted");
    assert!(matches!(map.remove_if(b"1", first), Err(IfError::Changed { .. })));
    assert!(map.remove_if(b"1", second).is_ok());
    assert_eq!(found(1), None);
    let third = map.put_if_absent(make(1, 15)).unwrap().at;
    assert!(matches!(map.remove_stamped(hash, second, Reason::Removed), Err(IfError::Changed { .. })));
    assert!(map.remove_stamped(hash, third, Reason::Removed).is_ok());
    assert_eq!((found(1), map.is_empty(), map.capacity()), (None, true, 100));
}

/// All keys have one hash.
#[derive(Default)]
struct Same;

impl Hasher for Same {
    fn write(&mut self, _: &[u8]) {}

    fn finish(&self) -> u64 {
        1
    }
}

#[test]
fn an_eviction_shows_the_block_that_gives_way() {
    let heard = Arc::new(AtomicU64::new(0));
    let hears = Arc::clone(&heard);
    let map = BytesMap::<Counted>::builder(1_000)
        .shards(8)
        .threads(1)
        .listener(move |bytes, reason| {
            assert_eq!(reason, Reason::Evicted);
            hears.fetch_add(bytes.number, SeqCst);
        })
        .open()
        .unwrap();
    assert!(map.evict(|_, _| ()).unwrap().is_none());
    let since = map.put(make(1, 10)).unwrap().at;
    let seen = map.evict(|block, at| {
        // It has left the map, and is not freed.
        map.look(b"1", |look| assert!(matches!(look, Ok(Look::Absent { .. }))));
        (2..50).for_each(|key| done(map.put(make(key, 0)).unwrap()));
        assert!(heard.load(SeqCst) == 0 && map.free_unused() == 0);
        check(1, block);
        (block.number, at)
    });
    assert_eq!((seen, heard.load(SeqCst), map.len(), map.stats().evicted), (Ok(Some((10, since + 1))), 10, 48, 1));
    assert_eq!(map.free_unused(), 0);
    let mut left = (0..48).map(|_| map.evict(|block, _| block.key().to_vec()).unwrap().unwrap()).collect::<Vec<_>>();
    assert!(map.is_empty() && map.evict(|_, _| ()).unwrap().is_none());
    left.sort();
    left.dedup();
    assert_eq!(left.len(), 48);
}

#[test]
fn a_full_shard_evicts_what_was_not_used() {
    let map = BytesMap::<Counted>::builder(100).shards(1).threads(1).open().unwrap();
    (0..50).for_each(|key| done(map.put(make(key, 0)).unwrap()));
    (0..40).for_each(|key: u64| map.look(key.to_string().as_bytes(), |look| assert!(look.is_ok())));
    let mut left: Vec<_> = (0..5).map(|_| map.evict(|block, _| block.key().to_vec()).unwrap().unwrap()).collect();
    left.sort();
    assert_eq!(left, (40..45).map(|key| key.to_string().into_bytes()).collect::<Vec<_>>());
}

// The program asks for it, and no bound does.
#[test]
fn an_eviction_counts_for_no_bound() {
    let map = BytesMap::<Counted>::builder(100).open().unwrap();
    (0..10).for_each(|key| done(map.put(make(key, 0)).unwrap()));
    (0..3).for_each(|_| assert!(map.evict(|_, _| ()).unwrap().is_some()));
    let stats = map.stats();
    assert_eq!((stats.evicted, stats.evicted_by_weight, stats.evicted_by_capacity, stats.removed), (3, 0, 0, 0));
}

#[test]
fn each_lookup_but_a_peek_is_counted() {
    let map = BytesMap::<Counted>::builder(100).open().unwrap();
    map.put(make(1, 10)).unwrap();
    for key in [b"1", b"2", b"1"] {
        map.look(key, |look| assert!(look.is_ok()));
    }
    map.look_many(&[b"1", b"2", b"3"], |_, look| assert!(look.is_ok()));
    map.peek_hash(map.hash_of(b"1"), |look| assert!(matches!(look, Ok(Look::Found { .. }))));
    map.peek_hash(map.hash_of(b"2"), |look| assert!(matches!(look, Ok(Look::Absent { .. }))));
    assert_eq!((map.stats().hits, map.stats().misses, map.stats().busy), (3, 3, 0));
}

#[test]
fn a_put_on_a_condition_that_failed_is_counted() {
    let map = BytesMap::<Counted>::builder(100).open().unwrap();
    let at = map.put(make(1, 10)).unwrap().at;
    assert_eq!(map.put_if_absent(make(1, 20)), Err(AbsentError::Present { since: at }));
    assert_eq!(map.stats().refused, 1);
    assert_eq!(map.replace_if(at + 1, make(1, 30)), Err(IfError::Changed { since: at }));
    assert_eq!((map.stats().refused, map.stats().renewed, map.len()), (2, 0, 1));
}

#[test]
fn a_key_is_not_taken_for_another_one_with_its_hash() {
    let map = BytesMap::<Counted>::builder(100).threads(1).hasher(BuildHasherDefault::<Same>::default()).open().unwrap();
    let at = map.put(make(1, 10)).unwrap().at;
    map.look_many(&[b"2"], |_, look| assert!(matches!(look, Ok(Look::Absent { .. }))));
    map.look(b"2", |look| assert!(matches!(look, Ok(Look::Absent { .. }))));
    assert!(matches!(map.remove_if(b"2", at), Err(IfError::NotThere { .. })));
    assert!(map.put_if_absent(make(2, 20)).is_ok(), "it takes the place of the other one");
    map.look_many(&[b"1", b"2"], |index, look| assert_eq!(matches!(look, Ok(Look::Found { .. })), index == 1));
}

#[test]
fn threads_find_whole_blocks_and_each_is_freed_once() {
    const CALLS: u64 = 30_000;
    const KEYS: u64 = 300;
    let (left, freed, made) = (Arc::new(AtomicU64::new(0)), Arc::new(AtomicU64::new(0)), AtomicU64::new(0));
    let (hears, counts) = (Arc::clone(&left), Arc::clone(&freed));
    let number_of = |bytes: &[u8]| std::str::from_utf8(bytes).unwrap().parse::<u64>().unwrap();
    let map = BytesMap::<Counted>::builder(200)
        .shards(2)
        .threads(3)
        .listener(move |bytes, reason| {
            check(number_of(bytes.key()), bytes);
            assert!(reason != Reason::Expired);
            hears.fetch_add(1, SeqCst);
        })
        .freed(move |bytes| {
            check(number_of(bytes.key()), bytes);
            counts.fetch_add(1, SeqCst);
        })
        .hasher(RandomState::new())
        .open()
        .unwrap();
    thread::scope(|threads| {
        for thread in 1..=4_u64 {
            let (map, made) = (&map, &made);
            threads.spawn(move || {
                let mut seed = thread * 0x9e37_79b9;
                for _ in 0..CALLS {
                    let key = next(&mut seed) % KEYS;
                    let text = key.to_string();
                    let mut token = None;
                    let mut see = |look: Result<Look<&Bytes<Counted>>, GetError>| {
                        if let Ok(Look::Found { result, since, .. }) = look {
                            check(key, result);
                            token = Some(since);
                        }
                    };
                    if key % 2 == 0 {
                        map.look(text.as_bytes(), see);
                    } else {
                        map.look_many(&[text.as_bytes()], |_, look| see(look));
                    }
                    let new = || make(key, made.fetch_add(1, SeqCst));
                    match (next(&mut seed) % 4, token) {
                        (0, _) => done(map.put(new())),
                        (1, Some(since)) => done(map.remove_if(text.as_bytes(), since)),
                        (2, Some(since)) => done(map.replace_if(since, new())),
                        (3, Some(since)) => done(map.remove_stamped(map.hash_of(text.as_bytes()), since, Reason::Removed)),
                        _ => done(map.put_if_absent(new())),
                    }
                }
            });
        }
    });
    let (entries, waiting) = (map.len() as u64, map.free_unused());
    assert_eq!((waiting, freed.load(SeqCst)), (0, left.load(SeqCst)), "nobody looks any more");
    drop(map);
    assert_eq!(freed.load(SeqCst), left.load(SeqCst) + entries);
    assert!(freed.load(SeqCst) <= made.load(SeqCst));
}

#[test]
fn its_texts() {
    let builder = BytesMap::<Counted>::builder(100).shards(1);
    assert!(format!("{builder:?}").starts_with("BytesBuilder { capacity: 100"), "{builder:?}");
    let map = builder.open().unwrap();
    map.put(make(1, 1)).unwrap();
    assert_eq!(format!("{map:?}"), "BytesMap { len: 1, capacity: 100, .. }");
    let text = format!("{:?}", block(7, b"k", &[b"v"]));
    assert_eq!(text, "Bytes { head: Counted { number: 7, uses: 0, value: 1, key: 1 }, key: [107], value: [118] }");
}
