//! Small items in chunks: no block is two items', and those of a chunk are found.
use cefrodild::item::{new_item, NewItem};
use cefrodild::rss_limit::RssLimit;
use cefrodild::slabs;
use std::collections::BTreeSet;
use std::sync::{Mutex, MutexGuard, Once, PoisonError};
use std::thread;

const MEGABYTE: usize = 1 << 20;

/// One test at a time has items: the chunks are those of the process.
fn set_up() -> MutexGuard<'static, ()> {
    static ONCE: Once = Once::new();
    static TURN: Mutex<()> = Mutex::new(());
    ONCE.call_once(|| slabs::set_up(64 * MEGABYTE).expect("there are addresses"));
    TURN.lock().unwrap_or_else(PoisonError::into_inner)
}

/// An item whose value has this length, and says which number it has.
fn item(number: usize, length: usize) -> NewItem {
    new_item(0, 0, 0, &number.to_le_bytes(), &[&vec![number as u8; length]]).expect("there is memory")
}

fn chunk(item: &NewItem) -> usize {
    slabs::address_of(item) / slabs::CHUNK
}

#[test]
fn each_item_has_memory_of_its_own() {
    let _turn = set_up();
    let length = |number: usize| number * 37 % (slabs::MOST + 200);
    let check = |number: usize, item: &NewItem| {
        assert_eq!(item.key(), number.to_le_bytes());
        assert!(item.value().len() == length(number) && item.value().iter().all(|byte| *byte == number as u8));
    };
    // Each thread drops items that others made.
    let shared = Mutex::new(Vec::new());
    let work = |thread: usize| {
        for number in (thread * 10_000..).take(10_000) {
            shared.lock().unwrap().push((number, item(number, length(number))));
            if number % 3 > 0 {
                let mut items = shared.lock().unwrap();
                let place = number * 7919 % items.len();
                let (number, item) = items.swap_remove(place);
                drop(items);
                slabs::look_around(&item, |other| assert_eq!(other.key().len(), 8));
                check(number, &item);
            }
        }
    };
    thread::scope(|threads| (0..4).for_each(|thread| drop(threads.spawn(move || work(thread)))));
    let items = shared.into_inner().unwrap();
    assert!(items.len() > 10_000);
    items.iter().for_each(|(number, item)| check(*number, item));
}

fn chunks(items: &[NewItem]) -> BTreeSet<usize> {
    items.iter().map(chunk).collect()
}

fn small_items(count: usize, length: usize) -> Vec<NewItem> {
    (0..count).map(|number| item(number, length)).collect()
}

/// The bytes of the process that are in memory.
fn resident() -> usize {
    RssLimit::new(0).and_then(|limit| limit.resident()).expect("the system tells") as usize
}

#[test]
fn the_items_of_a_chunk_are_found() {
    let _turn = set_up();
    // Neighbours of the smallest items are no further apart than their bits.
    for length in [777, 0] {
        let mut items = small_items(2_000, length);
        items.retain(|item| item.key()[0] % 3 > 0);
        let first = chunk(&items[500]);
        let expected: BTreeSet<usize> =
            items.iter().filter(|item| chunk(item) == first).map(|item| slabs::address_of(item)).collect();
        let mut found = BTreeSet::new();
        slabs::look_around(&items[500], |item| assert!(found.insert(slabs::address_of(item)) && item.key().len() == 8));
        assert!(found == expected && found.len() > 5, "{found:?} {expected:?}");
    }
    slabs::look_around(&item(0, 2 * slabs::MOST), |_| panic!("it lies in no chunk"));
}

#[test]
fn the_places_of_items_that_have_left_are_used_again() {
    let _turn = set_up();
    let mut items = small_items(20_000, 100);
    let before = chunks(&items).len();
    let mut number = 0;
    items.retain(|_| {
        number += 1;
        number % 2 == 0
    });
    items.extend(small_items(10_000, 100));
    let after = chunks(&items).len();
    assert!(after <= before + before / 10, "{before} chunks, and then {after} for as many items");
}

#[test]
fn empty_chunks_go_back_to_the_system_and_come_again() {
    let _turn = set_up();
    let items = small_items(100_000, 200);
    let (full, before) = (resident(), chunks(&items));
    drop(items);
    let empty = resident();
    assert!(full - empty > 15 * MEGABYTE, "{full} bytes, and {empty} when all have left");
    let again = chunks(&small_items(100_000, 200)).intersection(&before).count();
    assert!(again >= before.len() * 9 / 10, "{again} of {} chunks are used again", before.len());
}

/// Whether a part of this chunk is in memory.
fn is_in_memory(chunk: &usize) -> bool {
    let mut pages = [0; slabs::CHUNK / 4096];
    // SAFETY: there is a number for each page of the chunk. A larger page has one number, too.
    let status = unsafe { libc::mincore((chunk * slabs::CHUNK) as *mut _, slabs::CHUNK, pages.as_mut_ptr()) };
    assert_eq!(status, 0, "its addresses are mapped");
    pages.iter().any(|page| page & 1 > 0)
}

#[test]
fn some_empty_chunks_stay_in_memory() {
    let _turn = set_up();
    for _ in 0..3 {
        // More become empty than stay.
        drop(small_items(100_000, 200));
        let few = chunks(&small_items(50, 900));
        assert!(few.len() < 8 && few.iter().all(is_in_memory));
    }
}
