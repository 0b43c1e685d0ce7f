//! The index of items over Cefrodil's.
use cefrodil_map::Reason;
use cefrodild::audit::Audit;
use cefrodild::books::Books;
use cefrodild::budget::cost;
use cefrodild::counts::Count;
use cefrodild::index::{Index, Over, Refused, Token};
use cefrodild::item::new_item;
use cefrodild::map_index::{shards_for, MapIndex};
use cefrodild::options::Options;
use std::collections::BTreeSet;
use std::sync::Arc;

/// Puts an item with these flags.
fn put(index: &MapIndex, books: &Books, key: &[u8], flags: u32) -> Token {
    books.budget.claim(cost(key.len(), 1)).keep();
    let item = new_item(1, flags, u64::MAX, key, &[&[0]]).expect("there is memory");
    index.put(item, Over::Any).expect("there is room")
}

fn books() -> Arc<Books> {
    Arc::new(Books::new(1 << 20, &Options::default()))
}

/// An index, and what it shares with a store.
fn open() -> (Arc<Books>, MapIndex) {
    let books = books();
    let index = MapIndex::open(1000, 1, &books, None).expect("there is memory");
    (books, index)
}

/// The flags of the key's item, if it is there and has this token.
fn flags_of(index: &MapIndex, key: &[u8], token: Token) -> Option<u32> {
    let mut flags = None;
    index.peek(index.hash_of(key), &mut |item, found| flags = (found == token).then_some(item.flags));
    flags
}

#[test]
fn a_token_names_one_put_of_a_key() {
    let (books, index) = open();
    for key in [b"".as_slice(), b"a", b"12345678", &[b'k'; 250]] {
        let (hash, old) = (index.hash_of(key), put(&index, &books, key, 1));
        assert_eq!(flags_of(&index, key, old), Some(1));
        let new = put(&index, &books, key, 2);
        assert_eq!((flags_of(&index, key, old), flags_of(&index, key, new)), (None, Some(2)));
        assert_eq!(index.remove(hash, old, Reason::Removed), Err(Refused::Changed));
        assert_eq!(flags_of(&index, key, new), Some(2));
        assert!(index.remove(hash, new, Reason::Removed).is_ok());
        index.look(&[key], &mut |_, seen| assert!(matches!(seen, Ok(None))));
        assert_eq!((index.remove(hash, new, Reason::Removed), flags_of(&index, key, new)), (Err(Refused::Absent), None));
        assert_eq!((index.len(), books.budget.used()), (0, 0), "its bytes are given back");
    }
}

#[test]
fn a_condition_that_is_not_met_changes_nothing() {
    let (books, index) = open();
    let (key, item) = (b"key".as_slice(), |flags| new_item(1, flags, u64::MAX, b"key", &[&[0]]).expect("there is memory"));
    assert_eq!(index.put(item(1), Over::Token(1)), Err(Refused::Absent));
    assert_eq!(index.remove(index.hash_of(key), 1, Reason::Removed), Err(Refused::Absent));
    let old = put(&index, &books, key, 2);
    let new = put(&index, &books, key, 3);
    assert_eq!(index.put(item(4), Over::Nothing), Err(Refused::Changed));
    assert_eq!(index.put(item(5), Over::Token(old)), Err(Refused::Changed));
    assert_eq!(index.remove(index.hash_of(key), old, Reason::Removed), Err(Refused::Changed));
    assert_eq!(flags_of(&index, key, new), Some(3));
    assert_eq!((index.len(), books.budget.used()), (1, cost(key.len(), 1)));
}

#[test]
fn a_condition_that_is_met() {
    let (books, index) = open();
    let (key, bytes) = (b"key".as_slice(), cost(3, 1));
    let item = |flags| new_item(1, flags, u64::MAX, key, &[&[0]]).expect("there is memory");
    books.budget.claim(bytes).keep();
    let first = index.put(item(1), Over::Nothing).expect("it was absent");
    books.budget.claim(bytes).keep();
    let second = index.put(item(2), Over::Token(first)).expect("it has this token");
    assert_eq!(flags_of(&index, key, second), Some(2));
    assert!(index.remove(index.hash_of(key), second, Reason::Removed).is_ok());
    index.look(&[key], &mut |_, seen| assert!(matches!(seen, Ok(None))));
    assert_eq!((index.len(), books.budget.used()), (0, 0));
}

#[test]
fn there_is_a_place_for_each_item_that_was_asked_for() {
    for (items, threads) in [(1, 1), (1_000, 4), (100_000, 1), (100_000, 64)] {
        let index = MapIndex::open(items, threads, &books(), None).expect("there is memory");
        assert!(index.capacity() >= items, "{items} {}", index.capacity());
    }
}

#[test]
fn an_index_with_a_log_has_one_history() {
    let (books, log) = (books(), Audit::create("/dev/null").expect("it can be opened"));
    let index = MapIndex::open(100_000, 4, &books, Some(Arc::new(log))).expect("there is memory");
    let tokens: Vec<_> = (0..100u32).map(|number| put(&index, &books, &number.to_be_bytes(), 1)).collect();
    assert!(tokens.is_sorted_by(|one, next| one < next), "{tokens:?}");
}

#[test]
fn items_that_give_way_to_others_in_a_full_index_are_counted() {
    let books = books();
    let index = MapIndex::open(100, 1, &books, None).expect("there is memory");
    let items = 2 * index.capacity();
    for number in 0..items {
        put(&index, &books, number.to_string().as_bytes(), 1);
    }
    assert!(index.len() <= index.capacity());
    assert_eq!(books.counts.get(Count::Evicted) + index.len() as u64, items as u64);
}

#[test]
fn items_that_were_removed_or_replaced_did_not_give_way() {
    let (books, index) = open();
    put(&index, &books, b"key", 1);
    let token = put(&index, &books, b"key", 2);
    assert!(index.remove(index.hash_of(b"key"), token, Reason::Removed).is_ok());
    assert_eq!((books.counts.get(Count::Evicted), index.len(), books.budget.used()), (0, 0, 0));
}

#[test]
fn nobody_can_choose_keys_that_collide() {
    assert_ne!(open().1.hash_of(b"key"), open().1.hash_of(b"key"), "each index has a secret of its own");
}

/// The crate says whether shards hold so many items.
#[test]
fn the_more_items_the_more_shards() {
    let table = [
        (1, None),
        (54_080, None),
        (54_081, Some(32)),
        (432_537, Some(128)),
        (865_280, Some(256)),
        (865_281, Some(8)),
        (960_000, Some(16)),
        (48_000_000, Some(16)),
        (48_000_001, Some(32)),
        (96_000_001, Some(64)),
        (768_000_000, Some(256)),
    ];
    for (items, shards) in table {
        assert_eq!(shards_for(items), shards, "{items}");
        assert!(cefrodil::Shape::for_items(items as u32, shards.unwrap_or(16)).is_ok(), "{items}");
    }
}

#[test]
fn each_item_is_evicted_once() {
    let (books, index) = open();
    for key in 0..100_u8 {
        put(&index, &books, &[key], key.into());
    }
    let mut evicted = BTreeSet::new();
    for _ in 0..100 {
        assert!(index.evict(&mut |item| assert!(evicted.insert(item.flags))));
    }
    assert!(!index.evict(&mut |_| panic!("there is none")));
    assert_eq!((books.counts.get(Count::Evicted), index.len(), books.budget.used()), (100, 0, 0));
}

#[test]
fn what_has_expired_is_not_counted_as_evicted() {
    let (books, index) = open();
    books.budget.claim(cost(3, 0)).keep();
    assert!(index.put(new_item(1, 0, 0, b"key", &[]).expect("there is memory"), Over::Nothing).is_ok());
    assert!(index.evict(&mut |item| assert_eq!(item.key(), b"key")));
    assert_eq!((books.counts.get(Count::Evicted), books.counts.get(Count::Reclaimed)), (0, 1));
}
