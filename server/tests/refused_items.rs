//! Memory that the system refuses for items: others give way, and what is not put takes none.
mod plain;
mod refusing;
use cefrodild::books::Books;
use cefrodild::budget::cost;
use cefrodild::counts::Count;
use cefrodild::item::new_item;
use cefrodild::request::{How, Order};
use cefrodild::store::{Answer, Fault, Store};
use plain::client::{map_store, options_of, order};
use plain::{Control, Plain};
use refusing::{refusing, set_up};
use std::sync::atomic::Ordering::SeqCst;
use std::sync::Arc;

fn store() -> Store {
    map_store(1 << 20, "-t1")
}

/// If items that give way don't help, no more of them go in that second.
#[test]
fn items_do_not_go_in_vain() {
    let _turn = set_up();
    for how in [How::Set, How::Add] {
        let (store, value) = (store(), vec![b'x'; 100_000]);
        (0..200).for_each(|key: u8| assert!(store.store(&order(How::Set, &[key], 1_000), &value[..1_000]).is_ok()));
        let mut gone = Vec::new();
        for _ in 0..20 {
            let before = store.index.len();
            let (answer, _) = refusing(0, usize::MAX, || store.store(&order(how, b"large", value.len()), &value));
            assert!(answer.is_err());
            gone.push(before - store.index.len());
        }
        // A second may end meanwhile.
        assert!(gone[0] > 0 && gone.iter().filter(|gone| **gone > 0).count() <= 3, "{how:?}: {gone:?}");
    }
}

/// Stores a value as it is ordered. The first item of so many that are made has no memory.
fn store_refused(store: &Store, order: &Order, refused: usize) -> (Result<Answer, Fault>, bool) {
    refusing(0, refused, || store.store(order, &[b'x'; 2_000][..order.length]))
}

#[test]
fn items_give_way_to_each_command() {
    let _turn = set_up();
    let (store, gone) = (store(), |store: &Store| store.books.counts.get(Count::Evicted));
    (0..100).for_each(|key: u8| assert!(store_refused(&store, &order(How::Set, &[key], 2_000), 0).0.is_ok()));
    for (how, key) in [(How::Add, b"new"), (How::Replace, b"new"), (How::Append, b"new"), (How::Prepend, b"new")] {
        let (before, (answer, was_refused)) = (gone(&store), store_refused(&store, &order(how, key, 2_000), 1));
        assert!(was_refused && matches!(answer, Ok(Answer::Done(_))) && gone(&store) > before, "{how:?}: {answer:?}");
    }
    let (before, (stale, was_refused)) = (gone(&store), refusing(0, 1, || store.invalidate(b"new", None, None)));
    assert!(was_refused && matches!(stale, Ok(Answer::Done(_))) && gone(&store) > before, "{stale:?}");
    // If that does not help, no more of them go in that second.
    let (before, (answer, _)) = (gone(&store), store_refused(&store, &order(How::Add, b"key", 2_000), usize::MAX));
    assert!(answer == Err(Fault::NoRoom) && gone(&store) - before < 10, "{answer:?}");
}

#[test]
fn what_is_not_put_takes_no_memory() {
    let _turn = set_up();
    let store = map_store(1 << 20, "-t1 -I3000");
    assert!(store_refused(&store, &order(How::Set, b"key", 2_000), 0).0.is_ok());
    for (how, compare, answer) in [
        (How::Add, None, Ok(Answer::NotStored)),
        (How::Set, Some(9), Ok(Answer::Exists)),
        (How::Append, Some(9), Ok(Answer::Exists)),
        (How::Append, None, Err(Fault::TooLong)),
    ] {
        let order = Order { compare, ..order(how, b"key", 2_000) };
        assert_eq!(store_refused(&store, &order, usize::MAX), (answer, false), "{how:?}");
    }
    assert_eq!(refusing(0, usize::MAX, || store.invalidate(b"key", Some(9), None)), (Ok(Answer::Exists), false));
}

/// The list of items that lie in no chunk does not grow.
#[test]
fn the_place_of_an_item_that_has_left_is_used_again() {
    let _turn = set_up();
    let item = || new_item(1, 0, 0, b"key", &[&[0; 2_000]]);
    assert!(item().is_some());
    for _ in 0..20_000 {
        // It needs a block of its own, and nothing else.
        assert!(refusing(1, usize::MAX, item).0.is_some());
    }
}

/// A store over the plain index.
fn plain_store() -> (Store, Arc<Control>) {
    let (options, control) = (options_of("-t1"), Arc::new(Control::default()));
    let books = Arc::new(Books::new(1 << 20, &options));
    (Store::new(Box::new(Plain::new(&books, &control)), books, options), control)
}

#[test]
fn what_gave_way_is_freed_before_the_system_is_asked_again() {
    let _turn = set_up();
    let (store, control) = plain_store();
    let put = || store.store(&order(How::Set, b"key", 20_000), &[b'x'; 20_000]);
    assert!(put().is_ok() && control.sweeps.load(SeqCst) == 0);
    assert!(refusing(0, 1, put).0.is_ok() && control.sweeps.load(SeqCst) == 1);
}

/// Items give way that have four times the bytes of the value that has no memory: of the whole value, though only a part of it is new. They have at
/// most a 32nd of the memory.
#[test]
fn items_give_way_for_the_whole_value() {
    type Command = fn(&Store) -> Result<Answer, Fault>;
    let _turn = set_up();
    let commands: [(Command, u64); 6] = [
        (|store| store.store(&order(How::Set, b"key", 2_000), &[b'x'; 2_000]), 8_000),
        (|store| store.store(&order(How::Replace, b"key", 2_000), &[b'x'; 2_000]), 4 * 5_000),
        (|store| store.store(&order(How::Append, b"key", 1), b"x"), 4 * 3_001),
        (|store| store.store(&order(How::Prepend, b"key", 1), b"x"), 4 * 3_001),
        (|store| store.invalidate(b"key", None, None), 4 * 3_000),
        (|store| store.store(&order(How::Set, b"key", 20_000), &[b'x'; 20_000]), (1 << 20) / 32),
    ];
    for (command, bytes) in commands {
        let (store, _) = plain_store();
        (0..100).for_each(|key: u8| assert!(store.store(&order(How::Set, &[key], 1_000), &[b'x'; 1_000]).is_ok()));
        assert!(store.store(&order(How::Set, b"key", 3_000), &[b'x'; 3_000]).is_ok());
        let (answer, was_refused) = refusing(0, 1, || command(&store));
        assert!(was_refused && matches!(answer, Ok(Answer::Done(_))), "{answer:?}");
        assert_eq!(store.books.counts.get(Count::Evicted), bytes.div_ceil(cost(1, 1_000)));
    }
}
