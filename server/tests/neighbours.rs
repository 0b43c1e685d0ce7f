//! If the process exceeds its limit, items give way with their neighbours. It is the only test of its process, whose memory it looks at.
mod plain;
use cefrodild::counts::Count;
use cefrodild::request::How;
use cefrodild::slabs;
use cefrodild::store::{Answer, Store};
use plain::client::{exceed, map_store, order, MEGABYTE};

const SMALL: usize = 500;
const LARGE: usize = 1_000_000;

fn send(store: &Store, how: How, key: &[u8], length: usize) {
    assert!(matches!(store.store(&order(how, key, length), &vec![b'x'; length]), Ok(Answer::Done(_))), "{how:?}");
}

fn has(store: &Store, key: &[u8]) -> bool {
    let mut is_there = false;
    store.look(&[key], |_, _| {
        is_there = true;
        true
    });
    is_there
}

#[test]
fn an_old_value_stays_while_its_neighbours_give_way() {
    slabs::set_up(16 * MEGABYTE).expect("there are addresses");
    let store = map_store(0, "-t1");
    // So the items keep two megabytes.
    exceed(&store, 16 * MEGABYTE);
    // Beside its items lies one of another store, whose key this one has, too.
    let other = map_store(MEGABYTE as u64, "-t1");
    send(&other, How::Set, b"large", SMALL);
    let keys: Vec<[u8; 4]> = (0..500_u32).map(u32::to_le_bytes).collect();
    keys.iter().for_each(|key| send(&store, How::Set, key, SMALL));
    send(&store, How::Set, b"large", LARGE - SMALL);
    assert_eq!(store.books.counts.get(Count::Evicted), 0);
    // There is no room for two large items. The first small ones lie beside this one.
    send(&store, How::Append, &keys[0], LARGE - 100_000);
    let evicted = store.books.counts.get(Count::Evicted) as usize;
    assert!(evicted > 60 && has(&store, &keys[0]), "what was changed stays");
    assert!(has(&store, b"large") && has(&other, b"large"), "it has a key of a neighbour, and is none");
    // Items that were stored one after the other lie in one chunk, and go together.
    let gone: Vec<bool> = keys.iter().map(|key| !has(&store, key)).collect();
    let ends = gone.windows(2).filter(|pair| pair[0] != pair[1]).count();
    assert!(ends < evicted / 8, "{ends} ends of rows of {evicted} items");
}
