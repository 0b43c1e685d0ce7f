//! What clients hold takes no room of items away. It is the only test of its process, whose memory it looks at.
mod plain;
use cefrodild::counts::Count;
use cefrodild::request::How;
use plain::client::{exceed, map_store, order, MEGABYTE};

#[test]
fn buffers_take_no_room_of_items() {
    let store = map_store(0, "-t1");
    // As if the process took so much for buffers.
    let most = exceed(&store, 64 * MEGABYTE);
    let mut seat = store.seats.take(0).expect("a seat is free");
    seat.count(1 << 40);
    let set = |key: &[u8]| {
        assert!(store.store(&order(How::Set, key, MEGABYTE), &vec![b'x'; MEGABYTE]).is_ok());
        store.tidy_up();
    };
    (0..10).for_each(|key: u8| set(&[b'a' + key]));
    let limit = || store.books.budget.limit();
    assert!(limit() > most / 2 && store.books.counts.get(Count::Evicted) == 0, "{} of {most}", limit());
    // Nothing is held any more, so the process exceeds its limit.
    seat.count(0);
    set(b"last");
    assert!(limit() < most / 2, "{} of {most}", limit());
}
