//! Memory that the system refuses: each allocation in turn, and all for a while. Clients get an error or are cut off, and the server goes on. The index is the
//! real one.
mod plain;
mod refusing;
use cefrodild::connection::Next;
use cefrodild::counts::Count;
use cefrodild::item::new_item;
use cefrodild::store::Store;
use cefrodild::worker::Worker;
use plain::both::Both;
use plain::client::map_store;
use refusing::{refusing, set_up, ALLOCATOR};
use std::alloc::{GlobalAlloc, Layout};
use std::io::{ErrorKind, Read, Write};
use std::sync::Arc;
use std::thread::yield_now;
use std::time::{Duration, Instant};

fn store() -> Store {
    map_store(1 << 20, "-t1")
}

/// Sends this in parts, and reads what it is answered to this place. Returns how many bytes that has, or `None` if the connection has ended.
fn ask(both: &mut Both, store: &Store, mut bytes: &[u8], answer: &mut [u8]) -> Option<usize> {
    let mut read = 0;
    loop {
        let part = bytes.len().min(50_000);
        match both.stream.write(&bytes[..part]) {
            Ok(length) => bytes = &bytes[length..],
            Err(why) => assert_eq!(why.kind(), ErrorKind::WouldBlock),
        }
        if !matches!(both.turns(store), Ok(Next::Event)) {
            return None;
        }
        match both.stream.read(&mut answer[read..]) {
            Ok(length) => read += length,
            Err(_) if bytes.is_empty() => return Some(read),
            Err(_) => {}
        }
    }
}

/// What a client asks, and is answered unless memory is refused. An answer that is empty can be any.
struct Step {
    command: Vec<u8>,
    answer: Vec<u8>,
}

fn step(command: &str, answer: &str) -> Step {
    let bytes = |text: &str| text.replace('\n', "\r\n").into_bytes();
    Step { command: bytes(command), answer: bytes(answer) }
}

const NO_MEMORY: &[u8] = b"SERVER_ERROR out of memory storing object\r\n";

fn script() -> Vec<Step> {
    let (large, small) = ("l".repeat(200_000), "s".repeat(5_000));
    // The chunks of small items have no such ones.
    let sets: String = (0..100).map(|key| format!("set {key} 0 0 1500 noreply\n{}\n", "x".repeat(1_500))).collect();
    vec![
        step("delete n\ndelete l\ndelete s\n", ""),
        step(&format!("set l 0 0 {}\n{large}\n", large.len()), "STORED\n"),
        step(&format!("get l\nset s 0 100 {0}\n{small}\nget s\n", small.len()), ""),
        step("set n 0 0 1\n5\n", "STORED\n"),
        step("incr n 5\nappend n 0 0 1\n7\nget n\n", ""),
        step("ms m 2 T50\nab\nma m2 N0 J7 v\nmg m v t c k s f\n", ""),
        step("stats\nstats items\nstats slabs\nstats conns\nlru_crawler metadump all\nstats cachedump 1 0\n", ""),
        step("gat 5 n l s\ntouch n 7\ndelete s\nget s l\n", ""),
        step(&sets, ""),
    ]
}

/// What came of a script.
#[derive(Debug, Default)]
struct Ran {
    cut_off: usize,
    no_memory: usize,
}

/// Carries the script out, with some refusals. Returns what came of it, and whether an allocation was refused.
fn run(store: &Store, script: &[Step], first: usize, refused: usize) -> (Ran, bool) {
    let mut room = vec![0; 700_000];
    let before = store.books.counts.get(Count::NoBuffers);
    let (ran, was_refused) = refusing(first, refused, || {
        let (mut client, mut ran) = (Both::of(store), Ran::default());
        for Step { command, answer } in script {
            let Some(length) = ask(&mut client, store, command, &mut room) else {
                ran.cut_off += 1;
                client = Both::of(store);
                continue;
            };
            let told = &room[..length];
            ran.no_memory += usize::from(told == NO_MEMORY);
            assert!(answer.is_empty() || told == answer || told == NO_MEMORY, "{}", told.escape_ascii());
        }
        store.expire();
        store.index.sweep();
        ran
    });
    assert_eq!(store.books.counts.get(Count::NoBuffers) - before, ran.cut_off as u64);
    (ran, was_refused)
}

/// What any store can do that has memory.
fn ordinary() -> Vec<Step> {
    let value = "v".repeat(100_000);
    vec![
        step(&format!("set l 0 0 {}\n{value}\n", value.len()), "STORED\n"),
        step("get l\n", &format!("VALUE l 0 {}\n{value}\nEND\n", value.len())),
        step("set n 0 0 1\n5\nincr n 1\n", "STORED\n6\n"),
    ]
}

/// All goes well again.
fn assert_well(store: &Store, ordinary: &[Step]) {
    let mut client = Both::of(store);
    let mut room = vec![0; 400_000];
    for Step { command, answer } in ordinary {
        let length = ask(&mut client, store, command, &mut room).expect("it goes on");
        assert!(room[..length] == answer[..]);
    }
    assert!(store.books.budget.buffers() == 0, "{}", store.books.budget.buffers());
}

/// Runs the script again and again, with refusals from each allocation on. Returns how many allocations it makes, and what came of all runs.
fn run_with_each(refused: usize) -> (usize, Ran) {
    let (store, script, ordinary) = (store(), script(), ordinary());
    let (ran, was_refused) = run(&store, &script, usize::MAX, 0);
    assert!(ran.cut_off == 0 && ran.no_memory == 0 && !was_refused, "{ran:?}");
    let mut all = Ran::default();
    for first in 0.. {
        let (ran, was_refused) = run(&store, &script, first, refused);
        assert_well(&store, &ordinary);
        if !was_refused {
            return (first, all);
        }
        all.cut_off += ran.cut_off;
        all.no_memory += ran.no_memory;
    }
    unreachable!("a script has an end")
}

#[test]
fn each_allocation_of_a_script_is_refused() {
    let _turn = set_up();
    let (first, all) = run_with_each(1);
    assert!(first > 100 && all.no_memory == 0 && all.cut_off < 10, "items give way, and it is asked again: {first} {all:?}");
}

#[test]
fn so_are_twenty_in_a_row() {
    let _turn = set_up();
    let (_, all) = run_with_each(20);
    assert!(all.no_memory > 3 && all.cut_off < 100, "{all:?}");
}

#[test]
fn all_allocations_are_refused_for_a_while() {
    let _turn = set_up();
    let (store, script, ordinary) = (store(), script(), ordinary());
    for first in 0..30 {
        assert!(run(&store, &script, first, 200).1);
        assert_well(&store, &ordinary);
    }
}

/// The system may refuse memory just when items are freed.
#[test]
fn items_are_freed_without_more_memory() {
    let _turn = set_up();
    let (large, small) = (vec![0; 2_000], vec![0; 500]);
    let item = |number: usize, value: &[u8]| new_item(1, 0, 0, &number.to_le_bytes(), &[value]);
    let mut items = Vec::with_capacity(30_000);
    // One that lies in no chunk takes its own block first. Then two lists may grow, of which the second one can't, though it asks twice.
    items.extend((0..3_000).filter_map(|number| refusing(2, 2, || item(number, &large)).0));
    items.extend((0..20_000).filter_map(|number| item(number, &small)));
    assert!(items.len() > 22_000, "{}", items.len());
    assert!(!refusing(0, 1_000, || drop(items)).1);
}

/// Its clients have sent commands before it begins, and it ends when they are answered.
#[test]
fn each_allocation_of_a_worker_is_refused() {
    let _turn = set_up();
    let store = Arc::new(store());
    let mut was_refused = true;
    for first in 0.. {
        if !was_refused {
            break;
        }
        let clients: Vec<_> = (0..40).map(|_| Both::of(&store)).collect();
        let (worker, inbox) = Worker::new(Arc::clone(&store)).expect("there is memory");
        let mut streams = Vec::with_capacity(clients.len());
        let (result, refused) = refusing(first, 1, || {
            for Both { connection, mut stream } in clients {
                stream
                    .write_all(b"set k 0 0 2000\r\n")
                    .and_then(|()| stream.write_all(&[b'x'; 2_000]))
                    .expect("it takes a command");
                stream.write_all(b"\r\n").expect("it takes a command");
                // If it fails, the client has gone.
                let _ = inbox.hand(connection);
                streams.push(stream);
            }
            drop(inbox);
            worker.run(0)
        });
        assert!(result.is_ok(), "{result:?}");
        let stored = streams.iter_mut().map(|stream| stream.read(&mut [0; 100])).filter(|read| matches!(read, Ok(8))).count();
        assert!(stored >= 39 - 30 * usize::from(refused), "{stored}");
        assert_eq!(store.seats.taken(), 0);
        was_refused = refused;
    }
}

/// The reserve has a megabyte. The thread of another test may have some of it until it has ended.
#[test]
fn the_reserve_begins_anew_when_none_of_it_is_taken() {
    let _turn = set_up();
    let (layout, end) = (Layout::new::<[u64; 12_500]>(), Instant::now() + Duration::from_secs(10));
    let is_taken = |_| {
        // SAFETY: the layout is not empty.
        let (block, is_refused) = refusing(0, 1, || unsafe { ALLOCATOR.alloc(layout) });
        if !block.is_null() {
            // SAFETY: it was just taken.
            unsafe { ALLOCATOR.dealloc(block, layout) };
        }
        is_refused && !block.is_null()
    };
    while !(0..50).all(is_taken) {
        assert!(Instant::now() < end, "it does not begin anew");
        yield_now();
    }
}

/// Its client may send no more before it is answered. What comes first has the worker's buffer, what comes next has one of its own, which grows.
#[test]
fn who_sends_a_value_that_can_not_be_kept_is_told_at_once() {
    let _turn = set_up();
    for parts in [&[20_000][..], &[100_000, 50_000]] {
        let (store, mut room, mut left) = (store(), [0; 100], 200_000);
        let mut both = Both::of(&store);
        both.stream.write_all(b"set a 0 0 200000\r\n").expect("it takes a command");
        for (number, part) in parts.iter().enumerate() {
            both.stream.write_all(&vec![b'x'; *part]).expect("it takes a part");
            left -= part;
            let is_last = number + 1 == parts.len();
            let (next, was_refused) = refusing(if is_last { 0 } else { usize::MAX }, usize::MAX, || both.turns(&store));
            assert!(was_refused == is_last && matches!(next, Ok(Next::Event)), "{next:?}");
        }
        let length = both.stream.read(&mut room).expect("there is an answer");
        assert_eq!(&room[..length], NO_MEMORY);
        assert_eq!(both.ask(&store, &[&vec![b'x'; left][..], b"\r\nmn\r\n"].concat()), b"MN\r\n");
    }
}
