//! What the index writes into the log: each change and each answer, in order.
use cefrodil_map::Reason;
use cefrodild::audit::{digest, Audit};
use cefrodild::books::Books;
use cefrodild::counts::Count;
use cefrodild::index::{Index, Over, Refused};
use cefrodild::item::{new_item, NewItem};
use cefrodild::map_index::MapIndex;
use cefrodild::options::Options;
use std::fs;
use std::path::PathBuf;
use std::process::id;
use std::sync::Arc;

/// An index with a log, and the path of that.
struct Logged {
    index: MapIndex,
    log: Arc<Audit>,
    books: Arc<Books>,
    path: PathBuf,
}

/// The words of a line: its kind, its moment, and the others.
type Line = (String, u64, Vec<u64>);

fn item(key: &[u8], flags: u32) -> NewItem {
    new_item(1, flags, u64::MAX, key, &[]).expect("there is memory")
}

impl Logged {
    fn new(test: &str, items: usize) -> Logged {
        let path = std::env::temp_dir().join(format!("cefrodild-{}-{test}", id()));
        let log = Arc::new(Audit::create(path.to_str().expect("it is text")).expect("it can be made"));
        let books = Arc::new(Books::new(0, &Options::default()));
        let index = MapIndex::open(items, 1, &books, Some(Arc::clone(&log))).expect("there is memory");
        Logged { index, log, books, path }
    }

    fn put(&self, key: &[u8], flags: u32) -> u64 {
        self.index.put(item(key, flags), Over::Any).expect("there is room")
    }

    /// The lines but for the head. This ends the log.
    fn lines(self) -> Vec<Line> {
        self.log.end().expect("there is room");
        let text = fs::read_to_string(&self.path).expect("it is there");
        fs::remove_file(&self.path).expect("it is there");
        let line = |line: &str| {
            let (kind, numbers) = line.split_once(' ').expect(line);
            let numbers: Vec<u64> = numbers.split(' ').map(|number| number.parse().expect(line)).collect();
            (kind.to_owned(), numbers[0], numbers[1..].to_vec())
        };
        text.lines().skip(1).map(line).collect()
    }
}

#[test]
fn each_call_has_its_line() {
    let logged = Logged::new("calls", 100);
    let (index, key) = (&logged.index, b"key".as_slice());
    let hash = index.hash_of(key);
    let look = || index.look(&[key], &mut |_, seen| assert!(seen.is_ok()));
    look();
    let first = logged.put(key, 1);
    look();
    let second = index.put(item(key, 2), Over::Token(first)).expect("it has this token");
    look();
    let third = index.remove(hash, second, Reason::Removed).expect("it has this token");
    assert_eq!(index.remove(hash, second, Reason::Removed), Err(Refused::Absent));
    assert_eq!(index.put(item(key, 3), Over::Token(second)), Err(Refused::Absent));
    let fourth = index.put(item(key, 4), Over::Nothing).expect("it was absent");
    let mut evicted = None;
    assert!(index.evict(&mut |item| evicted = Some(item.flags)) && evicted == Some(4));
    assert!(!index.evict(&mut |_| panic!("there is none")));
    let fifth = fourth + 1;
    let line = |kind: &str, at, more: &[u64]| (kind.to_owned(), at, more.to_vec());
    let digest = |flags| digest(&item(key, flags));
    let expected = [
        line("absent", first - 1, &[hash]),
        line("put", first, &[hash, digest(1)]),
        line("found", first, &[first, hash, digest(1)]),
        line("put", second, &[hash, digest(2)]),
        line("found", second, &[second, hash, digest(2)]),
        line("remove", third, &[hash]),
        line("absent", third, &[hash]),
        line("absent", third, &[hash]),
        line("put", fourth, &[hash, digest(4)]),
        line("evict", fifth, &[hash]),
    ];
    assert_eq!(logged.lines(), expected);
}

#[test]
fn each_eviction_has_its_line() {
    let logged = Logged::new("evictions", 100);
    let keys = 2 * logged.index.capacity();
    for number in 0..keys {
        logged.put(number.to_string().as_bytes(), 1);
    }
    let (evicted, lines) = (logged.books.counts.get(Count::Evicted), logged.lines());
    let evictions = lines.iter().filter(|(kind, ..)| kind == "evict").count();
    assert!(evicted > 0);
    assert_eq!((evictions as u64, lines.len()), (evicted, keys + evictions));
    // Each change has the next moment.
    assert!(lines.iter().zip(&lines[1..]).all(|((_, at, _), (_, next, _))| at + 1 == *next), "{lines:?}");
}

#[test]
fn what_changed_nothing_is_not_in_the_log() {
    let logged = Logged::new("nothing", 100);
    let token = logged.put(b"key", 1);
    assert_eq!(logged.index.put(item(b"key", 2), Over::Nothing), Err(Refused::Changed));
    assert_eq!(logged.index.put(item(b"key", 2), Over::Token(token + 1)), Err(Refused::Changed));
    assert_eq!(logged.index.remove(logged.index.hash_of(b"key"), token + 1, Reason::Removed), Err(Refused::Changed));
    let lines = logged.lines();
    assert_eq!(lines.iter().map(|(kind, ..)| kind.as_str()).collect::<Vec<_>>(), ["put"]);
}
