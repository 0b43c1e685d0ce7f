//! No key has another key's value if each writes all that it is compared by: whatever it writes that in. A key that writes less is for a map that
//! compares keys.
use cefrodil_map::{key, Hashed, Key, Map};
use std::borrow::{Borrow, Cow};
use std::cmp::Reverse;
use std::collections::HashSet;
use std::fmt::Debug;
use std::hash::{Hash, Hasher};
use std::num::Wrapping;
use std::path::Path;
use std::rc::Rc;
use std::sync::Arc;

const KEYS: u64 = 30_000;

/// Written as one number, made of both.
#[derive(Clone, Copy, PartialEq, Eq)]
struct Halves {
    high: u32,
    low: u32,
}

impl Key for Halves {
    fn write<H: Hasher>(&self, state: &mut H) {
        state.write_u64(u64::from(self.high) << 32 | u64::from(self.low));
    }
}

#[derive(Clone, Copy, PartialEq, Eq)]
struct Pair(u32, u32);
key!(Pair(one, other));

#[derive(Clone, Copy, PartialEq, Eq)]
struct Id(u64);
key!(Id(number));

#[derive(Clone, PartialEq, Eq)]
struct Page {
    user: u64,
    path: Option<String>,
}
key!(Page { user, path });

#[derive(Clone, PartialEq, Eq)]
enum Owner<'a, N> {
    Nobody,
    Everybody,
    User(N),
    Group { name: &'a str, number: N },
}
key!(enum Owner<'a, N> { Nobody, Everybody, User(number), Group { name, number } });

struct Edge<A, B> {
    from: A,
    to: B,
}
key!(Edge<A, B> { from, to });

struct Unit;
key!(Unit);

impl Borrow<u64> for Id {
    fn borrow(&self) -> &u64 {
        &self.0
    }
}

/// Writes one number in one case, and two in the other.
#[derive(Clone, Copy, PartialEq, Eq)]
enum Place {
    Near(u64),
    Far(u64, u64),
}

impl Key for Place {
    fn write<H: Hasher>(&self, to: &mut H) {
        match *self {
            Place::Near(place) => to.write_u64(place),
            Place::Far(place, road) => (place, road).write(to),
        }
    }
}

/// Writes a number in as few bytes as it has.
#[derive(Clone, Copy, PartialEq, Eq)]
struct Short(u64);

impl Key for Short {
    fn write<H: Hasher>(&self, state: &mut H) {
        match *self {
            Short(number @ 0..0x100) => state.write_u8(number as u8),
            Short(number @ 0x100..0x1_0000) => state.write_u16(number as u16),
            Short(number) => state.write_u32(number as u32),
        }
    }
}

// Puts a value for each key, in a map that has no room for half of them. Each lookup finds the key's own value, or none.
fn all_have_their_own_values<K: Key>(key_of: impl Fn(u64) -> K) {
    let map = Map::<K, u64>::new(KEYS as usize / 2).unwrap();
    for number in 0..KEYS {
        assert_eq!(map.get(&key_of(number)), None);
        map.insert(&key_of(number), number).unwrap();
        assert_eq!(map.get(&key_of(number)), Some(number));
    }
    let found: Vec<u64> = (0..KEYS).filter(|number| map.get(&key_of(*number)).is_some_and(|value| value == *number)).collect();
    let hits = map.stats().hits;
    assert_eq!(hits, KEYS + found.len() as u64);
    assert!(found.len() > KEYS as usize / 4);
}

fn owner(number: u64) -> Owner<'static, u64> {
    match number {
        0 => Owner::Nobody,
        1 => Owner::Everybody,
        _ if number % 3 == 0 => Owner::User(number),
        _ => Owner::Group { name: if number % 3 == 1 { "a" } else { "" }, number: number / 3 },
    }
}

#[test]
fn keys_that_write_all_have_their_own_values() {
    all_have_their_own_values(|number| number);
    all_have_their_own_values(|number| number as i32 - 1000);
    all_have_their_own_values(Id);
    all_have_their_own_values(|number| Halves { high: number as u32 % 300, low: number as u32 / 300 });
    all_have_their_own_values(|number| Page { user: number, path: (number % 2 > 0).then(|| "/".into()) });
    all_have_their_own_values(|number| Hashed((number % 300, number / 300)));
    all_have_their_own_values(|number| Pair(number as u32 % 300, number as u32 / 300));
    all_have_their_own_values(|number| [number % 300, number / 300]);
    all_have_their_own_values(|number| if number % 2 == 0 { Place::Near(number) } else { Place::Far(number - 1, 0) });
    all_have_their_own_values(Short);
    all_have_their_own_values(owner);
    all_have_their_own_values(|number| Edge { from: number % 300, to: (number / 300).to_string() });
    all_have_their_own_values(|number| number.to_string());
    all_have_their_own_values(|number| Some(number).filter(|number| *number > 0));
}

// A lookup by what a key is borrowed as goes the way of the key.
#[test]
fn a_key_is_found_by_what_it_is_borrowed_as() {
    let ids = Map::<Id, u64>::new(100).unwrap();
    ids.insert(&Id(1), 10).unwrap();
    ids.insert(&2_u64, 20).unwrap();
    assert_eq!((ids.get(&Id(1)), ids.get(&1_u64)), (Some(10), Some(10)));
    assert_eq!((ids.get(&Id(2)), ids.get(&2_u64)), (Some(20), Some(20)));
    assert_eq!((ids.remove(&1_u64), ids.remove(&Id(2))), (Ok(Some(10)), Ok(Some(20))));
    assert_eq!(print(&Id(1)), print(&1_u64));
    let boxed = Map::<Box<u64>, u64>::new(100).unwrap();
    boxed.insert(&3_u64, 30).unwrap();
    assert_eq!((boxed.get(&Box::new(3)), boxed.get(&3_u64)), (Some(30), Some(30)));
}

fn finds<'a>(names: &[&'a str], numbers: &[&'a u64]) {
    let (by_name, by_number) = (Map::<&'a str, usize>::new(100).unwrap(), Map::<&'a u64, usize>::new(100).unwrap());
    names.iter().enumerate().for_each(|(place, name)| _ = by_name.insert(name, place).unwrap());
    numbers.iter().enumerate().for_each(|(place, number)| _ = by_number.insert(number, place).unwrap());
    assert!(names.iter().enumerate().all(|(place, name)| by_name.get(name) == Some(place)));
    assert!(numbers.iter().enumerate().all(|(place, number)| by_number.get(number) == Some(place)));
}

#[test]
fn a_key_may_borrow() {
    let (text, number) = (String::from("one"), 1);
    finds(&[text.as_str(), "two"], &[&number, &2]);
}

/// Keeps the contract of `Hash`, and writes less than it is compared by.
#[derive(Clone, PartialEq, Eq, Debug)]
struct Name(String);

impl Hash for Name {
    fn hash<H: Hasher>(&self, state: &mut H) {
        state.write_u32(self.0.len() as u32);
    }
}

// How many keys of these the map knows apart.
fn told_apart<K: Key>(keys: &[K]) -> usize {
    let map = Map::<K, usize>::new(100).unwrap();
    keys.iter().enumerate().for_each(|(place, key)| _ = map.insert(key, place).unwrap());
    keys.iter().filter_map(|key| map.get(key)).collect::<HashSet<usize>>().len()
}

// The page of `Hashed` says so, and points to `ObjectMap`.
#[test]
fn a_map_takes_keys_for_one_that_write_the_same() {
    assert_eq!(told_apart(&[Hashed(Name("ann".into())), Hashed(Name("bob".into()))]), 1);
    assert_eq!(told_apart(&[Hashed(Path::new("/a")), Hashed(Path::new("a"))]), 1);
    assert_eq!(told_apart(&["/a", "a"]), 2);
}

/// Keeps all that is written.
#[derive(Default)]
struct Written(Vec<u8>);

impl Hasher for Written {
    fn write(&mut self, bytes: &[u8]) {
        self.0.extend(bytes);
    }

    fn finish(&self) -> u64 {
        unreachable!("nobody asks")
    }
}

fn print<K: Key + ?Sized>(key: &K) -> Vec<u8> {
    let mut written = Written::default();
    key.write(&mut written);
    written.0
}

#[test]
fn keys_write_what_they_are_borrowed_as() {
    assert_eq!(print(&String::from("one")), print("one"));
    assert_eq!((print(&vec![1, 2]), print(&[1, 2])), (print(&[1, 2][..]), print(&[1, 2][..])));
    let pointers =
        [print(&Box::new(7)), print(&Rc::new(7)), print(&Arc::new(7)), print(&Cow::Borrowed(&7)), print(&&7), print(&&mut 7)];
    assert!(pointers.iter().all(|written| *written == print(&7)));
    assert_eq!(print::<Box<[u8]>>(&Box::from([1, 2])), print(&[1_u8, 2][..]));
}

#[test]
fn no_key_writes_what_another_begins_with() {
    let lists: [&[&str]; 5] = [&[], &[""], &["a"], &["a", "b"], &["ab"]];
    let all = [
        lists.map(print::<[&str]>).to_vec(),
        [None, Some(0), Some(1)].map(|key: Option<u8>| print(&key)).to_vec(),
        [Ok(1), Err(1), Err(2)].map(|key: Result<u8, u8>| print(&key)).to_vec(),
        [("a", "bc"), ("ab", "c"), ("", "abc")].map(|key| print(&key)).to_vec(),
        (0..20).map(|number| print(&owner(number))).collect(),
        [("a", "bc"), ("ab", "c")].map(|(from, to)| print(&Edge { from, to })).to_vec(),
        vec![print(&Unit)],
        [[1, 2], [2, 1]].map(|[one, other]| print(&(Wrapping(one), Reverse(other)))).to_vec(),
    ];
    for written in all {
        let starts_another = |one: &Vec<u8>| written.iter().filter(|other| other.starts_with(one)).count() > 1;
        assert!(!written.iter().any(starts_another), "{written:?}");
    }
}

#[cfg(feature = "objects")]
#[test]
fn a_map_that_compares_keys_does_not() {
    let (ann, bob) = (Name("ann".into()), Name("bob".into()));
    let map = cefrodil_map::ObjectMap::<Name, u64>::new(100).unwrap();
    map.insert(ann.clone(), 41).unwrap();
    assert_eq!((map.get(&ann), map.get(&bob), map.remove(&bob)), (Some(41), None, Ok(None)));
    let paths = cefrodil_map::ObjectMap::<std::path::PathBuf, u64>::new(100).unwrap();
    paths.insert("/a".into(), 1).unwrap();
    assert_eq!((paths.get(Path::new("/a")), paths.get(Path::new("a"))), (Some(1), None));
}
