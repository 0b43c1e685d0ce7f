//! A value comes back as it was put, whatever its size, alignment and padding.
use cefrodil_map::Map;
use std::fmt::Debug;
use std::time::Duration;

fn comes_back<V: Copy + Debug + PartialEq + Send + Sync + 'static>(map: &Map<u64, V>, one: V, two: V) {
    map.insert(&1, one).unwrap();
    map.insert(&2, two).unwrap();
    assert_eq!((map.get(&1), map.get(&2), map.get(&3)), (Some(one), Some(two), None));
    assert_eq!(map.update(&1, |_| two), Ok(two));
    assert_eq!((map.remove(&1), map.get(&1), map.get(&2)), (Ok(Some(two)), None, Some(two)));
    assert_eq!((map.get_or_insert_with(&4, || one), map.get(&4)), (one, Some(one)));
}

fn plain<V: Copy + Debug + PartialEq + Send + Sync + 'static>(one: V, two: V) {
    comes_back(&Map::new(10).unwrap(), one, two);
}

fn both<V: Copy + Debug + PartialEq + Send + Sync + 'static>(one: V, two: V) {
    plain(one, two);
    comes_back(&Map::builder(10).time_to_live(Duration::from_secs(1_000)).open().unwrap(), one, two);
}

// No two bytes in reach of each other are the same.
fn bytes<const SIZE: usize>(first: u8) -> [u8; SIZE] {
    std::array::from_fn(|n| first + 3 * n as u8)
}

macro_rules! sizes {
    ($how:ident: $($size:literal)*) => {
        $($how(bytes::<$size>(1), bytes::<$size>(2));)*
    };
}

#[test]
fn each_size_comes_back() {
    sizes!(both: 0 1 2 3 4 5 6 7 8 9 10 11 12 13 14 15 16 17 18 19 20 21 22 23 24 25 26 27 28 29 30 31 32 33 34 35 36 37 38 39 40);
    sizes!(both: 41 42 43 44 45 46 47 48);
    sizes!(plain: 49 50 51 52 53 54 55 56);
}

#[derive(Clone, Copy, Debug, PartialEq)]
#[repr(C)]
struct Padded {
    small: u8,
    large: u64,
    middle: u16,
    other: Option<u32>,
}

#[derive(Clone, Copy, Debug, PartialEq)]
#[repr(align(32))]
struct Aligned(u64);

#[test]
fn padding_and_alignment_do_not_matter() {
    assert_eq!(size_of::<Padded>(), 32);
    both(
        Padded { small: 1, large: u64::MAX, middle: 2, other: None },
        Padded { small: 255, large: 0, middle: 3, other: Some(4) },
    );
    both(Aligned(1), Aligned(2));
    both((1_u8, 2_u128), (255, u128::MAX - 1));
    both((1.5, true, 'x'), (-0.5, false, '\u{10ffff}'));
    both((), ());
}

#[test]
fn references_come_back() {
    both("a text that stays", "");
    both(Some(&7_u64), None);
    let made: &'static [u64] = Box::leak(vec![1, 2, 3].into_boxed_slice());
    both(made, &[]);
    both(u32::count_ones as fn(u32) -> u32, u32::trailing_zeros);
}

#[test]
fn a_map_is_filled_from_an_iterator() {
    let mut map: Map<u64, u64> = (0..200).map(|key| (key, key + 1)).collect();
    let kept = (0..200).filter(|key| map.get(key) == Some(key + 1)).count() as u64;
    assert_eq!((kept + map.stats().evicted, map.stats().refused, map.capacity() >= 200), (200, 0, true));
    map.extend([(3, 30), (3, 31)]);
    assert_eq!((map.get(&3), Map::<u64, u64>::from_iter([(0_u64, 0); 0]).len()), (Some(31), 0));
}

#[test]
fn a_set_needs_no_value() {
    let seen = Map::<str, ()>::new(100).unwrap();
    seen.insert("one", ()).unwrap();
    assert!(seen.contains_key("one") && !seen.contains_key("two"));
}
