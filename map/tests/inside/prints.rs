//! A key's two words: by default a number and its SipHash, or the two words of one SipHash; with a hasher of the user's own two hashes.
use crate::print::{mix, Print, PrintHasher, Printer};
use crate::sip::{Secret, Sip};
use crate::{Hashed, Key, Map};
use std::cell::Cell;
use std::collections::hash_map::{DefaultHasher, RandomState};
use std::collections::HashSet;
use std::hash::{BuildHasher, Hash, Hasher};
use std::num::{NonZeroI64, NonZeroU32};

thread_local!(static HASHED: Cell<u32> = const { Cell::new(0) });

/// A key that counts how often it is hashed.
struct Counted;

impl Key for Counted {
    fn write<H: Hasher>(&self, state: &mut H) {
        HASHED.set(HASHED.get() + 1);
        state.write_u64(7);
    }
}

fn times<S: BuildHasher>(map: &Map<Counted, u64, S>) -> u32 {
    let before = HASHED.get();
    let Print { key, check } = map.inner.print(&Counted);
    assert_ne!(key, check);
    HASHED.get() - before
}

#[test]
fn the_default_hashes_once_and_a_hasher_of_the_users_twice() {
    let (by_default, built) = (Map::new(10).unwrap(), Map::builder(10).shards(1).open().unwrap());
    let of_the_users = Map::builder(10).hasher(RandomState::new()).open().unwrap();
    assert_eq!((times(&by_default), times(&built), times(&of_the_users)), (1, 1, 2));
}

// The secret that a printer makes from this hasher.
fn secret_of(hasher: &RandomState) -> Secret {
    Secret(hasher.hash_one(0_u64), hasher.hash_one(1_u64))
}

#[test]
fn the_two_hashes_are_those_of_different_texts() {
    let hasher = RandomState::new();
    let (once, twice): (Printer<str, _>, Printer<str, _>) = (Printer::once(hasher.clone()), Printer::twice(hasher.clone()));
    for key in ["", "a", "seven l", "nine letters"] {
        let mut sip = Sip::new(secret_of(&hasher));
        sip.write(key.as_bytes());
        sip.take(0xff, 1);
        assert_eq!(once.print(key), print(sip.pair()));
        let (first, second) = (hasher.hash_one((0_u64, key)), hasher.hash_one((1_u64, key)));
        assert_eq!(twice.print(key), Print { key: mix(first), check: second });
    }
}

fn print((key, check): (u64, u64)) -> Print {
    Print { key, check }
}

// The bytes 0, 1, 2 and so on.
fn bytes<const COUNT: usize>() -> [u8; COUNT] {
    std::array::from_fn(|n| n as u8)
}

const SECRET: Secret = Secret(0x0706_0504_0302_0100, 0x0f0e_0d0c_0b0a_0908);

fn print_of(write: impl Fn(&mut PrintHasher)) -> Print {
    let mut state = PrintHasher::new(SECRET);
    write(&mut state);
    assert_eq!(state.finish(), state.clone().print().key);
    state.print()
}

// Those of c/tests/sip_vectors.h: the hashes of the first bytes, of none to 17.
const VECTORS: [(u64, u64); 18] = [
    (0xbea5_8827_b2bc_7ee7, 0x0130_30dd_6adb_62fd),
    (0xa8ed_d360_0437_6ffc, 0x63f0_2f2b_cc73_055e),
    (0x9b83_6905_097f_7875, 0x95ea_6a8c_54c9_5b85),
    (0x9ff7_dc1e_facc_c56b, 0x43d7_eb12_7718_2348),
    (0x5a28_2bac_714e_780c, 0x252c_bf8f_e792_8e9f),
    (0x0c62_5b34_89db_28f3, 0x3e84_9526_a429_5279),
    (0x10e7_43f7_293d_d0dc, 0xf8a6_8539_e8b0_5109),
    (0xc3e0_aaf2_23b9_8410, 0x77ab_4808_c82e_2fa6),
    (0xb4da_e3d5_e1fe_12aa, 0x99c7_f935_ab16_4f72),
    (0x9439_f32c_04b8_dd81, 0x427c_1394_000e_72f4),
    (0x898e_495d_1d54_aa4f, 0xb42f_b287_c3a4_0eba),
    (0xdb91_4455_f39a_3b72, 0x4e0c_6efc_3d63_d6b1),
    (0xa819_489e_8592_3fe5, 0x658c_ea9f_7395_06dc),
    (0x1d80_eac9_c758_f8b2, 0x4478_656d_5903_d653),
    (0x7222_c9db_6862_e787, 0x78e3_645f_66ca_b026),
    (0x6c52_bdb2_0555_7ec1, 0x0901_7e1e_eccd_2129),
    (0xeb8e_5115_57d9_a8d0, 0x9317_9e3d_f8b0_13b5),
    (0x8d66_bb3f_f926_4123, 0xecf7_bdfe_e812_5197),
];

#[test]
fn it_is_the_siphash_of_the_paper_however_the_bytes_come() {
    let all = bytes::<17>();
    for (size, vector) in VECTORS.into_iter().enumerate() {
        for (cut, other) in (0..=size).flat_map(|cut| (cut..=size).map(move |other| (cut, other))) {
            let pieces = [&all[..cut], &all[cut..other], &all[other..size]];
            assert_eq!(print_of(|state| pieces.iter().for_each(|piece| state.write(piece))), print(vector));
        }
    }
}

#[test]
fn numbers_are_hashed_as_their_bytes() {
    for before in 0..9 {
        let texts: [fn(&mut PrintHasher); 2] = [
            |state| {
                state.write_u8(0);
                state.write_u16(0x0201);
                state.write_u32(0x0605_0403);
                state.write_i64(0x0e0d_0c0b_0a09_0807);
                state.write_usize(0x1615_1413_1211_100f);
                state.write_u128(0x2625_2423_2221_201f_1e1d_1c1b_1a19_1817);
            },
            |state| state.write(&bytes::<39>()),
        ];
        let [one, other] = texts.map(|text| {
            print_of(|state| {
                state.write(&bytes::<9>()[..before]);
                text(state);
                state.write_u8(7);
            })
        });
        assert_eq!(one, other);
    }
}

// std's hasher is SipHash-1-3 with the secret 0.
#[test]
fn one_number_is_its_own_check_word_beside_its_siphash() {
    for number in [0, 1, 0xff, 0x0102_0304_0506_0708, u64::MAX] {
        let mut of_std = DefaultHasher::new();
        of_std.write_u64(number);
        let mut state = PrintHasher::new(Secret(0, 0));
        state.write_u64(number);
        assert_eq!(state.number_print(), Print { key: of_std.finish(), check: number });
    }
}

// The number of the print, as a key of the type `K` has it.
fn check_of<K: Key>(key: &K) -> u64 {
    Printer::<K, _>::once(RandomState::new()).print(key).check
}

struct Newtype(u64);
crate::key!(Newtype(number));

#[test]
fn only_numbers_of_std_are_their_own_check_words() {
    assert_eq!((check_of(&7_u64), check_of(&7_i8), check_of(&7_usize), check_of(&'a'), check_of(&true)), (7, 7, 7, 97, 1));
    assert_eq!((check_of(&-1_i16), check_of(&NonZeroU32::MIN)), (0xffff, 1));
    let seven = 7;
    let others = [check_of(&Newtype(7)), check_of(&Hashed(7_u64)), check_of(&&seven), check_of(&(seven,)), check_of(&7_u128)];
    assert_eq!(others.iter().filter(|check| **check == 7).count(), 0);
}

#[test]
fn with_a_hasher_of_the_users_a_number_is_its_own_check_word_too() {
    let hasher = RandomState::new();
    let (numbers, others) = (Printer::<i32, _>::twice(hasher.clone()), Printer::<Newtype, _>::twice(hasher));
    assert_eq!((numbers.print(&7).check, numbers.print(&-1).check), (7, 0xffff_ffff));
    assert!(numbers.print(&7).key != numbers.print(&-1).key && others.print(&Newtype(7)).check != 7);
}

fn is_number<K: Key + ?Sized>() -> bool {
    K::IS_NUMBER
}

#[test]
fn only_numbers_of_std_are_numbers() {
    assert!(is_number::<NonZeroI64>() && is_number::<u8>() && is_number::<char>());
    assert!(!is_number::<&u64>() && !is_number::<Hashed<u64>>() && !is_number::<Box<u64>>());
    assert!(!is_number::<str>() && !is_number::<[u64]>() && !is_number::<()>());
    assert!(!is_number::<Newtype>() && !is_number::<Option<u64>>() && !is_number::<u128>());
}

// A key that writes another number, or bytes, has another print. So it is a miss at worst.
#[test]
fn numbers_of_all_sizes_and_pairs_of_numbers_have_prints_of_their_own() {
    let mut prints = HashSet::new();
    for number in 0..=u8::MAX {
        let wide = u64::from(number);
        let all: [&dyn Fn(&mut PrintHasher); 8] = [
            &|state| state.write_u8(number),
            &|state| state.write_u16(number.into()),
            &|state| state.write_u32(number.into()),
            &|state| state.write_u64(wide),
            &|state| state.write_u128(wide.into()),
            &|state| state.write(&[number]),
            &|state| (number, number).hash(state),
            &|state| (wide, !wide).hash(state),
        ];
        prints.extend(all.map(|write| {
            let mut state = PrintHasher::new(SECRET);
            write(&mut state);
            let Print { key, check } = state.number_print();
            (key, check)
        }));
    }
    assert_eq!(prints.len(), 8 * 256);
}

#[test]
fn keys_that_write_other_numbers_or_more_have_prints_of_their_own() {
    let once = Printer::<Option<u64>, _>::once(RandomState::new());
    let (none, some) = (once.print(&None::<u64>), once.print(&Some(0_u64)));
    let (empty, listed) = (once.print::<[String]>(&[]), once.print(&[String::new()][..]));
    let prints = [once.print(&-1_i8), once.print(&-1_i64), once.print(&()), none, some, empty, listed];
    let prints = prints.map(|print| (print.key, print.check));
    assert_eq!(HashSet::from(prints).len(), prints.len());
}

#[test]
fn each_hash_depends_on_the_key() {
    const KEYS: u64 = 10_000;
    for printer in [Printer::<String, _>::once(RandomState::new()), Printer::twice(RandomState::new())] {
        let prints: Vec<Print> = (0..KEYS).map(|key| printer.print(&key.to_string())).collect();
        let words: HashSet<u64> = prints.iter().flat_map(|print| [print.key, print.check]).collect();
        assert_eq!(words.len() as u64, 2 * KEYS);
    }
    let (one, other) = (Printer::<str, _>::once(RandomState::new()), Printer::<str, _>::once(RandomState::new()));
    assert!(one.print("1").key != other.print("1").key && one.print("1").check != other.print("1").check);
    let (one, other) = (Printer::<i32, _>::once(RandomState::new()), Printer::<i32, _>::once(RandomState::new()));
    assert_ne!(one.print(&1).key, other.print(&1).key);
}
