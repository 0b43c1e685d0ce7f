//! Numbers, as C's `strtoull` and its kin read them.
use cefrodild::number::{flags, integer, length, unsigned, write};

/// White space in C.
const BLANKS: [char; 6] = [' ', '\t', '\n', '\x0b', '\x0c', '\r'];

#[test]
fn blanks_before_and_behind() {
    for blank in BLANKS {
        for text in [
            format!("{blank}5"),
            format!("{blank}{blank}5"),
            format!("5{blank}"),
            format!("5{blank}6"),
            format!("{blank}+5{blank}x"),
        ] {
            assert_eq!(unsigned(text.as_bytes()), Some(5), "{text:?}");
            assert_eq!(integer(text.as_bytes()), Some(5), "{text:?}");
        }
        for text in [format!("{blank}"), format!("+{blank}5"), format!("-{blank}5"), format!("x{blank}5")] {
            assert_eq!((unsigned(text.as_bytes()), integer(text.as_bytes())), (None, None), "{text:?}");
        }
    }
}

#[test]
fn no_other_byte_is_skipped() {
    for byte in (0..=255).filter(|byte: &u8| !BLANKS.contains(&char::from(*byte)) && !byte.is_ascii_digit()) {
        for text in [[b'5', byte], [byte, b'5']] {
            let expected = match text {
                [b'+', b'5'] => (Some(5), Some(5)),
                [b'-', b'5'] => (None, Some(-5)),
                _ => (None, None),
            };
            assert_eq!((unsigned(&text), integer(&text)), expected, "{text:?}");
        }
    }
}

#[test]
fn signs() {
    for (text, without, with) in [
        ("0", Some(0), Some(0)),
        ("-0", Some(0), Some(0)),
        ("+0", Some(0), Some(0)),
        ("-1", None, Some(-1)),
        ("--1", None, None),
        ("+-1", None, None),
        ("", None, None),
        ("-", None, None),
        ("+", None, None),
        ("0001", Some(1), Some(1)),
    ] {
        assert_eq!((unsigned(text.as_bytes()), integer(text.as_bytes())), (without, with), "{text}");
    }
}

#[test]
fn the_largest() {
    assert_eq!(unsigned(b"18446744073709551615"), Some(u64::MAX));
    assert_eq!(unsigned(b"18446744073709551616"), None);
    assert_eq!(unsigned(b"18446744073709551620"), None);
    assert_eq!(integer(b"9223372036854775807"), Some(i64::MAX));
    assert_eq!(integer(b"9223372036854775808"), None);
    assert_eq!(integer(b"-9223372036854775807"), Some(-i64::MAX));
    assert_eq!((flags(b"4294967295"), flags(b"4294967296"), flags(b"-1")), (Some(u32::MAX), None, None));
    // With its line end a block has 2^31 - 1 bytes at most.
    assert_eq!((length(b"2147483645"), length(b"2147483646"), length(b"-1")), (Some((1 << 31) - 3), None, None));
}

#[test]
fn what_is_written_is_read_again() {
    let powers = (0..20).map(|power| 10_u64.pow(power));
    for number in powers.flat_map(|power| [power - 1, power, power + 1]).chain([u64::MAX - 1, u64::MAX]) {
        let mut text = b" ".to_vec();
        write(&mut text, number);
        assert_eq!(text, format!(" {number}").as_bytes());
    }
}
