//! Command lines, as memcached's protocol.txt describes them.
mod plain;
use cefrodild::meta::Verb;
use cefrodild::request::{parse, Change, How, Keys, Order, Request};
use plain::draw::Draw;

fn read(line: &str) -> Request<'_> {
    parse(line.as_bytes(), Box::leak(Box::default())).0.unwrap_or_else(|why| panic!("{line}: {}", why.text))
}

fn refused(line: &str) -> &'static str {
    parse(line.as_bytes(), &mut Vec::new()).0.expect_err(line).text
}

fn stored<'a>(how: How, compare: Option<u64>) -> Request<'a> {
    Request::Store(Order { how, key: b"key", flags: 7, expiry: -1, length: 5, compare, ..Order::default() })
}

#[test]
fn commands_that_store() {
    assert_eq!(read("set key 7 -1 5"), stored(How::Set, None));
    assert_eq!(read("add key 7 -1 5"), stored(How::Add, None));
    assert_eq!(read("replace key 7 -1 5 noreply"), stored(How::Replace, None));
    assert_eq!(read("append key 7 -1 5"), stored(How::Append, None));
    assert_eq!(read("  prepend  key 7 -1 5 "), stored(How::Prepend, None));
    assert_eq!(read("cas key 7 -1 5 18446744073709551615"), stored(How::Set, Some(u64::MAX)));
    assert_eq!(read("cas key 7 -1 5 9 noreply"), stored(How::Set, Some(9)));
}

#[test]
fn commands_of_one_key() {
    assert_eq!(read("delete key"), Request::Delete(b"key"));
    assert_eq!(read("delete key 0"), Request::Delete(b"key"));
    assert_eq!(read("delete key 0 noreply"), Request::Delete(b"key"));
    assert_eq!(read("incr key 18446744073709551615"), Request::Change(b"key", Change::Add(u64::MAX)));
    assert_eq!(read("decr key 1 noreply"), Request::Change(b"key", Change::Subtract(1)));
    assert_eq!(read("touch key 60"), Request::Touch(b"key", 60));
}

#[test]
fn commands_of_keys() {
    assert_eq!(read("get a b"), Request::Keys(Keys { with_token: false, expiry: None }, 3));
    assert_eq!(read("gets a"), Request::Keys(Keys { with_token: true, expiry: None }, 4));
    assert_eq!(read("gat 30 a"), Request::Keys(Keys { with_token: false, expiry: Some(30) }, 6));
    assert_eq!(read(" gats  -1 a"), Request::Keys(Keys { with_token: true, expiry: Some(-1) }, 9));
}

#[test]
fn commands_without_a_key() {
    assert_eq!(read("flush_all"), Request::Flush(0));
    assert_eq!(read("flush_all noreply"), Request::Flush(0));
    assert_eq!(read("flush_all 30 noreply"), Request::Flush(30));
    assert_eq!(read("stats"), Request::Stats(b""));
    assert_eq!(read("stats items"), Request::Stats(b"items"));
    assert_eq!(read("version"), Request::Version);
    assert_eq!(read("verbosity 1"), Request::Verbosity);
    assert_eq!(read("quit"), Request::Quit);
    assert_eq!(read("mn"), Request::NoOperation);
}

#[test]
fn lines_that_are_no_command() {
    for line in
        ["", " ", "x", "get", "gets ", "GET k", "set k 0 0", "set k 0 0 1 noreply more", "cas k 0 0 1", "incr k", "mx k", "mg"]
    {
        assert_eq!(refused(line), "ERROR", "{line}");
    }
    assert_eq!(refused("gat 10extra"), "CLIENT_ERROR invalid exptime argument");
}

#[test]
fn words_that_are_wrong() {
    let long = "k".repeat(251);
    for line in [
        "set k x 0 1",
        "set k 0 x 1",
        "set k 0 0 x",
        "set k 0 0 -1",
        "set k -1 0 1",
        "cas k 0 0 1 x",
        "verbosity x",
        &format!("set {long} 0 0 1"),
        &format!("delete {long}"),
        &format!("incr {long} 1"),
        &format!("touch {long} 1"),
        &format!("mg {long}"),
    ] {
        assert_eq!(refused(line), "CLIENT_ERROR bad command line format", "{line}");
    }
    assert_eq!(read(&format!("delete {}", &long[1..])), Request::Delete(&long.as_bytes()[1..]));
    assert_eq!(refused("incr k -1"), "CLIENT_ERROR invalid numeric delta argument");
    assert_eq!(refused("touch k x"), "CLIENT_ERROR invalid exptime argument");
    assert_eq!(refused("delete k 1"), "CLIENT_ERROR bad command line format.  Usage: delete <key> [noreply]");
}

#[test]
fn of_two_faults_the_first_one_is_told() {
    let long = "k".repeat(251);
    for line in
        ["incr KEY x", "decr KEY -1", "touch KEY x", "set KEY x 0 1", "cas KEY 0 0 1 x", "mg KEY Tx", "ms KEY x", "delete KEY"]
    {
        assert_eq!(refused(&line.replace("KEY", &long)), "CLIENT_ERROR bad command line format", "{line}");
    }
    // The time of `delete` comes before its key, and so does that of `gat`.
    assert!(refused(&format!("delete {long} 1")).contains("Usage"));
    assert_eq!(refused(&format!("gat x {long}")), "CLIENT_ERROR invalid exptime argument");
}

#[test]
fn the_largest_numbers() {
    let Request::Store(order) = read("cas k 4294967295 9223372036854775807 2147483645 18446744073709551615") else { panic!() };
    assert_eq!((order.flags, order.expiry, order.compare), (u32::MAX, i64::MAX, Some(u64::MAX)));
    // With its line end the block has 2^31 - 1 bytes.
    assert_eq!(order.length, (1 << 31) - 3);
    for line in [
        "set k 4294967296 0 1",
        "set k 0 9223372036854775808 1",
        "set k 0 0 2147483646",
        "cas k 0 0 1 18446744073709551616",
        "cas k 0 0 1 99999999999999999999",
        "ms k 2147483646",
        "ms k 1 F4294967296",
    ] {
        assert_eq!(refused(line), "CLIENT_ERROR bad command line format", "{line}");
    }
    assert_eq!(refused("incr k 18446744073709551616"), "CLIENT_ERROR invalid numeric delta argument");
}

#[test]
fn meta_commands() {
    let Request::Meta(get) = read("mg key v q k Oabc T30") else { panic!() };
    assert_eq!(
        (get.verb, get.order.key, get.is_quiet, get.with_value, get.expiry),
        (Verb::Get, &b"key"[..], true, true, Some(30))
    );
    let Request::Meta(set) = read("ms key 5 F7 T-1 MA C9") else { panic!() };
    assert_eq!(
        (set.verb, set.order.length, set.order.flags, set.order.expiry, set.order.how, set.order.compare),
        (Verb::Set, 5, 7, -1, How::Append, Some(9))
    );
    let Request::Meta(delete) = read("md key C9 q") else { panic!() };
    assert_eq!((delete.verb, delete.order.compare, delete.is_quiet), (Verb::Delete, Some(9), true));
    let Request::Meta(sum) = read("ma key N60 J5 D3 M- T90") else { panic!() };
    assert_eq!(
        ((sum.creates, sum.made_expiry), sum.initial, sum.delta, sum.subtracts, sum.expiry),
        ((true, 90), 5, 3, true, Some(90))
    );
}

#[test]
fn modes_are_capital_or_small_letters() {
    let modes = [("Ee", How::Add), ("Aa", How::Append), ("Pp", How::Prepend), ("Rr", How::Replace), ("Ss", How::Set)];
    for (letter, how) in modes.iter().flat_map(|(letters, how)| letters.chars().map(move |letter| (letter, *how))) {
        let line = format!("ms k 1 M{letter}");
        let Request::Meta(meta) = read(&line) else { panic!("{line}") };
        assert_eq!(meta.order.how, how, "{line}");
    }
    for (letter, subtracts) in "Ii+".chars().map(|letter| (letter, false)).chain("Dd-".chars().map(|letter| (letter, true))) {
        let line = format!("ma k M{letter}");
        let Request::Meta(meta) = read(&line) else { panic!("{line}") };
        assert_eq!(meta.subtracts, subtracts, "{line}");
    }
}

/// The meta commands with what comes before their flags.
const META: [&str; 4] = ["mg k", "ms k 1", "md k", "ma k"];

#[test]
fn the_flags_of_each_meta_command() {
    let (all, more) = ("bqvkcfstOTCPL", ["hluNR", "FMI", "I", "MDJN"]);
    // The key is base64.
    for (line, more) in META.map(|line| line.replace('k', "Zm9v")).iter().zip(more) {
        for flag in (b'!'..=b'~').map(char::from) {
            // The token is right for each flag that takes one.
            let token = if flag == 'M' {
                if line.starts_with("ms") {
                    "S"
                } else {
                    "I"
                }
            } else {
                "1"
            };
            let (line, is_known) = (format!("{line} {flag}{token}"), all.contains(flag) || more.contains(flag));
            match parse(line.as_bytes(), &mut Vec::new()).0 {
                Ok(_) => assert!(is_known, "{line}"),
                Err(why) if line.starts_with("mg") || line.starts_with("ms") => {
                    assert_eq!((why.text, is_known), ("CLIENT_ERROR invalid flag", false), "{line}");
                }
                Err(why) => assert_eq!((why.text, is_known), ("CLIENT_ERROR invalid or duplicate flag", false), "{line}"),
            }
        }
    }
}

#[test]
fn tokens_of_meta_flags_that_are_wrong() {
    let (token, number) = ("CLIENT_ERROR bad token in command line format", "CLIENT_ERROR bad command line format");
    for (line, flags, text) in [
        ("mg k", "TCNR", token),
        ("ms k 1", "TC", token),
        ("ms k 1", "F", number),
        ("md k", "TC", "CLIENT_ERROR invalid or duplicate flag"),
        ("ma k", "TCNDJ", "CLIENT_ERROR invalid or duplicate flag"),
    ] {
        for (flag, wrong) in flags.chars().flat_map(|flag| ["", "x", "1x", "99999999999999999999"].map(|wrong| (flag, wrong))) {
            assert_eq!(refused(&format!("{line} {flag}{wrong}")), text, "{line} {flag}{wrong}");
        }
    }
    for (line, of_one, of_more) in [
        ("ms k 1", "CLIENT_ERROR invalid mode for ms M token", "CLIENT_ERROR incorrect length for M token"),
        ("ma k", "CLIENT_ERROR invalid mode for ma M token", "CLIENT_ERROR invalid or duplicate flag"),
    ] {
        assert_eq!(refused(&format!("{line} MX")), of_one);
        assert_eq!((refused(&format!("{line} M")), refused(&format!("{line} MII"))), (of_more, of_more));
    }
}

#[test]
fn each_meta_flag_may_come_once() {
    for (line, text) in
        META.iter().zip(["duplicate flag", "duplicate flag", "invalid or duplicate flag", "invalid or duplicate flag"])
    {
        for flag in ["b", "q", "v", "k", "c", "f", "s", "t", "Oa", "T0", "C0", "P", "L"] {
            assert_eq!(refused(&format!("{line} {flag} {flag}")), format!("CLIENT_ERROR {text}"), "{line} {flag}");
        }
    }
}

#[test]
fn meta_flags_that_are_wrong() {
    assert_eq!(refused("mg k O123456789012345678901234567890123"), "CLIENT_ERROR opaque token too long");
    assert_eq!(refused("ms k"), "CLIENT_ERROR bad command line format");
    // The block of a refused line is skipped.
    assert_eq!(parse(b"ms k 5 MX", &mut Vec::new()).0.expect_err("no such mode").block, 7);
}

#[test]
fn no_line_panics() {
    let text = b"get set cas mg ms ma me b Zm9v Zg== noreply 0 -1 99999999999999999999 M C N \xff\x00 ";
    let words: Vec<&[u8]> = text.split(|byte| *byte == b' ').chain([&b" "[..]]).collect();
    let mut draw = Draw(1);
    for _ in 0..100_000 {
        let mut line = Vec::new();
        for _ in 0..8 {
            line.extend_from_slice(words[draw.below(words.len())]);
            line.push([b' ', b'\t'][draw.below(2)]);
        }
        let _ = parse(&line, &mut Vec::new());
    }
}
