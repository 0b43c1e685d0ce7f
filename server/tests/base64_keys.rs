//! Keys that meta commands send as base64 (`b`), and `me`, which shows what an item is.
mod plain;
use plain::client::{Client, MEGABYTE};

/// Texts and what they decode to: those of RFC 4648, and the last letters.
const TEXTS: [(&str, &str); 8] = [
    ("Zg==", "f"),
    ("Zm8=", "fo"),
    ("Zm9v", "foo"),
    ("Zm9vYg==", "foob"),
    ("Zm9vYmE=", "fooba"),
    ("Zm9vYmFy", "foobar"),
    ("Pz8+", "??>"),
    ("Pz8/", "???"),
];

/// `foo` so, and a key with a blank and a line's end.
const FOO: &str = "Zm9v";
const ODD: &str = "YSBiDQo=";

#[test]
fn each_command_takes_a_key_as_base64() {
    for (text, key) in TEXTS {
        let mut client = Client::new(MEGABYTE);
        assert_eq!(client.ask(&format!("ms {text} 1 b k O1\n5\n")), format!("HD k{text} b O1\n"));
        assert_eq!(client.ask(&format!("get {key}\n")), format!("VALUE {key} 0 1\n5\nEND\n"));
        assert_eq!(client.ask(&format!("mg {text} k v b\n")), format!("VA 1 k{text} b\n5\n"));
        assert_eq!(client.ask(&format!("ma {text} b v k\n")), format!("VA 1 k{text} b\n6\n"));
        assert_eq!(client.ask(&format!("md {text} b k\nget {key}\n")), format!("HD k{text} b\nEND\n"));
        assert_eq!(client.ask(&format!("mg {text} b k\nmd {text} k b\n")), format!("EN k{text} b\nNF k{text} b\n"));
        assert_eq!(client.ask(&format!("ma {text} b N0 J7 k\nget {key}\n")), format!("HD k{text} b\nVALUE {key} 0 1\n7\nEND\n"));
    }
}

#[test]
fn each_byte_may_be_in_a_key() {
    let mut client = Client::new(MEGABYTE);
    // The bytes 0 to 185 and 70 to 255: the longest text of whole groups has 248 letters.
    let letters = b"ABCDEFGHIJKLMNOPQRSTUVWXYZabcdefghijklmnopqrstuvwxyz0123456789+/";
    for first in [0, 70] {
        let bits: Vec<u8> =
            (first..first + 186).flat_map(|byte: u16| (0..8).rev().map(move |bit| (byte >> bit & 1) as u8)).collect();
        let text: String =
            bits.chunks(6).map(|six| letters[six.iter().fold(0, |sum, bit| 2 * sum + usize::from(*bit))] as char).collect();
        assert_eq!(client.ask(&format!("ms {text} 1 b k\n5\nmg {text} b k\n")), format!("HD k{text} b\nHD k{text} b\n"));
        let longer = format!("mg {text}AAAA b\n");
        assert_eq!(client.ask(&longer), "CLIENT_ERROR bad command line format\n");
    }
    let crawled: String = client.ask("lru_crawler metadump all\n");
    assert!(crawled.contains("key=%00%01%02") && crawled.contains("%FD%FE%FF "), "{crawled}");
}

/// A key that came as base64 is answered as that, and another one as it is, whatever the command that asks.
#[test]
fn a_key_is_answered_as_it_came() {
    let changes = ["", "append foo 0 0 1\n5\n", "prepend foo 0 0 1\n5\n", "incr foo 1000\n", "md foo I\n", "touch foo 100\n"];
    for change in changes {
        let mut client = Client::new(MEGABYTE);
        client.ask(&format!("ms {FOO} 1 b\n5\n{change}"));
        let answer = client.ask("mg foo k q\n");
        assert!(answer.starts_with(&format!("HD k{FOO} b")), "{change}{answer}");
        client.ask(&format!("ms foo 1\n5\n{change}"));
        let answer = client.ask(&format!("mg {FOO} b k q\n"));
        assert!(answer.starts_with("HD kfoo") && !answer.contains('b'), "{change}{answer}");
    }
    let mut client = Client::new(MEGABYTE);
    assert_eq!(client.ask(&format!("mg {ODD} b k N30\nmg {ODD} b k\n")), format!("HD k{ODD} b W\nHD k{ODD} b Z\n"));
    assert_eq!(client.ask("stats cachedump 1 0\n"), format!("ITEM {ODD} [0 b; 30 s]\nEND\n").replace("30 s", &end(30)));
}

/// What `stats cachedump` says of an item that ends in so many seconds. The second may end meanwhile.
fn end(seconds: u64) -> String {
    format!("{} s", cefrodild::clock::unix_time() + seconds)
}

#[test]
fn what_is_no_base64_is_refused() {
    let mut client = Client::new(MEGABYTE);
    for text in ["Z", "Zm", "Zm8", "Zm9vY", "Zm9vYg=", "=", "====", "Z===", "==Z=", "Zm9-", "Zm9_", "Zm.v", "Zm9v\t"] {
        for (line, answer) in [
            (format!("mg {text} b\n"), "CLIENT_ERROR error decoding key\n"),
            (format!("ms {text} 1 b\n5\n"), "CLIENT_ERROR error decoding key\n"),
            (format!("md {text} b\n"), "CLIENT_ERROR invalid or duplicate flag\n"),
            (format!("ma {text} b\n"), "CLIENT_ERROR invalid or duplicate flag\n"),
            (format!("me {text} b\n"), "CLIENT_ERROR bad command line format\n"),
        ] {
            assert_eq!(client.ask(&line), answer, "{line}");
        }
    }
    assert_eq!(client.store.index.len(), 0);
}

/// Memcached accepts these: it ignores what follows a group with a pad, and bits that encode nothing.
#[test]
fn base64_that_is_not_the_shortest_is_taken() {
    for (sent, told) in
        [("Zm9vYg==AAAA", "Zm9vYg=="), ("Zm9vYh==", "Zm9vYg=="), ("Zm9=", "Zm8="), ("Zm=v", "ZmA="), ("=m9v", "Am8=")]
    {
        let mut client = Client::new(MEGABYTE);
        assert_eq!(client.ask(&format!("ms {sent} 1 b k\n5\nmg {told} b k\n")), format!("HD k{told} b\nHD k{told} b\n"));
    }
}

/// A `set` that fails removes the older value, also if the key is sent as base64.
#[test]
fn a_value_that_is_refused_removes_that_of_its_key() {
    let mut client = Client::with(MEGABYTE, "-t1 -I 1k");
    client.ask("set foo 0 0 1\n5\n");
    assert_eq!(client.ask(&format!("ms {FOO} 1025 b\n{}\n", "x".repeat(1025))), "SERVER_ERROR object too large for cache\n");
    assert_eq!(client.ask("get foo\n"), "END\n");
}

#[test]
fn what_me_shows() {
    let mut client = Client::new(MEGABYTE);
    client.ask(&format!("set foo 0 0 3\nabc\nms {ODD} 1 b T100\n5\nset gone 0 -1 1\n5\n"));
    let foo = format!("ME foo exp=-1 la=0 cas=1 fetch=no cls=1 size={}\n", 30 + 3 + 3);
    for line in ["me foo\n", "me Zm9v b\n", "me foo q b\n", "me foo bx\n"] {
        assert_eq!(client.ask(line), foo, "{line}");
    }
    let odd = format!("ME {ODD} exp=-100 la=0 cas=2 fetch=yes cls=1 size={}\n", 30 + 5 + 1);
    assert_eq!(client.ask(&format!("mg {ODD} b\nme {ODD} b\n")), format!("HD\n{odd}"));
    assert_eq!(client.ask("me none\nme gone\nme Zm9v\n"), "EN\nEN\nEN\n");
    assert_eq!(client.ask("me\nme \n"), "CLIENT_ERROR bad command line format\n".repeat(2));
    assert_eq!(client.ask(&format!("me {}\n", "k".repeat(251))), "CLIENT_ERROR bad command line format\n");
    assert_eq!(client.ask(&format!("me {}\n", "k".repeat(250))), "EN\n");
}
