//! What just fits, and what is one byte or one word too many.
mod plain;
use plain::client::{Client, MEGABYTE};

/// The longest line with its end, the longest key, and the longest value of these tests.
const LINE: usize = 2048;
const KEY: usize = 250;
const VALUE: usize = 1024;

const FORMAT: &str = "CLIENT_ERROR bad command line format\n";
const TOO_LARGE: &str = "SERVER_ERROR object too large for cache\n";

fn client() -> Client {
    Client::with(MEGABYTE, "-I1k")
}

/// A value of this length.
fn value(length: usize) -> String {
    "x".repeat(length)
}

#[test]
fn the_longest_value_of_each_command() {
    // All keys but `none` have an empty value, the first one with the token 1.
    // The old value goes with one that was to overwrite it.
    for (command, answer, left) in [
        ("set k 0 0 L", "STORED\n", "EN\n"),
        ("add none 0 0 L", "STORED\n", "HD s0\n"),
        ("replace k 0 0 L", "STORED\n", "HD s0\n"),
        ("append k 0 0 L", "STORED\n", "HD s0\n"),
        ("prepend k 0 0 L", "STORED\n", "HD s0\n"),
        ("cas k 0 0 L 1", "STORED\n", "HD s0\n"),
        ("ms k L", "HD\n", "EN\n"),
    ] {
        let ask = |length: usize| {
            let mut client = client();
            client.ask("set k 0 0 0\n\n");
            let line = command.replace('L', &length.to_string());
            (client.ask(&format!("{line}\n{}\n", value(length))), client)
        };
        assert_eq!(ask(VALUE).0, answer, "{command}");
        let (answer, mut client) = ask(VALUE + 1);
        assert_eq!((answer.as_str(), client.ask("mg k s\n").as_str()), (TOO_LARGE, left), "{command}");
    }
}

#[test]
fn the_longest_value_that_grows() {
    for command in ["append k 0 0 1\ny\n", "prepend k 0 0 1\ny\n", "ms k 1 MA\ny\n", "ms k 1 MP\ny\n"] {
        let mut client = client();
        client.ask(&format!("set k 0 0 {}\n{}\n", VALUE - 1, value(VALUE - 1)));
        assert!(["STORED\n", "HD\n"].contains(&&*client.ask(command)), "{command}");
        assert_eq!(client.ask(command), TOO_LARGE, "{command}");
        assert_eq!(client.ask("mg k s\n"), format!("HD s{VALUE}\n"), "{command}");
    }
}

#[test]
fn the_longest_key_of_each_command() {
    for (command, answer) in [
        ("get K\n", "END\n"),
        ("gets K\n", "END\n"),
        ("gat 0 K\n", "END\n"),
        ("get x K x\n", "END\n"),
        ("set K 0 0 1\n1\n", "STORED\n"),
        ("add K 0 0 1\n1\n", "STORED\n"),
        ("replace K 0 0 1\n1\n", "NOT_STORED\n"),
        ("append K 0 0 1\n1\n", "NOT_STORED\n"),
        ("prepend K 0 0 1\n1\n", "NOT_STORED\n"),
        ("cas K 0 0 1 1\n1\n", "NOT_FOUND\n"),
        ("incr K 1\n", "NOT_FOUND\n"),
        ("decr K 1\n", "NOT_FOUND\n"),
        ("touch K 1\n", "NOT_FOUND\n"),
        ("delete K\n", "NOT_FOUND\n"),
        ("mg K\n", "EN\n"),
        ("ms K 1\n1\n", "HD\n"),
        ("md K\n", "NF\n"),
        ("ma K\n", "NF\n"),
    ] {
        assert_eq!(client().ask(&command.replace('K', &"k".repeat(KEY))), answer, "{command}");
        let refused = client().ask(&command.replace('K', &"k".repeat(KEY + 1)));
        assert_eq!(refused.lines().next(), FORMAT.lines().next(), "{command}");
    }
}

#[test]
fn one_carriage_return_belongs_to_the_end_of_a_line() {
    let mut client = client();
    // Any other one belongs to the last word.
    let ask = b"set k\r 0 0 1\r\n1\r\nget k\r\r\nget k\r\nget k\r\n\n";
    assert_eq!(client.ask_bytes(ask).0, b"STORED\r\nVALUE k\r 0 1\r\n1\r\nEND\r\nEND\r\nEND\r\nERROR\r\n");
    assert_eq!(client.ask_bytes(b"mn\nmn\r\nmn\r\r\n").0, b"MN\r\nMN\r\nERROR\r\n");
}

#[test]
fn the_longest_line() {
    // With its end it has so many bytes.
    let line = |bytes: usize| format!("{}\r\n", "x".repeat(bytes - 2));
    assert_eq!(client().ask_bytes(line(LINE).as_bytes()), (b"ERROR\r\n".to_vec(), false));
    assert_eq!(client().ask_bytes(line(LINE + 1).as_bytes()), (b"CLIENT_ERROR line too long\r\n".to_vec(), true));
    // The error comes as soon as the line can't end in time, and not before.
    assert_eq!(client().ask_bytes("x".repeat(LINE - 1).as_bytes()), (b"".to_vec(), false));
    assert_eq!(client().ask_bytes("x".repeat(LINE).as_bytes()), (b"CLIENT_ERROR line too long\r\n".to_vec(), true));
}

#[test]
fn a_line_of_keys_is_answered_as_soon_as_it_is_longer_than_any_other() {
    let mut client = client();
    client.ask("set k 0 0 1\n1\n");
    let keys = format!("get k {}", "x".repeat(LINE));
    assert_eq!(client.ask(&keys[..LINE - 1]), "");
    // The last word has more bytes than a key may have.
    assert_eq!(client.ask(&keys[LINE - 1..LINE]), format!("VALUE k 0 1\n1\n{FORMAT}"));
    assert_eq!(client.ask("xxx\nmn\n"), "MN\n");
}

#[test]
fn a_word_that_is_cut_is_not_taken_for_a_whole_one() {
    let mut client = client();
    client.ask("set k 0 0 1\n1\n");
    // The time is 100, of which one digit has come with so many bytes. So this is no line of keys yet, and too long for any other.
    let line = format!("gat{}100 k\n", " ".repeat(LINE - 4));
    for sent in [&line[..LINE], &line] {
        assert_eq!(client.beside().ask(sent), "CLIENT_ERROR line too long\n");
        assert_eq!(client.beside().ask("mg k t\n"), "HD t-1\n");
    }
}

#[test]
fn a_key_that_is_much_too_long_is_refused_however_it_comes() {
    let long = "k".repeat(LINE + 100);
    for (begin, answer, is_end) in [
        ("get", FORMAT, false),
        ("gets", FORMAT, false),
        ("  get", FORMAT, false),
        ("gat 0", FORMAT, false),
        ("delete", "CLIENT_ERROR line too long\n", true),
    ] {
        let all = format!("{begin} {long}\r\n{}", if is_end { "" } else { "mn a\r\n" });
        let expected = format!("{answer}{}", if is_end { "" } else { "MN\n" }).replace('\n', "\r\n");
        for length in [1, 1_000, LINE - 1, LINE, LINE + 1, all.len()] {
            let (mut client, mut answers, mut ends) = (client(), Vec::new(), false);
            let mut parts = all.as_bytes().chunks(length);
            while let Some(part) = parts.next().filter(|_| !ends) {
                let (more, is_over) = client.ask_bytes(part);
                answers.extend(more);
                ends = is_over;
            }
            assert_eq!((String::from_utf8(answers), ends), (Ok(expected.clone()), is_end), "{begin} {length}");
        }
    }
}

#[test]
fn the_most_words() {
    for line in ["set k 0 0 1", "add k 0 0 1", "replace k 0 0 1", "append k 0 0 1", "prepend k 0 0 1", "cas k 0 0 1 1"] {
        assert_eq!(client().ask(&format!("{line} noreply\n1\n")), "", "{line}");
        for more in ["noreply x", "x noreply", "x x", "x x x", "x x x x", "x x x x x"] {
            // The block is another line, and no command either.
            let answer = client().ask(&format!("{line} {more}\n1\n"));
            assert_eq!(answer, "ERROR\nERROR\n", "{line} {more}");
        }
    }
    for (line, most) in
        [("incr k 1", 1), ("decr k 1", 1), ("touch k 1", 1), ("delete k", 2), ("flush_all", 2), ("verbosity 1", 1)]
    {
        let more = " 0".repeat(most + 1);
        assert_eq!(client().ask(&format!("{line}{more}\n")), "ERROR\n", "{line}");
    }
}

#[test]
fn each_key_of_a_line_is_answered() {
    let mut client = client();
    (0..100).for_each(|key| assert_eq!(client.ask(&format!("set {key} 0 0 1\n{}\n", key % 10)), "STORED\n"));
    // They are looked up in batches.
    for count in [1, 2, 31, 32, 33, 63, 64, 65, 96, 100] {
        let keys: Vec<_> = (0..count).map(|key| key.to_string()).collect();
        let values: String = (0..count).map(|key| format!("VALUE {key} 0 1\n{}\n", key % 10)).collect();
        for line in ["get", "gat 0"] {
            assert_eq!(client.ask(&format!("{line} {}\nmn\n", keys.join(" "))), format!("{values}END\nMN\n"), "{count}");
            let among_others = format!("{line} none {} none \nmn\n", keys.join(" none "));
            assert_eq!(client.ask(&among_others), format!("{values}END\nMN\n"), "{count}");
        }
    }
}
