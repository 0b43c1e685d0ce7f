//! What arithmetic makes of a number, and what is stored then.
mod plain;
use plain::client::{Client, MEGABYTE};

const MOST: &str = "18446744073709551615";

/// A number, a command with what it adds or subtracts, and the next number.
const TABLE: [(&str, &str, &str); 20] = [
    ("0", "incr 0", "0"),
    ("9", "incr 1", "10"),
    ("99", "incr 1", "100"),
    (MOST, "incr 0", MOST),
    (MOST, "incr 1", "0"),
    (MOST, "incr 18446744073709551615", "18446744073709551614"),
    ("18446744073709551614", "incr 1", MOST),
    ("007", "incr 1", "8"),
    (" 7 ", "incr 1", "8"),
    ("7 8", "incr 1", "8"),
    ("0", "decr 0", "0"),
    ("0", "decr 1", "0"),
    ("5", "decr 5", "0"),
    ("5", "decr 6", "0"),
    ("5", "decr 18446744073709551615", "0"),
    ("10", "decr 1", "9"),
    ("100", "decr 1", "99"),
    (MOST, "decr 1", "18446744073709551614"),
    (MOST, "decr 18446744073709551615", "0"),
    ("007", "decr 1", "6"),
];

/// A client of a store in which `n` has this value and the flags 3.
fn client(value: &str) -> Client {
    let mut client = Client::new(MEGABYTE);
    assert_eq!(client.ask(&format!("set n 3 0 {}\n{value}\n", value.len())), "STORED\n");
    client
}

#[test]
fn of_classic_commands() {
    for (value, command, next) in TABLE {
        let mut client = client(value);
        let (verb, number) = command.split_once(' ').expect("two words");
        assert_eq!(client.ask(&format!("{verb} n {number}\n")), format!("{next}\n"), "{value} {command}");
        assert_eq!(client.ask("get n\n"), format!("VALUE n 3 {}\n{next}\nEND\n", next.len()), "{value} {command}");
    }
}

#[test]
fn of_meta_commands() {
    for (value, command, next) in TABLE {
        let mut client = client(value);
        let flags = command.replace("incr ", "MI D").replace("decr ", "MD D");
        assert_eq!(client.ask(&format!("ma n v {flags}\n")), format!("VA {}\n{next}\n", next.len()), "{value} {command}");
        assert_eq!(client.ask("mg n s v f\n"), format!("VA {0} s{0} f3\n{next}\n", next.len()), "{value} {command}");
    }
}

#[test]
fn of_what_is_no_number() {
    let answer = "CLIENT_ERROR cannot increment or decrement non-numeric value\n";
    for value in ["", " ", "x", "1x", "-1", "1.5", "18446744073709551616", "--1", "+"] {
        for command in ["incr n 1\n", "decr n 1\n", "ma n\n", "ma n MD\n", "ma n N0 J5\n"] {
            let mut client = client(value);
            assert_eq!(client.ask(command), answer, "{value:?} {command}");
            assert_eq!(client.ask("get n\n"), format!("VALUE n 3 {}\n{value}\nEND\n", value.len()), "{value:?} {command}");
        }
    }
}

#[test]
fn of_numbers_that_are_missing() {
    for (flags, made, next) in
        [("", "0", "1"), ("J5", "5", "6"), ("J5 D3", "5", "8"), ("J5 MD D3", "5", "2"), ("J18446744073709551615", MOST, "0")]
    {
        let mut client = Client::new(MEGABYTE);
        assert_eq!(client.ask(&format!("ma n {flags}\n")), "NF\n", "it is not made without N");
        for number in [made, next] {
            assert_eq!(client.ask(&format!("ma n N0 v {flags}\n")), format!("VA {}\n{number}\n", number.len()), "{flags}");
        }
        assert_eq!(client.ask("mg n v f t\n"), format!("VA {} f0 t-1\n{next}\n", next.len()), "{flags}");
    }
}

#[test]
fn each_change_has_a_new_token() {
    let mut client = client("5");
    let mut last = client.ask("mg n c\n");
    for command in ["incr n 1\n", "decr n 1\n", "incr n 0\n", "ma n q\n"] {
        client.ask(command);
        let next = client.ask("mg n c\n");
        assert_ne!(last, next, "{command}");
        last = client.ask("ma n c\n");
        assert_eq!(last, client.ask("mg n c\n"), "it answers the token that the number has then");
    }
}
