//! Dialogues over a plain index: what is answered, also when the index refuses.
mod plain;
use cefrodild::dialogue::{Dialogue, Turn};
use cefrodild::output::Output;
use plain::client::{Client, MEGABYTE};
use plain::draw::Draw;
use std::sync::atomic::Ordering::SeqCst;

#[test]
fn each_byte_by_itself() {
    let mut client = Client::new(MEGABYTE);
    let (mut answers, mut has_ended) = (Vec::new(), false);
    for byte in b"set key 5 0 4\r\n\r\n\r\n\r\nget key  no key\r\nquit\r\n" {
        assert!(!has_ended);
        let (answer, ends) = client.ask_bytes(&[*byte]);
        answers.extend(answer);
        has_ended = ends;
    }
    assert!(has_ended);
    assert_eq!(answers, b"STORED\r\nVALUE key 5 4\r\n\r\n\r\n\r\nVALUE key 5 4\r\n\r\n\r\n\r\nEND\r\n");
}

#[test]
fn a_value_may_have_any_bytes() {
    let (mut client, bytes) = (Client::new(MEGABYTE), (0..=255).chain(*b"\r\nEND\r\n").collect::<Vec<u8>>());
    let block = [&bytes[..], b"\r\n"].concat();
    for (line, answer) in
        [("set k 7 0 263\r\n", &b"STORED\r\n"[..]), ("append k 0 0 263\r\n", b"STORED\r\n"), ("ms k 263 F7\r\n", b"HD\r\n")]
    {
        assert_eq!(client.ask_bytes(&[line.as_bytes(), &block].concat()), (answer.to_vec(), false));
    }
    assert_eq!(client.ask_bytes(b"get k\r\n").0, [b"VALUE k 7 263\r\n", &block[..], b"END\r\n"].concat());
    assert_eq!(client.ask_bytes(b"mg k v\r\n").0, [b"VA 263\r\n", &block[..]].concat());
}

#[test]
fn a_large_value_is_not_copied_into_its_answer() {
    let mut client = Client::new(4 * MEGABYTE);
    client.ask(&format!("set k 0 0 {MEGABYTE}\n{}\n", "x".repeat(MEGABYTE)));
    for line in ["get k\r\n", "mg k v\r\n"] {
        let mut answer = Output::default();
        let mut dialogue = Dialogue::default();
        while dialogue.turn(&client.store, line.as_bytes(), &mut answer).1 == Turn::HasMore && answer.is_empty() {}
        assert!(answer.is_full() && answer.capacity() < 200, "{}", answer.capacity());
        let mut sent = Vec::new();
        assert!(answer.send(&mut sent).is_ok_and(|length| length > MEGABYTE) && answer.is_empty());
    }
}

#[test]
fn no_false_answer() {
    let mut client = Client::new(MEGABYTE);
    assert_eq!(client.ask("set a 0 0 1\n1\n"), "STORED\n");
    client.control.refuses_removals.store(true, SeqCst);
    client.control.refuses_puts.store(true, SeqCst);
    for command in ["set a 0 0 1\n2\n", "delete a\n", "md a\n", "incr a 1\n", "append a 0 0 1\n2\n"] {
        assert!(client.ask(command).starts_with("SERVER_ERROR"), "{command}");
        assert_eq!(client.ask("get a\n"), "VALUE a 0 1\n1\nEND\n", "{command}");
    }
    client.control.refuses_removals.store(false, SeqCst);
    assert_eq!(client.ask("set a 0 0 1\n2\n"), "SERVER_ERROR out of memory storing object\n");
    assert_eq!(client.ask("get a\n"), "END\n");
}

#[test]
fn what_has_come_of_a_block_that_is_refused_is_not_kept() {
    for line in ["set a 0 0 2000000\r\n", "ms a 2000000\r\n", "ms a 2000000 MX\r\n"] {
        let (store, mut dialogue) = (Client::new(MEGABYTE).store, Dialogue::default());
        for part in [line.as_bytes(), &[b'x'; 100], &[b'x'; 100]] {
            // So it goes on with any byte that comes, and does not wait for the rest of the block.
            assert_eq!(dialogue.turn(&store, part, &mut Output::default()), (part.len(), Turn::Needs(1)), "{line}");
        }
    }
}

#[test]
fn a_value_that_has_come_whole_is_not_refused_for_what_its_client_holds() {
    let (store, mut dialogue, mut answers) = (Client::new(MEGABYTE).store, Dialogue::default(), Output::default());
    dialogue.refuse_block();
    let whole = b"set a 0 0 1\r\n1\r\n";
    assert_eq!(dialogue.turn(&store, whole, &mut answers), (whole.len(), Turn::Needs(1)));
    // Nor is the value behind it, which has not.
    dialogue.refuse_block();
    let both = b"set a 0 0 1\r\n2\r\nset b 0 0 5\r\n12";
    assert_eq!(dialogue.turn(&store, both, &mut answers), (16, Turn::Needs(13 + 7)));
    assert_eq!(&answers[..], b"STORED\r\nSTORED\r\n");
}

#[test]
fn what_has_come_of_a_line_that_is_refused_is_not_kept() {
    let (store, mut dialogue) = (Client::new(MEGABYTE).store, Dialogue::default());
    let (line, mut answers) = (format!("get a {}", "x".repeat(3_000)), Output::default());
    let (mut done, mut turn) = (0, Turn::HasMore);
    while turn == Turn::HasMore || done < line.len() {
        let (more, next) = dialogue.turn(&store, &line.as_bytes()[done..], &mut answers);
        (done, turn) = (done + more, next);
    }
    assert_eq!((&answers[..], turn), (&b"CLIENT_ERROR bad command line format\r\n"[..], Turn::Needs(1)));
    for _ in 0..3 {
        assert_eq!(dialogue.turn(&store, &[b'x'; 100], &mut answers), (100, Turn::Needs(1)));
    }
}

#[test]
fn of_a_long_line_of_keys_a_part_of_a_key_is_kept_at_most() {
    let mut client = Client::new(MEGABYTE);
    let line = format!("get{}", " none".repeat(1_000));
    for (part, kept) in [(line.as_str(), 4), (" none ", 0), ("no", 2), ("ne non", 3), ("e\r", 5)] {
        assert_eq!((client.ask_bytes(part.as_bytes()).0, client.input.len()), (Vec::new(), kept), "{part:.10}");
    }
    assert_eq!(client.ask("\nmn\n"), "END\nMN\n");
}

#[test]
fn keys_of_a_long_line_are_answered_as_they_come() {
    let mut client = Client::new(MEGABYTE);
    client.ask(&format!("set k 0 0 500\n{}\n", "x".repeat(500)));
    let one = format!("VALUE k 0 500\n{}\n", "x".repeat(500));
    assert_eq!(client.ask(&format!("get{}\n", " k".repeat(10_000))), one.repeat(10_000) + "END\n");
    let mut answers = client.ask(&format!("get{}", " k".repeat(2_000)));
    assert!(!answers.is_empty() && client.input.len() < 2);
    answers += &client.ask("\n");
    assert_eq!(answers, one.repeat(2_000) + "END\n");
    assert_eq!(client.ask(&format!("get k {}\nmn\n", "k".repeat(251))), "CLIENT_ERROR bad command line format\nMN\n");
}

#[test]
fn so_are_those_that_get_a_new_time_to_live() {
    let mut client = Client::new(MEGABYTE);
    client.ask(&format!("set k 0 0 5000\n{}\n", "x".repeat(5000)));
    let one = format!("VALUE k 0 5000\n{}\n", "x".repeat(5000));
    assert_eq!(client.ask(&format!("gat 100{}\n", " k".repeat(1_000))), one.repeat(1_000) + "END\n");
    assert_ne!(client.ask("mg k t\n"), "HD t-1\n");
}

#[test]
fn keys_of_long_values_are_answered_one_after_the_other() {
    let mut client = Client::new(2 * MEGABYTE);
    client.ask(&format!("set k 0 0 {MEGABYTE}\n{}\n", "x".repeat(MEGABYTE)));
    // The client asserts that the output never has two of them.
    let answer = client.ask("get k k k\n");
    assert_eq!(answer.len(), 3 * (format!("VALUE k 0 {MEGABYTE}\n\n").len() + MEGABYTE) + "END\n".len());
}

#[test]
fn each_value_is_under_its_key() {
    let mut client = Client::new(MEGABYTE);
    client.ask("set a 1 0 1\nA\nset b 2 0 1\nB\n");
    let answer = "VALUE b 2 1\nB\nVALUE a 1 1\nA\nVALUE b 2 1\nB\nEND\n";
    assert_eq!(client.ask("get b x a b\n"), answer);
    assert_eq!(client.ask("gat 100 b x a b\n"), answer);
}

#[test]
fn the_longest_key_ends_a_long_line_that_is_cut_within_its_end() {
    let (mut client, key) = (Client::new(MEGABYTE), "k".repeat(250));
    client.ask(&format!("set {key} 0 0 1\n1\n"));
    let (mut answers, _) = client.ask_bytes(format!("get{} {key}\r", " x".repeat(1200)).as_bytes());
    answers.extend(client.ask_bytes(b"\n").0);
    assert_eq!(answers, format!("VALUE {key} 0 1\r\n1\r\nEND\r\n").as_bytes());
}

#[test]
fn what_was_flushed_stays_so_when_another_flush_is_to_come() {
    let mut client = Client::new(MEGABYTE);
    assert_eq!(client.ask("set a 0 0 1\n1\nflush_all\nflush_all 1000\nget a\n"), "STORED\nOK\nOK\nEND\n");
}

#[test]
fn a_block_that_does_not_end_where_it_should() {
    let mut client = Client::new(MEGABYTE);
    client.ask("set a 0 0 3\nold\n");
    for block in ["newX\n", "new\rX"] {
        let (answer, ends) = client.ask_bytes(format!("set a 0 0 3\r\n{block}mn\r\n").as_bytes());
        assert_eq!((&answer[..], ends), (&b"CLIENT_ERROR bad data chunk\r\nMN\r\n"[..], false), "{block:?}");
        assert_eq!(client.ask("get a\n"), "VALUE a 0 3\nold\nEND\n", "{block:?}");
    }
    assert_eq!(client.ask_bytes(b"set a 0 0 3 noreply\r\nnewX\nmn\r\n").0, b"MN\r\n");
}

#[test]
fn meta_commands_ask_for_a_token() {
    let mut client = Client::new(MEGABYTE);
    // The first item of a store has the token 1.
    client.ask("set n 7 0 1\n5\n");
    for command in ["ms n 1 C2\n6\n", "ms n 1 C2 MA\n6\n", "ms n 1 C2 MP\n6\n", "ms n 1 C2 MR\n6\n", "md n C2\n", "ma n C2\n"] {
        assert_eq!(client.ask(command), "EX\n", "{command}");
        assert_eq!(client.ask("mg n v c\n"), "VA 1 c1\n5\n", "{command}");
    }
    assert_eq!(client.ask("ma n C1 v c\nms n 1 C2 MA c\n0\nmd n c C3\nmg n\n"), "VA 1 c2\n6\nHD c3\nHD\nEN\n");
}

#[test]
fn what_is_appended_to_keeps_its_flags_and_its_time_to_live() {
    let mut client = Client::new(MEGABYTE);
    client.ask("set a 7 0 1\nb\n");
    assert_eq!(client.ask("append a 8 100 1\nc\nprepend a 9 -1 1\na\n"), "STORED\nSTORED\n");
    assert_eq!(client.ask("mg a v f t\n"), "VA 3 f7 t-1\nabc\n");
}

#[test]
fn a_number_may_have_a_plus_before_it() {
    let mut client = Client::new(MEGABYTE);
    assert_eq!(client.ask("set n +7 +100 +2\n+5\nincr n +1\nget n\n"), "STORED\n6\nVALUE n 7 1\n6\nEND\n");
}

#[test]
fn the_longest_opaque_token_is_sent_back() {
    let mut client = Client::new(MEGABYTE);
    let opaque = "o".repeat(32);
    assert_eq!(client.ask(&format!("set n 0 0 1\n5\nmg n O{opaque}\n")), format!("STORED\nHD O{opaque}\n"));
}

#[test]
fn flags_have_32_bits() {
    let answers = "STORED\nVALUE k 4294967295 1\nx\nEND\nHD f4294967295\n";
    assert_eq!(Client::new(MEGABYTE).ask("set k 4294967295 0 1\nx\nget k\nmg k f\n"), answers);
}

#[test]
fn tokens() {
    let mut client = Client::new(MEGABYTE);
    let answer = client.ask("set a 0 0 1\n1\ngets a\n");
    let token: u64 = answer.lines().nth(1).and_then(|line| line.split(' ').nth(4)).expect("a token").parse().expect("a number");
    assert_eq!(client.ask(&format!("cas a 0 0 1 {}\n2\n", token + 1)), "EXISTS\n");
    assert_eq!(client.ask(&format!("touch a 100\ncas a 0 0 1 {token}\n2\n")), "TOUCHED\nSTORED\n");
    assert_eq!(client.ask(&format!("cas a 0 0 1 {token}\n2\ncas b 0 0 1 1\n2\n")), "EXISTS\nNOT_FOUND\n");
}

const PARTS: [&[u8]; 25] = [
    b"get a b\r\n",
    b"gets a\r\n",
    b"gat 5 a b a\n",
    b"set a 0 0 3\r\nabc\r\n",
    b"set b 0 0 10 noreply\r\n",
    b"append a 0 0 1\r\nx\r\n",
    b"cas a 0 0 1 3\r\n1\r\n",
    b"incr a 1\r\n",
    b"ms a 4\r\nget \r\n",
    b"ms b 3 MX\r\n",
    b"mg a v k\r\n",
    b"ma b N0\r\n",
    b"md a q\r\n",
    b"delete b\r\n",
    b"flush_all\r\n",
    b"set c 0 0 2000000\r\n",
    b"set c 0 0 -1\r\n",
    b"\r\n",
    b"\n",
    b"\r",
    b" ",
    b"get ",
    b"set ",
    b"\xff\x00\x01",
    b"kkkkkkkkkkkkkkkkkkkkkkkkkkkkkkkkkkkkkkkkkkkkkkkkkkkkkkkkkkkkkkkkkkkkkkkkkkkkkkkkkkkkkkkkkkkkkkkkkkkkkkkkkkkkkkkkkkkkkkkkkkkk",
];

#[test]
fn it_does_not_matter_how_bytes_are_cut() {
    let mut draw = Draw(1);
    for _ in 0..3_000 {
        let script: Vec<u8> = (0..draw.below(12)).flat_map(|_| PARTS[draw.below(PARTS.len())]).copied().collect();
        let (mut whole, mut cut) = (Client::new(MEGABYTE), Client::new(MEGABYTE));
        let (expected, _) = whole.ask_bytes(&script);
        let (mut answers, mut rest) = (Vec::new(), &script[..]);
        while !rest.is_empty() {
            let (piece, behind) = rest.split_at(1 + draw.below(rest.len()));
            answers.extend(cut.ask_bytes(piece).0);
            rest = behind;
        }
        assert_eq!(answers, expected, "{:?}", String::from_utf8_lossy(&script));
    }
}

/// The connection asks for that when it has no memory for what comes. If no value has begun, none is refused.
#[test]
fn only_a_value_that_has_begun_is_refused() {
    let (store, mut dialogue, mut out) = (Client::new(MEGABYTE).store, Dialogue::default(), Output::default());
    dialogue.refuse_block();
    assert_eq!(dialogue.turn(&store, b"set k", &mut out), (0, Turn::Needs(6)));
    assert_eq!(dialogue.turn(&store, b"set k 0 0 5\r\nab", &mut out), (0, Turn::Needs(20)));
    assert!(out.is_empty() && !dialogue.is_skipping());
    dialogue.refuse_block();
    assert_eq!(dialogue.turn(&store, b"set k 0 0 5\r\nab", &mut out), (15, Turn::Needs(1)));
    assert!(out.starts_with(b"SERVER_ERROR out of memory") && dialogue.is_skipping());
}
