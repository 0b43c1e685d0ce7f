//! Clients that want no answer, or not the usual one: what is left out, and what is not.
mod plain;
use plain::client::{Client, MEGABYTE};
use std::sync::atomic::{AtomicBool, Ordering::SeqCst};

/// Commands that take `noreply`, with their blocks, over a number and a text.
const COMMANDS: [(&str, &str); 14] = [
    ("set n 0 0 1", "6\n"),
    ("set n 0 0 2000", ""),
    ("add n 0 0 1", "6\n"),
    ("add none 0 0 1", "6\n"),
    ("replace n 0 0 1", "6\n"),
    ("append n 0 0 1", "6\n"),
    ("prepend t 0 0 1", "6\n"),
    ("cas n 0 0 1 1", "6\n"),
    ("incr n 1", ""),
    ("decr t 1", ""),
    ("touch n 0", ""),
    ("delete n", ""),
    ("flush_all", ""),
    ("verbosity 1", ""),
];

/// What the index may refuse.
type Flags = fn(&Client) -> Vec<&AtomicBool>;
const REFUSALS: [Flags; 4] = [
    |_| Vec::new(),
    |client| vec![&client.control.refuses_puts],
    |client| vec![&client.control.refuses_puts, &client.control.refuses_removals],
    |client| vec![&client.control.refuses_looks],
];

/// The answer of a store with a number and a text, whose index refuses this.
fn answer(refusal: Flags, text: &str) -> String {
    let mut client = Client::with(MEGABYTE, "-I1k");
    client.ask("set n 0 0 1\n5\nset t 0 0 1\nx\n");
    refusal(&client).iter().for_each(|flag| flag.store(true, SeqCst));
    client.ask(text)
}

#[test]
fn noreply_leaves_every_answer_out() {
    for (refusal, (line, block)) in REFUSALS.iter().flat_map(|refusal| COMMANDS.map(|command| (*refusal, command))) {
        // The block of a value that is too long is `x`s.
        let block = if line.contains("2000") { format!("{}\n", "x".repeat(2000)) } else { block.to_owned() };
        assert_eq!(answer(refusal, &format!("{line} noreply\n{block}mn\n")), "MN\n", "{line}");
        let answer = answer(refusal, &format!("{line}\n{block}mn\n"));
        assert_eq!((answer.lines().count(), answer.lines().last()), (2, Some("MN")), "{line}: {answer}");
    }
}

#[test]
fn noreply_leaves_the_fault_of_a_line_out() {
    for line in ["incr n x", "decr n -1", "touch n x", "set n 0 0 x", "cas n 0 0 1 x", "delete n 1", "flush_all x", "verbosity x"]
    {
        // And nothing is done.
        assert_eq!(answer(REFUSALS[0], &format!("{line} noreply\nmg n v t\n")), "VA 1 t-1\n5\n", "{line}");
    }
}

#[test]
fn no_command_is_quiet_that_is_none() {
    let named = "set noreply 0 0 1\n6";
    for line in
        ["get noreply", "gets noreply", "version noreply", "stats noreply", "x noreply", "delete noreply", "mn noreply", named]
    {
        assert_ne!(answer(REFUSALS[0], &format!("{line}\n")), "", "{line}");
    }
}

#[test]
fn quiet_meta_commands_leave_the_usual_answer_out() {
    for line in ["mg none", "ms n 1\n6", "md n", "ma n"] {
        let (command, block) = line.split_once('\n').map_or((line, ""), |(command, _)| (command, "6\n"));
        assert_eq!(answer(REFUSALS[0], &format!("{command} q\n{block}mn\n")), "MN\n", "{line}");
    }
}

#[test]
fn quiet_meta_commands_tell_of_all_else() {
    for (line, expected) in [
        ("mg n q", "HD\n"),
        // A number that is made is not the usual answer.
        ("ma none N0 J5 q v", "VA 1\n5\n"),
        ("ma t MD q v", "CLIENT_ERROR cannot increment or decrement non-numeric value\n"),
        ("ms n 1 ME q\n6", "NS\n"),
        ("ms n 1 C9 q\n6", "EX\n"),
        ("ms none 1 C9 q\n6", "NF\n"),
        ("ms none 1 C9 MR q\n6", "NF\n"),
        ("ms none 1 C9 MA q\n6", "NS\n"),
        ("ms n 1 C9 MR q\n6", "EX\n"),
        ("md none q", "NF\n"),
        ("md n C9 q", "EX\n"),
        ("ma none q", "NF\n"),
        ("ma n C9 q", "EX\n"),
        ("ma t C9 q", "EX\n"),
        ("ma t q", "CLIENT_ERROR cannot increment or decrement non-numeric value\n"),
        ("ms n 1 q\n66", "CLIENT_ERROR bad data chunk\n"),
        ("mg n ! q", "CLIENT_ERROR invalid flag\n"),
    ] {
        assert!(answer(REFUSALS[0], &format!("{line}\n")).starts_with(expected), "{line}");
    }
}

const NO_PLACE: &str = "SERVER_ERROR out of memory storing object\n";
const BUSY: &str = "SERVER_ERROR busy, and nothing was changed\n";
const STALE: &str = "SERVER_ERROR not stored, and the old value may still be found\n";

#[test]
fn what_each_command_answers_if_the_index_refuses() {
    let [_, puts, changes, looks] = REFUSALS;
    for (command, of_puts, of_changes, of_looks) in [
        ("set n 0 0 1\n6\n", NO_PLACE, STALE, "STORED\n"),
        ("add none 0 0 1\n6\n", NO_PLACE, NO_PLACE, BUSY),
        ("replace n 0 0 1\n6\n", NO_PLACE, NO_PLACE, BUSY),
        ("append n 0 0 1\n6\n", NO_PLACE, NO_PLACE, BUSY),
        ("prepend n 0 0 1\n6\n", NO_PLACE, NO_PLACE, BUSY),
        ("cas n 0 0 1 1\n6\n", NO_PLACE, NO_PLACE, BUSY),
        ("incr n 1\n", NO_PLACE, NO_PLACE, BUSY),
        ("decr n 1\n", NO_PLACE, NO_PLACE, BUSY),
        ("touch n 0\n", "TOUCHED\n", "TOUCHED\n", BUSY),
        ("delete n\n", "DELETED\n", BUSY, BUSY),
        ("ms n 1 q\n6\n", NO_PLACE, STALE, ""),
        ("ms n 1 C1 q\n6\n", NO_PLACE, NO_PLACE, BUSY),
        ("md n q\n", "", BUSY, BUSY),
        ("ma n q\n", NO_PLACE, NO_PLACE, BUSY),
        ("ma none N0 q\n", NO_PLACE, NO_PLACE, BUSY),
        ("get n\n", "VALUE n 0 1\n5\nEND\n", "VALUE n 0 1\n5\nEND\n", "END\n"),
        ("mg n\n", "HD\n", "HD\n", "EN\n"),
    ] {
        for (refusal, expected) in [(puts, of_puts), (changes, of_changes), (looks, of_looks)] {
            assert_eq!(answer(refusal, command), expected, "{command}");
        }
    }
}
