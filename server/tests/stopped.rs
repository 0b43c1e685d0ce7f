//! A thread that stops while it has the lock of a key: others are refused after a while, and the operator sees it.
mod plain;
use cefrodild::counts::Count;
use cefrodild::key_locks::KeyLocks;
use plain::client::{Client, MEGABYTE};
use std::thread;
use std::time::{Duration, Instant};

/// Another key with the lock of `n`.
fn with_the_same_lock(client: &Client) -> String {
    let lock = |key: &str| client.store.index.hash_of(key.as_bytes()) % 64;
    (0..).map(|number| format!("k{number}")).find(|key| lock(key) == lock("n")).expect("there is one")
}

#[test]
fn commands_are_refused_while_the_lock_of_their_key_is_kept() {
    let mut client = Client::new(MEGABYTE);
    let dead = with_the_same_lock(&client);
    client.ask(&format!("set n 0 0 1\n1\nset {dead} 0 -1 1\n5\n"));
    // The thread does all this while it has the lock.
    let changed = client.ask_beside("incr n 1\n", |mut other| {
        let begin = Instant::now();
        other.expire();
        assert!(begin.elapsed() < Duration::from_secs(1), "what has expired waits for the next round");
        let commands = ["touch n 100\n", "append n 0 0 1\n5\n", "ms n 1 I C1\n5\n", "md n I\n", "mg n N30 T30\n"];
        let busy = |mut client: Client, command: &str| {
            assert_eq!(client.ask(command), "SERVER_ERROR busy, and nothing was changed\n", "{command}");
        };
        thread::scope(|scope| {
            for command in &commands[..4] {
                let client = other.beside();
                scope.spawn(move || busy(client, command));
            }
        });
        busy(other.beside(), commands[4]);
        // A change tries much longer than two lookups, unless the machine has much else to do.
        let give_up_early = |_: &u64| {
            let client = other.beside();
            thread::scope(|scope| {
                let change = scope.spawn(move || busy(client, commands[0]));
                (0..2).for_each(|_| assert_eq!(other.ask("gat 100 n\n"), "END\n"));
                !change.is_finished()
            })
        };
        let lookups = 2 * (1..20).find(give_up_early).expect("a lookup does not try as often as a change");
        assert_eq!(other.ask("get n\n"), "VALUE n 0 1\n1\nEND\n");
        let count = |count| other.store.books.counts.get(count);
        assert!(count(Count::Held) >= 5 && count(Count::Busy) == 1 + lookups);
        // Those of `mg`, `gat` and `get`.
        assert_eq!([Count::Gets, Count::GetHits, Count::GetMisses].map(count), [2 + lookups, 1, 1 + lookups]);
        assert!(other.store.stalled() >= Duration::from_secs(1), "{:?}", other.store.stalled());
    });
    assert_eq!((changed.as_str(), client.store.books.counts.get(Count::Expired)), ("2\n", 0));
    client.expire();
    assert_eq!(client.store.books.counts.get(Count::Expired), 1);
    assert_eq!(client.ask("touch n 100\n"), "TOUCHED\n");
}

#[test]
fn a_stall_is_over_when_no_command_gives_up_for_ten_seconds() {
    let locks = KeyLocks::new();
    assert_eq!([0, 20].map(|now| locks.stalled(now)), [0, 0]);
    locks.give_up(5);
    locks.give_up(15);
    assert_eq!([15, 25, 26].map(|now| locks.stalled(now)), [10, 20, 0]);
    locks.give_up(30);
    assert_eq!(locks.stalled(31), 1);
}
