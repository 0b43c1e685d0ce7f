//! Whether calls by several threads at once come to what the same calls would, made one after the other: a checker of linearizability. Each round a few
//! threads make random calls with two keys. Signals stop them within calls. Then a search seeks an order of the calls that explains all answers.
//!
//! This takes a few seconds: a few kinds of maps, and a few whose options are drawn. By hand, `LINEAR_SECONDS` says for how many seconds the options are
//! drawn anew each second. They are printed with their seed. `LINEAR_KIND`: `values` or `objects` alone. `LINEAR_SEED`: the first seed.
mod both;
mod drawn;
mod history;
mod objects;
mod rounds;
mod values;

use drawn::Drawn;
use rounds::{Random, Rounds};
use std::env;
use std::time::{Duration, Instant, SystemTime};

const WHOLE: Option<Duration> = Some(Duration::MAX);

fn number(name: &str) -> Option<u64> {
    env::var(name).ok().map(|number| number.parse().expect("a number"))
}

// Rounds in a map with these options. The seed says what calls are made.
fn run(is_objects: bool, drawn: Drawn, time: Duration, seed: u64) -> Rounds {
    let name = if is_objects { "objects" } else { "values" };
    println!("{name} {seed}: {drawn:?}");
    let calls = if is_objects { drawn.objects() } else { drawn.values() };
    let rounds = Rounds::run(&*calls, time, seed);
    assert!(rounds.wrong.is_none(), "{name} {seed}: {drawn:?}: {}", rounds.wrong.unwrap());
    rounds
}

// One test, so that its threads are as many as are meant.
#[test]
fn calls_at_once_come_to_what_an_order_of_them_does() {
    if let Some(seconds) = number("LINEAR_SECONDS") {
        return run_for(Duration::from_secs(seconds));
    }
    let (values, time) = (Drawn::of(1_000), Duration::from_millis(300));
    let full = Drawn { shards: Some(4), is_full: true, ..Drawn::of(100) };
    let kinds = [
        (false, values),
        (false, Drawn { life: WHOLE, ..values }),
        (false, full),
        (false, Drawn { life: WHOLE, idle: WHOLE, ..full }),
        (false, Drawn { resizes: true, ..full }),
        (true, values),
        (true, Drawn { life: WHOLE, most_weight: Some(1_000), ..values }),
        (true, Drawn { resizes: true, most_weight: Some(1_000), ..full }),
    ];
    for (seed, (is_objects, drawn)) in (1..).zip(kinds) {
        assert!(run(is_objects, drawn, time, seed).told > 0, "each round has a call that was disturbed");
    }
    for seed in 1..=6 {
        let is_objects = seed % 2 == 0;
        run(is_objects, Drawn::new(&mut Random::new(seed), is_objects), time / 3, seed);
    }
}

fn run_for(time: Duration) {
    let kind = env::var("LINEAR_KIND").unwrap_or_default();
    let since_1970 = SystemTime::now().duration_since(SystemTime::UNIX_EPOCH).unwrap();
    let mut seed = number("LINEAR_SEED").unwrap_or(since_1970.as_nanos() as u64 >> 8);
    let (begin, mut told, mut untold, mut calls) = (Instant::now(), 0, 0, 0);
    while begin.elapsed() < time {
        for (name, is_objects) in [("values", false), ("objects", true)] {
            if kind.is_empty() || kind == name {
                let rounds = run(is_objects, Drawn::new(&mut Random::new(seed), is_objects), Duration::from_secs(1), seed);
                (told, untold, calls) = (told + rounds.told, untold + rounds.untold, calls + rounds.calls);
            }
        }
        seed += 1;
    }
    println!("{told} rounds of {calls} calls were right, and {untold} say nothing");
}
