//! A memoizer that several threads share: a function is computed once for each argument that the cache still holds. A thread that
//! computes a result tries once to keep it. If another thread has the turn, the result isn't kept.
use cefrodil::{Cache, Handle, Shape};
use std::error::Error;
use std::thread;

const THREADS: usize = 4;
const NUMBERS: u64 = 10_000;

/// How many steps lead from a number to 1, if an even number is halved and an odd one becomes 3n + 1.
struct Steps {
    known: Handle<1>,
    computed: u64,
}

impl Steps {
    fn of(&mut self, number: u64) -> u64 {
        if number == 1 {
            return 0;
        }
        if let Some([steps]) = self.known.get(number).value() {
            return steps;
        }
        let steps = 1 + self.of(next(number));
        self.computed += 1;
        // A result that isn't kept is computed again.
        let _ = self.known.try_put(number, &[steps]);
        steps
    }
}

fn next(number: u64) -> u64 {
    if number % 2 == 0 {
        number / 2
    } else {
        3 * number + 1
    }
}

/// Counts the steps without a memory.
fn plain_steps(number: u64) -> u64 {
    std::iter::successors(Some(number), |last| (*last != 1).then(|| next(*last))).count() as u64 - 1
}

fn main() -> Result<(), Box<dyn Error>> {
    let handles = Cache::<1>::open(&Shape::for_items(8_000, 1)?, 1, THREADS)?;
    let threads: Vec<_> = handles
        .into_iter()
        .map(|known| {
            thread::spawn(move || {
                let mut steps = Steps { known, computed: 0 };
                let sum: u64 = (1..=NUMBERS).map(|number| steps.of(number)).sum();
                (sum, steps.computed)
            })
        })
        .collect();
    let expected: u64 = (1..=NUMBERS).map(plain_steps).sum();
    let mut all = 0;
    for thread in threads {
        let (sum, computed) = thread.join().map_err(|_| "a thread panicked")?;
        if sum != expected {
            return Err(format!("the sum is {sum} and must be {expected}").into());
        }
        all += computed;
    }
    println!("{all} of {} steps were computed", expected * THREADS as u64);
    if all >= expected * THREADS as u64 {
        return Err("no result was kept".into());
    }
    Ok(())
}
