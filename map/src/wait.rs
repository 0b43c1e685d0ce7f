//! Waiting that ends: a number of tries, with pauses between them.
use std::hint::spin_loop;
use std::thread::{sleep, yield_now};
use std::time::Duration;

/// How often a call tries before it returns an error. That takes over a second.
pub(crate) const TRIES: u32 = 10_000;

/// How often a lookup tries before it is a miss. That takes over a tenth of a second.
pub(crate) const LOOKS: u32 = 1_000;

/// How a call waits before it tries again. The first pauses spin, each twice as long as the one before. Then the thread yields, and at last it
/// sleeps: the thread that has the turn may have to wait for a processor.
#[derive(Clone, Copy, Debug, PartialEq, Eq)]
pub(crate) enum Pause {
    /// So many spins.
    Spin(u32),
    Yield,
    Sleep(Duration),
}

const SPINS: u32 = 7;
/// A call that tries more often sleeps between its tries.
pub(crate) const SLEEPS_FROM: u32 = 200;
const SLEEP: Duration = Duration::from_micros(100);

/// Calls `attempt` until it returns something, at most so many times.
pub(crate) fn within<T>(tries: u32, mut attempt: impl FnMut() -> Option<T>) -> Option<T> {
    for tried in 0..tries {
        if tried > 0 {
            pause(tried - 1);
        }
        let done = attempt();
        if done.is_some() {
            return done;
        }
    }
    None
}

fn pause(number: u32) {
    #[cfg(test)]
    if let Some(act) = IN_PAUSE.take() {
        act();
    }
    match Pause::of(number) {
        Pause::Spin(spins) => (0..spins).for_each(|_| spin_loop()),
        Pause::Yield => yield_now(),
        Pause::Sleep(time) => sleep(time),
    }
}

impl Pause {
    /// That after so many others.
    pub fn of(number: u32) -> Pause {
        if number < SPINS {
            Pause::Spin(1 << number)
        } else if number < SLEEPS_FROM {
            Pause::Yield
        } else {
            Pause::Sleep(SLEEP)
        }
    }
}

#[cfg(test)]
thread_local! {
    /// What a test does in the next pause of this thread.
    pub(crate) static IN_PAUSE: std::cell::Cell<Option<Box<dyn FnOnce()>>> = const { std::cell::Cell::new(None) };
}
