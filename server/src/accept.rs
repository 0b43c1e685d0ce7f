//! Accepts the clients that wait, so many at a time.
use crate::log::Seldom;
use std::io::{self, ErrorKind};
use std::time::Duration;

/// How many tries to accept a client there are in one round. Between rounds the server looks for signals.
const TRIES: u32 = 64;

/// How long it waits before it tries again to accept a client, if the system had no room for one.
const PAUSE: Duration = Duration::from_millis(50);

/// Accepts clients, and hands them over. Returns when to go on, if some may still wait.
pub fn accept_some<T>(mut accept: impl FnMut() -> io::Result<T>, mut hand: impl FnMut(T)) -> Option<Duration> {
    for _ in 0..TRIES {
        match accept() {
            Ok(client) => hand(client),
            Err(why) if why.kind() == ErrorKind::WouldBlock => return None,
            Err(why) if matches!(why.kind(), ErrorKind::Interrupted | ErrorKind::ConnectionAborted) => {}
            Err(why) => {
                static SELDOM: Seldom = Seldom::new(1);
                SELDOM.log(format_args!("clients can't be accepted: {why}"));
                return Some(PAUSE);
            }
        }
    }
    Some(Duration::ZERO)
}
