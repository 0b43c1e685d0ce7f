//! How clients are accepted.
use cefrodild::accept::accept_some;
use cefrodild::listen::Place;
use std::io::{Error, ErrorKind};
use std::net::TcpStream;
use std::time::Duration;

#[test]
fn a_round_ends_though_clients_keep_coming() {
    for answer in [Ok(()), Err(ErrorKind::ConnectionAborted), Err(ErrorKind::Interrupted)] {
        let mut calls = 0;
        let next = accept_some(
            || {
                calls += 1;
                assert!(calls < 10_000, "the round has no end");
                answer.map_err(Error::from)
            },
            |()| {},
        );
        // Those that wait still are accepted at once, and not at the next event: there may be none.
        assert_eq!(next, Some(Duration::ZERO));
    }
}

#[test]
fn each_client_that_waits_is_handed_over() {
    let (mut clients, mut handed) = ([3, 2, 1].into_iter(), Vec::new());
    let next = accept_some(|| clients.next().ok_or(ErrorKind::WouldBlock.into()), |client| handed.push(client));
    assert_eq!((handed, next), (vec![3, 2, 1], None));
}

#[test]
fn a_system_without_room_is_asked_again_later() {
    let mut calls = 0;
    let next = accept_some(
        || -> Result<(), Error> {
            calls += 1;
            Err(ErrorKind::OutOfMemory.into())
        },
        |()| {},
    );
    assert_eq!(calls, 1);
    // Soon, but not at once: the system has no more room yet.
    assert!(next.is_some_and(|pause| !pause.is_zero() && pause <= Duration::from_secs(1)));
}

/// Without that the system would hold a small answer back until the one before has arrived.
#[test]
fn answers_are_not_held_back() {
    let listeners = Place::Host("127.0.0.1".into(), 0).listen().expect("a port is free");
    let _client = TcpStream::connect(listeners[0].to_string()).expect("it listens");
    let accepted = listeners[0].accept().expect("one has connected");
    assert!(accepted.socket().nodelay().expect("it is a socket"));
}
