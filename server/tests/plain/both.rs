//! A client over a connection.
use super::client::MEGABYTE;
use cefrodild::connection::{Connection, Next};
use cefrodild::store::Store;
use cefrodild::stream::Stream;
use std::io::{self, ErrorKind, Read, Write};
use std::net::TcpStream;
use std::os::fd::OwnedFd;
use std::os::unix::net::UnixStream;

/// A connection, and its other end. Neither waits for the other.
pub struct Both {
    pub connection: Connection,
    pub stream: UnixStream,
}

impl Both {
    pub fn of(store: &Store) -> Both {
        let (accepted, stream) = UnixStream::pair().expect("there are descriptors");
        stream.set_nonblocking(true).expect("it is a socket");
        Both { connection: connection(store, accepted), stream }
    }

    /// Gives the connection turns until it waits for an event, or ends.
    pub fn turns(&mut self, store: &Store) -> io::Result<Next> {
        self.connection.read_again();
        loop {
            match self.connection.turn(store) {
                Ok(Next::Turn) => {}
                next => return next,
            }
        }
    }

    /// The same of a connection that nobody closes.
    pub fn turn(&mut self, store: &Store) -> Next {
        self.turns(store).expect("nobody closes the connection")
    }

    /// Sends this, and reads what it is answered.
    pub fn ask(&mut self, store: &Store, mut bytes: &[u8]) -> Vec<u8> {
        while !bytes.is_empty() {
            match self.stream.write(bytes) {
                Ok(length) => bytes = &bytes[length..],
                Err(why) => assert_eq!(why.kind(), ErrorKind::WouldBlock),
            }
            assert_eq!(self.turn(store), Next::Event);
        }
        self.read(store)
    }

    /// Reads all that it is answered.
    pub fn read(&mut self, store: &Store) -> Vec<u8> {
        let (mut bytes, mut part) = (Vec::new(), vec![0; MEGABYTE]);
        while let Ok(length @ 1..) = self.stream.read(&mut part) {
            bytes.extend_from_slice(&part[..length]);
            self.turn(store);
        }
        bytes
    }
}

/// The connection that has this end of a socket.
pub fn connection(store: &Store, end: impl Into<OwnedFd>) -> Connection {
    let socket = TcpStream::from(end.into());
    socket.set_nonblocking(true).expect("it is a socket");
    Connection::new(Stream::Plain(socket), store.seats.take(0).expect("a seat is free"))
}
