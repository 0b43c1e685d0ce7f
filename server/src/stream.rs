//! A client's connection, with TLS or without.
use crate::log::Seldom;
#[cfg(feature = "tls")]
use crate::tls::Session;
use std::fmt::{self, Display, Formatter};
use std::io::{self, ErrorKind, IoSlice, Read, Write};
use std::net::TcpStream;
use std::os::fd::{AsRawFd, RawFd};

/// How many lines a minute say whose handshake or records are wrong.
const MOST_TOLD: u32 = 20;

/// What a client sends and is sent. All that its socket is asked for is the same for a Unix socket, but its address.
pub enum Stream {
    Plain(TcpStream),
    #[cfg(feature = "tls")]
    Tls(Box<Session>),
}

/// The same call of each kind of stream.
macro_rules! each {
    ($self:ident, $stream:ident => $call:expr) => {
        match $self {
            Stream::Plain($stream) => $call,
            #[cfg(feature = "tls")]
            Stream::Tls($stream) => $call,
        }
    };
}

impl Stream {
    pub fn socket(&self) -> &TcpStream {
        match self {
            Stream::Plain(socket) => socket,
            #[cfg(feature = "tls")]
            Stream::Tls(session) => session.socket(),
        }
    }

    /// Whether nothing more had come, if a read with more room returned fewer bytes. One of TLS ends with a record.
    pub fn is_drained_by_short_reads(&self) -> bool {
        matches!(self, Stream::Plain(_))
    }
}

impl Read for Stream {
    fn read(&mut self, room: &mut [u8]) -> io::Result<usize> {
        each!(self, stream => stream.read(room)).inspect_err(|why| {
            static SELDOM: Seldom = Seldom::new(MOST_TOLD);
            // The system's errors are no news.
            if why.get_ref().is_some() {
                SELDOM.log(format_args!("{self} is cut off: {why}"));
            }
        })
    }
}

impl Write for Stream {
    fn write(&mut self, bytes: &[u8]) -> io::Result<usize> {
        each!(self, stream => stream.write(bytes))
    }

    fn write_vectored(&mut self, parts: &[IoSlice]) -> io::Result<usize> {
        each!(self, stream => stream.write_vectored(parts))
    }

    fn flush(&mut self) -> io::Result<()> {
        each!(self, stream => stream.flush())
    }
}

impl AsRawFd for Stream {
    fn as_raw_fd(&self) -> RawFd {
        self.socket().as_raw_fd()
    }
}

impl Display for Stream {
    fn fmt(&self, text: &mut Formatter) -> fmt::Result {
        match self.socket().peer_addr() {
            Ok(address) => address.fmt(text),
            Err(why) if why.kind() == ErrorKind::NotConnected => text.write_str("a client that has left"),
            Err(_) => text.write_str("a client of the Unix socket"),
        }
    }
}
