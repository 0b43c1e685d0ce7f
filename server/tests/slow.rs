//! Clients of one worker that read slowly: each is answered what it asked, whole and in order.
mod plain;
use cefrodild::store::Store;
use cefrodild::worker::{Inbox, Worker};
use plain::both::connection;
use plain::client::{Client, MEGABYTE};
use plain::draw::Draw;
use std::io::{self, ErrorKind, Read, Write};
use std::mem::size_of;
use std::os::fd::AsRawFd;
use std::os::unix::net::UnixStream;
use std::sync::Arc;
use std::thread::{spawn, yield_now};
use std::time::{Duration, Instant};

const CLIENTS: usize = 24;
const KEYS: usize = 20;
const STEPS: usize = 20_000;

/// A client asks nothing more while it is still to read so many bytes.
const MOST_ASKED: usize = 100_000;

/// How long nothing may be answered.
const LIMIT: Duration = Duration::from_secs(10);

/// A client with keys of its own.
struct Slow {
    name: String,
    stream: UnixStream,
    values: Vec<Option<String>>,
    /// What it is still to send, and to read.
    commands: Vec<u8>,
    answers: Vec<u8>,
}

impl Slow {
    fn new(number: usize, stream: UnixStream) -> Slow {
        Slow { name: format!("client{number}"), stream, values: vec![None; KEYS], commands: Vec::new(), answers: Vec::new() }
    }

    fn ask(&mut self, draw: &mut Draw) {
        if draw.below(2) == 0 {
            self.set(draw);
        } else {
            self.get(draw);
        }
    }

    fn set(&mut self, draw: &mut Draw) {
        let key = draw.below(KEYS);
        let value = format!("{} {key} {};", self.name, draw.below(1_000_000)).repeat(draw.below(100));
        self.commands.extend(format!("set {}_{key} 0 0 {}\r\n{value}\r\n", self.name, value.len()).bytes());
        self.answers.extend(b"STORED\r\n");
        self.values[key] = Some(value);
    }

    fn get(&mut self, draw: &mut Draw) {
        self.commands.extend(b"get");
        for _ in 0..=draw.below(KEYS) {
            let key = draw.below(KEYS);
            self.commands.extend(format!(" {}_{key}", self.name).bytes());
            if let Some(value) = &self.values[key] {
                self.answers.extend(format!("VALUE {}_{key} 0 {}\r\n{value}\r\n", self.name, value.len()).bytes());
            }
        }
        self.commands.extend(b"\r\n");
        self.answers.extend(b"END\r\n");
    }

    /// Sends at most so many bytes.
    fn send(&mut self, most: usize) {
        let part = &self.commands[..most.min(self.commands.len())];
        let length = done(self.stream.write(part));
        self.commands.drain(..length);
    }

    /// Reads at most so many bytes. Returns how many have come.
    fn read(&mut self, most: usize) -> usize {
        let mut part = vec![0; most];
        let length = done(self.stream.read(&mut part));
        let part = &part[..length];
        assert!(self.answers.starts_with(part), "{} is answered: {}", self.name, String::from_utf8_lossy(part));
        self.answers.drain(..length);
        length
    }
}

/// How many bytes the system has taken or given now.
fn done(result: io::Result<usize>) -> usize {
    match result {
        Err(why) if why.kind() == ErrorKind::WouldBlock => 0,
        length => length.expect("nobody closes the connection"),
    }
}

/// The two ends of a connection. The system keeps few bytes that the first one has sent.
fn narrow_pair() -> (UnixStream, UnixStream) {
    let (end, other) = UnixStream::pair().expect("there are descriptors");
    other.set_nonblocking(true).expect("it is a socket");
    let bytes: libc::c_int = 4096;
    // SAFETY: the descriptor is open, and the option is a number of this size.
    let result = unsafe {
        let option = (&raw const bytes).cast();
        libc::setsockopt(end.as_raw_fd(), libc::SOL_SOCKET, libc::SO_SNDBUF, option, size_of::<libc::c_int>() as libc::socklen_t)
    };
    assert_eq!(result, 0, "{}", io::Error::last_os_error());
    (end, other)
}

/// A client of the worker whose inbox this is.
fn connected(store: &Store, inbox: &Inbox, number: usize) -> Slow {
    let (end, stream) = narrow_pair();
    inbox.hand(connection(store, end)).expect("the worker takes it");
    Slow::new(number, stream)
}

/// Sends and reads what is left.
fn finish(clients: &mut [Slow]) {
    let mut last = Instant::now();
    while clients.iter().any(|client| !client.answers.is_empty()) {
        for client in &mut *clients {
            client.send(usize::MAX);
            if client.read(MEGABYTE) != 0 {
                last = Instant::now();
            }
        }
        assert!(last.elapsed() < LIMIT, "the worker is silent");
        yield_now();
    }
}

#[test]
fn slow_readers_are_answered_what_they_asked() {
    let store = Client::new(64 * MEGABYTE).store;
    let (worker, inbox) = Worker::new(Arc::clone(&store)).expect("there are descriptors");
    let mut clients: Vec<_> = (0..CLIENTS).map(|number| connected(&store, &inbox, number)).collect();
    spawn(|| worker.run(0));
    let draw = &mut Draw(1);
    for _ in 0..STEPS {
        let client = &mut clients[draw.below(CLIENTS)];
        if client.commands.is_empty() && client.answers.len() < MOST_ASKED {
            (0..=draw.below(4)).for_each(|_| client.ask(draw));
        }
        client.send(1 + draw.below(10_000));
        client.read(100 + draw.below(50_000));
    }
    finish(&mut clients);
}
