//! Connections of clients, turn by turn.
mod plain;
use cefrodild::connection::{Connection, Next};
use cefrodild::counts::Count;
use plain::both;
use plain::client::{Client, MEGABYTE};
use std::io::{ErrorKind, Read, Write};
use std::net::{Shutdown, TcpListener, TcpStream};
use std::thread::yield_now;
use std::time::{Duration, Instant};

/// How long answers that were sent may be on their way.
const LIMIT: Duration = Duration::from_secs(2);

/// A client over a connection, and the other end of that.
struct Both {
    /// Its store.
    client: Client,
    connection: Connection,
    /// The connection's end, for seeing what has arrived.
    arrived: TcpStream,
    stream: TcpStream,
}

impl Both {
    fn new() -> Both {
        let listener = TcpListener::bind("127.0.0.1:0").expect("a port is free");
        let stream = TcpStream::connect(listener.local_addr().expect("it is bound")).expect("it listens");
        let (accepted, _) = listener.accept().expect("one has connected");
        accepted.set_nodelay(true).and(stream.set_nodelay(true)).and(stream.set_nonblocking(true)).expect("they are sockets");
        let arrived = accepted.try_clone().expect("there is a descriptor");
        let client = Client::new(4 * MEGABYTE);
        Both { connection: both::connection(&client.store, accepted), client, arrived, stream }
    }

    fn turn(&mut self) -> Next {
        // As if an event had come.
        self.connection.read_again();
        self.connection.turn(&self.client.store).expect("nobody closes the connection")
    }

    /// Sends this, and gives the connection turns until it waits for an event.
    fn send(&mut self, bytes: &[u8]) -> Next {
        self.write(bytes);
        for _ in 0..1_000 {
            match self.turn() {
                Next::Turn => {}
                next => return next,
            }
        }
        panic!("it has one turn after the other");
    }

    fn write(&mut self, bytes: &[u8]) {
        self.stream.write_all(bytes).expect("the system takes so many bytes");
        let mut room = vec![0; bytes.len()];
        while self.arrived.peek(&mut room).unwrap_or(0) < bytes.len() {
            yield_now();
        }
    }

    /// What the client has been sent and has not read.
    fn read(&mut self) -> Vec<u8> {
        let mut bytes = Vec::new();
        match self.stream.read_to_end(&mut bytes) {
            Err(why) if why.kind() != ErrorKind::WouldBlock => panic!("{why}"),
            _ => bytes,
        }
    }

    /// The same, as soon as there are so many bytes.
    fn read_all(&mut self, bytes: usize) -> Vec<u8> {
        let (mut read, end) = (self.read(), Instant::now() + LIMIT);
        while read.len() < bytes && Instant::now() < end {
            yield_now();
            read.append(&mut self.read());
        }
        read
    }

    /// Asks until the system has no room for the last answer. Returns how many bytes all answers have.
    fn fill(&mut self) -> usize {
        const SIZE: usize = 50_000;
        self.store(SIZE);
        for asked in 1..1_000 {
            assert_eq!(self.send(b"get k\r\n"), Next::Event);
            if !self.connection.is_idle() {
                return asked * answer(SIZE);
            }
        }
        panic!("the connection is idle, though nobody reads its answers");
    }

    /// Reads so many bytes, with a turn behind each part.
    fn drain(&mut self, bytes: usize) {
        let mut read = 0;
        while read < bytes {
            read += self.read().len();
            assert_ne!(self.turn(), Next::Nothing);
            yield_now();
        }
        assert_eq!(read, bytes);
    }

    fn count(&self, count: Count) -> u64 {
        self.client.store.books.counts.get(count)
    }

    /// Stores a value of this size under `k`.
    fn store(&mut self, size: usize) {
        let answer = self.client.ask(&format!("set k 0 0 {size}\n{}\n", "x".repeat(size)));
        assert_eq!(answer, "STORED\n");
    }
}

/// The length of what `get k` answers.
fn answer(size: usize) -> usize {
    format!("VALUE k 0 {size}\r\n\r\nEND\r\n").len() + size
}

#[test]
fn many_commands_behind_a_long_one() {
    let mut both = Both::new();
    let long = format!("set k 0 0 3000\r\n{}\r\n", "x".repeat(3_000));
    // It comes in two parts, so the connection waits for as many bytes. What follows has fewer in the end.
    assert_eq!(both.send(&long.as_bytes()[..20]), Next::Event);
    let rest = [&long.as_bytes()[20..], &b"mn\r\n".repeat(1_000)].concat();
    assert_eq!(both.send(&rest), Next::Event);
    let answers = [&b"STORED\r\n"[..], &b"MN\r\n".repeat(1_000)].concat();
    assert_eq!(both.read_all(answers.len()), answers);
}

#[test]
fn a_client_that_sends_much_does_not_keep_others_waiting() {
    let mut both = Both::new();
    both.write(&b"mn\r\n".repeat(5_000));
    assert_eq!(both.turn(), Next::Turn);
    assert!(both.read().len() < 4 * 5_000, "there is more to do");
}

#[test]
fn a_client_that_does_not_read_is_left_alone_until_it_does() {
    const SIZE: usize = 100_000;
    let mut both = Both::new();
    both.store(SIZE);
    assert_eq!(both.send(&b"get k\r\n".repeat(200)), Next::Event);
    for _ in 0..10 {
        assert_eq!(both.turn(), Next::Event);
    }
    assert!(!both.connection.is_idle());
    both.drain(200 * answer(SIZE));
    assert!(both.connection.is_idle());
}

#[test]
fn a_client_that_quits_gets_all_its_answers() {
    let mut both = Both::new();
    let waiting = both.fill();
    // The system may have more room by now, and end it at once.
    let (mut bytes, mut next) = (0, both.send(b"quit\r\n"));
    while next != Next::Nothing {
        bytes += both.read().len();
        next = both.turn();
        yield_now();
    }
    assert_eq!(bytes + both.read_all(waiting - bytes).len(), waiting);
}

#[test]
fn a_client_is_idle_between_commands() {
    let mut both = Both::new();
    assert!(both.connection.is_idle());
    for (part, is_idle) in
        [("s", false), ("et k 0 0 5\r\n", false), ("va", false), ("lue\r\n", true), ("get k", false), ("\r\n", true)]
    {
        assert_eq!((both.send(part.as_bytes()), both.connection.is_idle()), (Next::Event, is_idle), "{part:?}");
    }
}

#[test]
fn a_client_is_not_idle_while_answers_wait() {
    let mut both = Both::new();
    let waiting = both.fill();
    assert!(!both.connection.is_idle());
    let mut bytes = 0;
    while bytes < waiting {
        bytes += both.read().len();
        assert_eq!(both.turn(), Next::Event);
        yield_now();
    }
    assert!(both.connection.is_idle());
}

/// What is left of a client's answers goes into a small buffer. The thread keeps the large one for the next client.
#[test]
fn no_client_gets_an_answer_of_another_one() {
    let mut client = Client::new(MEGABYTE);
    client.ask(&format!("set k 0 0 1000\n{}\n", "x".repeat(1_000)));
    let ask = |both: &mut both::Both, command: &[u8]| {
        both.stream.write_all(command).expect("it takes a command");
        assert_eq!(both.turn(&client.store), Next::Event);
    };
    let (mut slow, mut other) = (both::Both::of(&client.store), both::Both::of(&client.store));
    for _ in 0..10_000 {
        if slow.connection.is_idle() {
            ask(&mut slow, b"get k\r\n");
        }
    }
    assert!(!slow.connection.is_idle(), "nobody reads its answers");
    assert_eq!(other.ask(&client.store, b"mn\r\n"), b"MN\r\n");
}

#[test]
fn bytes_are_counted() {
    let mut both = Both::new();
    assert_eq!(both.send(&b"mn\r\n".repeat(100)), Next::Event);
    assert_eq!(both.read_all(400).len(), 400);
    assert_eq!((both.count(Count::BytesRead), both.count(Count::BytesWritten)), (400, 400));
}

#[test]
fn commands_that_are_cut_anywhere() {
    let script = b"set k 0 0 5\r\nvalue\r\nmn\r\nget k none\r\ndelete k\r\n";
    let answers = b"STORED\r\nMN\r\nVALUE k 0 5\r\nvalue\r\nEND\r\nDELETED\r\n";
    let mut both = Both::new();
    for cut in 1..script.len() {
        for part in [&script[..cut], &script[cut..]] {
            assert_eq!(both.send(part), Next::Event);
        }
        assert_eq!(both.read_all(answers.len()), answers, "{cut}");
        assert!(both.connection.is_idle());
    }
}

#[test]
fn bytes_that_wait_are_counted_once() {
    let mut both = Both::new();
    let waiting = both.fill();
    both.drain(waiting);
    assert_eq!(both.count(Count::BytesWritten), waiting as u64);
}

#[test]
fn a_client_holds_no_more_than_it_needs() {
    let mut both = Both::new();
    assert_eq!(both.send(b"set k 0 0 700000\r\n"), Next::Event);
    for _ in 0..12 {
        assert_eq!(both.send(&[b'x'; 50_000]), Next::Event);
    }
    let held = both.client.store.books.budget.buffers();
    assert!((600_000..701_000).contains(&held), "{held}");
}

/// The system has memory for the buffer of one that sends a large value, and the items have room beside it.
#[test]
fn no_item_gives_way_to_what_a_client_sends() {
    let mut both = Both::new();
    assert_eq!(both.client.ask("set a 0 0 1\n5\n"), "STORED\n");
    assert_eq!(both.send(b"set k 0 0 700000\r\n"), Next::Event);
    for _ in 0..14 {
        assert_eq!(both.send(&[b'x'; 50_000]), Next::Event);
    }
    assert_eq!(both.send(b"\r\n"), Next::Event);
    assert_eq!(both.read_all(8), b"STORED\r\n");
    assert_eq!((both.count(Count::Evicted), both.client.store.index.len()), (0, 2));
}

#[test]
fn a_client_that_sends_no_more_gets_all_its_answers() {
    let mut both = Both::new();
    let waiting = both.fill();
    both.stream.shutdown(Shutdown::Write).expect("it is connected");
    let (mut bytes, end) = (0, Instant::now() + LIMIT);
    while both.turn() != Next::Nothing {
        assert!(Instant::now() < end, "the connection does not end");
        bytes += both.read().len();
        yield_now();
    }
    assert_eq!(bytes + both.read_all(waiting - bytes).len(), waiting);
}

#[test]
fn what_a_client_began_and_did_not_end_is_not_done() {
    for part in ["set k 0 0 5\r\nvalu", "set k 0 0 5\r\nvalue\r", "set k 0 0 5", "get k"] {
        let mut both = Both::new();
        both.write(part.as_bytes());
        both.stream.shutdown(Shutdown::Write).expect("it is connected");
        let end = Instant::now() + LIMIT;
        while both.turn() != Next::Nothing {
            assert!(Instant::now() < end, "{part}: the connection does not end");
            yield_now();
        }
        assert!(both.read().is_empty() && both.client.store.index.len() == 0, "{part}");
    }
}

#[test]
fn a_connection_that_fails_is_an_error() {
    let mut both = Both::new();
    both.fill();
    let Both { client, mut connection, stream, .. } = both;
    // Answers that were not read make this a reset.
    drop(stream);
    let end = Instant::now() + LIMIT;
    loop {
        connection.read_again();
        match connection.turn(&client.store) {
            Err(why) => return assert!(matches!(why.kind(), ErrorKind::ConnectionReset | ErrorKind::BrokenPipe), "{why}"),
            Ok(next) => assert!(next != Next::Nothing && Instant::now() < end, "{next:?}"),
        }
        yield_now();
    }
}

#[test]
fn what_is_before_quit_is_sent_to_a_client_that_reads_late() {
    let mut client = Client::new(MEGABYTE);
    client.ask(&format!("set k 0 0 10000\n{}\n", "5".repeat(10_000)));
    let ask = |both: &mut both::Both, command: &[u8]| {
        both.stream.write_all(command).expect("it takes a command");
        assert_eq!(both.turn(&client.store), Next::Event);
        both.connection.is_idle()
    };
    let mut first = both::Both::of(&client.store);
    // So many answers are sent, and the next one waits.
    let count = (0..10_000).take_while(|_| ask(&mut first, b"get k\r\n")).count();
    let mut late = both::Both::of(&client.store);
    assert!((0..count).all(|_| ask(&mut late, b"get k\r\n")) && !ask(&mut late, b"get k\r\nquit\r\n"));
    let one = answer(10_000);
    assert_eq!(late.read(&client.store).len(), (count + 1) * one);
    assert_eq!(late.turn(&client.store), Next::Nothing);
}
