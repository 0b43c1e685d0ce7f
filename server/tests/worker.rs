//! A worker and its clients.
mod plain;
use cefrodild::files::make_room;
use cefrodild::store::Store;
use cefrodild::worker::{Inbox, Worker};
use plain::both::connection;
use plain::client::{Client, MEGABYTE};
use std::io::{self, Read, Write};
use std::net::{TcpListener, TcpStream};
use std::sync::mpsc::channel;
use std::sync::Arc;
use std::thread::{sleep, spawn, yield_now, JoinHandle};
use std::time::{Duration, Instant};

/// How long a client may wait.
const LIMIT: Duration = Duration::from_secs(10);

/// A worker's thread, as those who hand clients to it see it.
struct Working {
    store: Arc<Store>,
    listener: TcpListener,
    inbox: Inbox,
}

/// How a worker ended.
type Ended = JoinHandle<io::Result<()>>;

impl Working {
    fn new() -> Working {
        let (working, worker) = Working::waiting();
        spawn(|| worker.run(0));
        working
    }

    /// One whose worker does not run yet.
    fn waiting() -> (Working, Worker) {
        Working::of(&Client::new(MEGABYTE).store)
    }

    /// The same, over this store.
    fn of(store: &Arc<Store>) -> (Working, Worker) {
        let (worker, inbox) = Worker::new(Arc::clone(store)).expect("there are descriptors");
        let (store, listener) = (Arc::clone(store), TcpListener::bind("127.0.0.1:0").expect("a port is free"));
        (Working { store, listener, inbox }, worker)
    }

    /// A client that the worker has.
    fn connect(&self) -> TcpStream {
        let stream = TcpStream::connect(self.listener.local_addr().expect("it is bound")).expect("it listens");
        stream.set_read_timeout(Some(LIMIT)).expect("it is a socket");
        let (accepted, _) = self.listener.accept().expect("one has connected");
        self.inbox.hand(connection(&self.store, accepted)).expect("the worker takes it");
        stream
    }

    /// Waits until there are so many clients.
    fn wait(&self, clients: usize) {
        let end = Instant::now() + LIMIT;
        while self.store.seats.taken() != clients {
            assert!(Instant::now() < end, "there are {} clients, and not {clients}", self.store.seats.taken());
            yield_now();
        }
    }
}

/// Waits until the worker has ended.
fn join(ended: Ended) -> io::Result<()> {
    let end = Instant::now() + LIMIT;
    while !ended.is_finished() {
        assert!(Instant::now() < end, "the worker does not end");
        yield_now();
    }
    ended.join().expect("it does not panic")
}

/// Asks for a sign of life.
fn is_answered(mut client: &TcpStream) -> bool {
    let mut answer = [0; 4];
    client.write_all(b"mn\r\n").and_then(|()| client.read_exact(&mut answer)).is_ok() && answer == *b"MN\r\n"
}

#[test]
fn a_client_does_not_take_the_place_of_another() {
    let working = Working::new();
    let (first, second) = (working.connect(), working.connect());
    assert!(is_answered(&first) && is_answered(&second));
    drop(first);
    working.wait(1);
    let third = working.connect();
    assert!(is_answered(&third) && is_answered(&second));
    working.wait(2);
}

#[test]
fn a_client_whose_connection_fails_leaves_its_seat() {
    let working = Working::new();
    let mut client = working.connect();
    client.write_all(b"mn\r\n").expect("it is connected");
    client.peek(&mut [0]).expect("it is answered");
    // An answer that was not read makes this a reset.
    drop(client);
    working.wait(0);
}

#[test]
fn clients_that_are_handed_together_are_all_answered() {
    let (working, worker) = Working::waiting();
    let clients: Vec<_> = (0..5).map(|_| working.connect()).collect();
    spawn(|| worker.run(0));
    assert!(clients.iter().all(is_answered));
    working.wait(5);
}

#[test]
fn what_clients_sent_before_they_were_handed_over_is_answered() {
    let (working, worker) = Working::waiting();
    let mut client = working.connect();
    client.write_all(b"mn\r\n").expect("it is connected");
    spawn(|| worker.run(0));
    let mut answer = [0; 4];
    client.read_exact(&mut answer).expect("it is answered");
    assert_eq!(answer, *b"MN\r\n");
}

#[test]
fn a_worker_ends_when_its_inbox_is_dropped() {
    // Often, since the worker may look before or after the end of the drop.
    for _ in 0..200 {
        let (working, worker) = Working::waiting();
        let ended = spawn(|| worker.run(0));
        drop(working);
        assert!(join(ended).is_ok());
    }
}

#[test]
fn idle_clients_are_left_when_the_inbox_is_dropped() {
    let (working, worker) = Working::waiting();
    let ended = spawn(|| worker.run(0));
    let mut clients = [working.connect(), working.connect()];
    assert!(clients.iter().all(is_answered));
    let store = Arc::clone(&working.store);
    drop(working);
    for client in &mut clients {
        assert_eq!(client.read(&mut [0]).expect("no error"), 0, "it has ended");
    }
    assert!(join(ended).is_ok());
    assert_eq!(store.seats.taken(), 0);
}

#[test]
fn a_client_that_quits_leaves_its_seat() {
    let working = Working::new();
    let (mut first, second) = (working.connect(), working.connect());
    first.write_all(b"set k 0 0 1\r\nv\r\nquit\r\nmn\r\n").expect("it is connected");
    let mut answer = Vec::new();
    // What is behind `quit` is not answered. It was not read either, so the end may be a reset.
    let _ = first.read_to_end(&mut answer);
    assert_eq!(answer, b"STORED\r\n");
    working.wait(1);
    assert!(is_answered(&second));
}

/// There are more than the worker hears of at once, so some have no event in its last round.
#[test]
fn all_that_clients_have_sent_is_answered_at_the_end() {
    const CLIENTS: usize = 3_000;
    make_room(2 * CLIENTS, 1).expect("the system allows as many files");
    let first = Client::with(MEGABYTE, &format!("-t1 -c {}", CLIENTS + 1));
    let (working, worker) = Working::of(&first.store);
    let ended = spawn(|| worker.run(0));
    let mut clients: Vec<_> = (0..CLIENTS).map(|_| working.connect()).collect();
    assert!(clients.iter().all(is_answered));
    // The worker waits within a command. When it goes on, it hears of the inbox first.
    let (go_on, waits) = channel();
    *first.control.before_look.lock().unwrap() = Some(Box::new(move || waits.recv().expect("it is told to")));
    clients[0].write_all(b"get k\r\n").expect("it is connected");
    while first.control.before_look.lock().unwrap().is_some() {
        yield_now();
    }
    let _last = working.connect();
    clients[1..].iter_mut().for_each(|client| client.write_all(b"mn\r\n").expect("it is connected"));
    drop(working);
    go_on.send(()).expect("it waits");
    let is_told = |mut client: &TcpStream| client.read(&mut [0]).is_ok_and(|length| length == 1);
    assert_eq!(clients.iter().filter(|client| is_told(client)).count(), CLIENTS);
    assert!(join(ended).is_ok());
}

/// The worker is woken once, though two are to be cut off.
#[test]
fn all_that_are_cut_off_together_hear_so() {
    cut_off_together(1);
}

#[test]
fn those_of_two_workers_hear_so() {
    cut_off_together(2);
}

/// Cuts two clients off, the first two of all, which are handed to so many workers in turn.
fn cut_off_together(workers: usize) {
    let mut first = Client::with(8 * MEGABYTE, "-t2 -m 16");
    let start = |index| {
        let (working, worker) = Working::of(&first.store);
        spawn(move || worker.run(index));
        working
    };
    let workings: Vec<_> = (0..workers).map(start).collect();
    let wait_for = |bytes: u64| {
        let end = Instant::now() + LIMIT;
        while first.store.books.budget.buffers() < bytes {
            assert!(Instant::now() < end, "clients hold {} bytes", first.store.books.budget.buffers());
            yield_now();
        }
    };
    let part = [&b"set a 0 0 200000\r\n"[..], &[b'x'; 199_000]].concat();
    let clients: Vec<_> = (0..40).map(|number| workings[number % workers].connect()).collect();
    let send = |clients: &[TcpStream]| clients.iter().for_each(|mut client| client.write_all(&part).expect("it is connected"));
    send(&clients[..2]);
    wait_for(2 * 199_000);
    send(&clients[2..]);
    wait_for(40 * 199_000);
    // So they have held for longer than the next one.
    sleep(Duration::from_secs(1));
    // With an item that leaves while it is read they hold more than half of the memory limit, by more than one of them holds.
    first.ask(&format!("set k 0 0 1000000\n{}\n", "x".repeat(1_000_000)));
    let (mut late, mut other) = (workings[0].connect(), workings[0].connect());
    // The system has no room for so many answers.
    late.write_all(&b"get k\r\n".repeat(50)).and_then(|()| late.peek(&mut [0])).expect("it is answered");
    other.write_all(&[&b"set k 0 0 40000\r\n"[..], &[b'x'; 40_000], b"\r\n"].concat()).expect("it is connected");
    let end = Instant::now() + LIMIT;
    let is_told = |client: &&TcpStream| client.set_nonblocking(true).and_then(|()| client.peek(&mut [0])).is_ok();
    while clients.iter().filter(is_told).count() < 2 {
        assert!(Instant::now() < end, "{} have heard so", clients.iter().filter(is_told).count());
        yield_now();
    }
}
