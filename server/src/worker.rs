//! A thread that answers some of the clients.
use crate::connection::{warm_up, Connection, Next};
use crate::counts::{self, Count};
use crate::expire::PAUSE;
use crate::holders::Home;
use crate::log::{log, Seldom};
use crate::store::Store;
use mio::unix::SourceFd;
use mio::{Events, Interest, Poll, Token, Waker};
use slab::Slab;
use std::io::{self, ErrorKind};
use std::mem;
use std::sync::mpsc::{channel, Receiver, Sender, TryRecvError};
use std::sync::Arc;
use std::time::{Duration, Instant};

/// The token of what wakes the worker. Those of connections are smaller.
const WAKE: Token = Token(usize::MAX);

/// How many events are taken at a time.
const EVENTS: usize = 1024;

/// How long clients may go on after the server was told to end, if a command of theirs has begun.
const GRACE: Duration = Duration::from_secs(2);

/// What hands clients to a worker. When it is dropped, the worker ends.
pub struct Inbox {
    clients: Option<Sender<Connection>>,
    waker: Arc<Waker>,
}

pub struct Worker {
    store: Arc<Store>,
    poll: Poll,
    clients: Receiver<Connection>,
    /// The place of each is its token.
    connections: Slab<Box<Connection>>,
    /// Whose turn it is, though no event came.
    ready: Vec<Token>,
    /// When the worker ends, if it was told to.
    end: Option<Instant>,
    /// When it tidies up next.
    next_tidy: Instant,
    /// When it woke last. The time is asked for once each time.
    woke: Instant,
    waker: Arc<Waker>,
}

impl Inbox {
    pub fn hand(&self, client: Connection) -> io::Result<()> {
        let sent = self.clients.as_ref().is_some_and(|clients| clients.send(client).is_ok());
        self.wake();
        sent.then_some(()).ok_or(ErrorKind::BrokenPipe.into())
    }

    /// If the worker can't be woken, it comes to what it was handed when it wakes next.
    fn wake(&self) {
        if let Err(why) = self.waker.wake() {
            log(format_args!("a worker can't be woken: {why}"));
        }
    }
}

impl Drop for Inbox {
    fn drop(&mut self) {
        self.clients = None;
        self.wake();
    }
}

impl Worker {
    pub fn new(store: Arc<Store>) -> io::Result<(Worker, Inbox)> {
        let poll = Poll::new()?;
        let waker = Arc::new(Waker::new(poll.registry(), WAKE)?);
        let (sender, clients) = channel();
        let inbox = Inbox { clients: Some(sender), waker: Arc::clone(&waker) };
        // It need not grow later, when the system may refuse memory.
        let connections = Slab::with_capacity(store.options.connections);
        let (ready, woke, end) = (Vec::new(), Instant::now(), None);
        let next_tidy = woke + PAUSE;
        Ok((Worker { store, poll, clients, connections, ready, end, next_tidy, woke, waker }, inbox))
    }

    /// Answers clients until the inbox is dropped.
    pub fn run(mut self, index: usize) -> io::Result<()> {
        counts::take_place(index);
        warm_up();
        let (mut events, mut ready) = (Events::with_capacity(EVENTS), Vec::new());
        while !self.has_ended() {
            match self.poll.poll(&mut events, self.timeout()) {
                Err(why) if why.kind() != ErrorKind::Interrupted => return Err(why),
                _ => {}
            }
            self.woke = Instant::now();
            self.tidy_up_at_times();
            mem::swap(&mut ready, &mut self.ready);
            for event in &events {
                if let Some(connection) = self.connections.get_mut(event.token().0) {
                    connection.note(event);
                }
                ready.push(event.token());
            }
            ready.sort_unstable();
            ready.dedup();
            ready.drain(..).for_each(|token| self.serve(token));
        }
        Ok(())
    }

    fn timeout(&self) -> Option<Duration> {
        if !self.ready.is_empty() {
            return Some(Duration::ZERO);
        }
        let next = self.end.map_or(self.next_tidy, |end| end.min(self.next_tidy));
        Some(next.saturating_duration_since(self.woke))
    }

    fn tidy_up_at_times(&mut self) {
        if self.woke >= self.next_tidy {
            self.next_tidy = self.woke + PAUSE;
            self.leave_idle();
            self.store.tidy_up();
        }
    }

    /// Leaves the clients that have had no turn for too long.
    fn leave_idle(&mut self) {
        let Some(most) = self.store.options.idle_timeout else { return };
        let (now, before) = (self.second(), self.connections.len());
        self.connections.retain(|_, client| now.saturating_sub(client.last_turn()) <= most);
        self.store.books.counts.add_many(Count::IdleKicks, (before - self.connections.len()) as u64);
    }

    /// When it woke, in seconds since the server started.
    fn second(&self) -> u32 {
        self.store.books.clock.second_of(self.woke)
    }

    fn has_ended(&self) -> bool {
        self.end.is_some_and(|end| self.connections.is_empty() || self.woke >= end)
    }

    fn serve(&mut self, token: Token) {
        if token == WAKE {
            self.take_clients();
            while let Some(token) = self.store.seats.next_cut(&self.waker) {
                self.ready.push(token);
            }
            return;
        }
        let second = self.second();
        let Some(connection) = self.connections.get_mut(token.0) else { return };
        let next = connection.turn(&self.store);
        connection.note_turn(second);
        match next {
            Ok(Next::Turn) => self.ready.push(token),
            Ok(Next::Event) if self.end.is_none() || !connection.is_idle() => {}
            _ => drop(self.connections.remove(token.0)),
        }
    }

    fn take_clients(&mut self) {
        let is_last = loop {
            match self.clients.try_recv() {
                Ok(client) => self.add(client),
                Err(none) => break none == TryRecvError::Disconnected,
            }
        };
        if is_last && self.end.is_none() {
            self.end = Some(Instant::now() + GRACE);
            // Each has a last turn, for what it has sent.
            for (place, connection) in &mut self.connections {
                connection.read_again();
                self.ready.push(Token(place));
            }
        }
    }

    fn add(&mut self, mut client: Connection) {
        let second = self.second();
        let entry = self.connections.vacant_entry();
        let token = Token(entry.key());
        client.settle(Home { waker: Arc::clone(&self.waker), token });
        client.note_turn(second);
        match self.poll.registry().register(&mut SourceFd(&client.file()), token, Interest::READABLE | Interest::WRITABLE) {
            Ok(()) => drop(entry.insert(Box::new(client))),
            Err(why) => {
                static SELDOM: Seldom = Seldom::new(1);
                SELDOM.log(format_args!("clients can't be registered: {why}"));
            }
        }
    }
}
