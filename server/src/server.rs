//! Accepts clients, and hands them to the workers in turn.
use crate::accept::accept_some;
use crate::connection::Connection;
use crate::counts::Count;
use crate::listen::Listener;
use crate::log::{log, Seldom};
use crate::signal;
use crate::store::Store;
use crate::stream::Stream;
use crate::worker::{Inbox, Worker};
use mio::unix::SourceFd;
use mio::{Events, Interest, Poll, Token};
use std::fmt::Display;
use std::io::{self, ErrorKind, Write};
use std::os::fd::AsRawFd;
use std::sync::Arc;
use std::thread;

/// The token of the file of signals. Those of listeners are smaller.
const SIGNAL: Token = Token(usize::MAX);

pub struct Server {
    listeners: Vec<Listener>,
    workers: Workers,
}

/// The workers, to whom clients are handed in turn.
struct Workers {
    store: Arc<Store>,
    inboxes: Vec<Inbox>,
    handed: usize,
}

/// An error with what it is about.
pub fn named(what: &impl Display, why: &io::Error) -> io::Error {
    io::Error::new(why.kind(), format!("{what}: {why}"))
}

impl Server {
    /// Serves clients, and ends at SIGTERM, SIGINT or SIGUSR1, when what clients have sent is answered. Calls `ready` when it can serve.
    pub fn run(store: Arc<Store>, listeners: Vec<Listener>, ready: impl FnOnce() -> io::Result<()>) -> io::Result<()> {
        let signal = signal::file()?;
        let mut poll = Poll::new()?;
        for (index, listener) in listeners.iter().enumerate() {
            poll.registry().register(&mut SourceFd(&listener.as_raw_fd()), Token(index), Interest::READABLE)?;
        }
        poll.registry().register(&mut SourceFd(&signal.as_raw_fd()), SIGNAL, Interest::READABLE)?;
        let (mut inboxes, mut threads) = (Vec::new(), Vec::new());
        for index in 0..store.options.threads {
            let (worker, inbox) = Worker::new(Arc::clone(&store))?;
            inboxes.push(inbox);
            threads.push(thread::Builder::new().name(format!("worker {index}")).spawn(move || worker.run(index))?);
        }
        store.seats.show_listeners(listeners.iter().map(AsRawFd::as_raw_fd).collect());
        ready()?;
        let mut server = Server { listeners, workers: Workers { store, inboxes, handed: 0 } };
        server.accept_all(&mut poll)?;
        drop(server);
        threads.into_iter().try_for_each(|thread| thread.join().unwrap_or_else(|_| Err(ErrorKind::Other.into())))
    }

    fn accept_all(&mut self, poll: &mut Poll) -> io::Result<()> {
        let (mut events, mut timeout) = (Events::with_capacity(2), None);
        loop {
            match poll.poll(&mut events, timeout) {
                Err(why) if why.kind() != ErrorKind::Interrupted => return Err(why),
                _ => {}
            }
            if events.iter().any(|event| event.token() == SIGNAL) {
                return Ok(());
            }
            let accepted =
                self.listeners.iter().map(|listener| accept_some(|| listener.accept(), |stream| self.workers.hand(stream)));
            timeout = accepted.flatten().min();
        }
    }
}

impl Workers {
    fn hand(&mut self, mut stream: Stream) {
        let Some(seat) = self.store.seats.take(stream.as_raw_fd()) else {
            static SELDOM: Seldom = Seldom::new(1);
            self.store.books.counts.add(Count::Rejected);
            SELDOM.log(format_args!("clients are turned away: {} are connected (-c)", self.store.options.connections));
            // If the client doesn't get this, it sees all the same that the connection ends.
            let _ = stream.write(b"ERROR Too many open connections\r\n");
            return;
        };
        self.store.books.counts.add(Count::Connections);
        self.handed += 1;
        let inbox = &self.inboxes[self.handed % self.inboxes.len()];
        if let Err(why) = inbox.hand(Connection::new(stream, seat)) {
            log(format_args!("a client is lost: {why}"));
        }
    }
}
