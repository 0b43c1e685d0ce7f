//! A client without a connection.
use super::{Control, Plain};
use cefrodild::books::Books;
use cefrodild::dialogue::{Dialogue, Turn};
use cefrodild::index::Index;
use cefrodild::map_index::MapIndex;
use cefrodild::options::{parse, Asked, Options};
use cefrodild::output::{Output, MOST_WAITING};
use cefrodild::request::{How, Order};
use cefrodild::rss_limit::RssLimit;
use cefrodild::slabs;
use cefrodild::store::Store;
use std::mem::forget;
use std::sync::{Arc, Once};

pub const MEGABYTE: usize = 1 << 20;

pub struct Client {
    pub store: Arc<Store>,
    pub control: Arc<Control>,
    dialogue: Dialogue,
    /// What it has sent and the store has not taken.
    pub input: Vec<u8>,
}

impl Client {
    /// The client of a store of its own, whose items may take so many bytes.
    pub fn new(memory: usize) -> Client {
        Client::with(memory, "-t1")
    }

    /// The same, with these options.
    pub fn with(memory: usize, options: &str) -> Client {
        let control = Arc::new(Control::default());
        Client::over(memory, options, control.clone(), |_, books| Box::new(Plain::new(books, &control)))
    }

    /// The same, over the index of the server.
    pub fn over_map(memory: usize, options: &str) -> Client {
        Client::over(memory, options, Arc::default(), |items, books| {
            Box::new(MapIndex::open(items, 1, books, None).expect("there is memory"))
        })
    }

    fn over(
        memory: usize,
        options: &str,
        control: Arc<Control>,
        index: impl FnOnce(usize, &Arc<Books>) -> Box<dyn Index>,
    ) -> Client {
        static ONCE: Once = Once::new();
        ONCE.call_once(|| slabs::set_up(256 * MEGABYTE).expect("there are addresses"));
        let options = options_of(options);
        let books = Arc::new(Books::new(memory as u64, &options));
        let store = Arc::new(Store::new(index(options.items, &books), books, options));
        Client { store, control, dialogue: Dialogue::default(), input: Vec::new() }
    }

    /// Another client of the same store.
    pub fn beside(&self) -> Client {
        let (store, control) = (Arc::clone(&self.store), Arc::clone(&self.control));
        Client { store, control, dialogue: Dialogue::default(), input: Vec::new() }
    }

    /// Lets the store look at all items, and at those of other tests of this process, until those that are dead have gone.
    pub fn expire(&self) {
        (0..50).for_each(|_| self.store.expire());
    }

    /// Sends bytes, and returns the answers and whether the connection ends.
    pub fn ask_bytes(&mut self, bytes: &[u8]) -> (Vec<u8>, bool) {
        self.input.extend_from_slice(bytes);
        let mut answers = Vec::new();
        loop {
            let mut out = Output::default();
            let (done, turn) = self.dialogue.turn(&self.store, &self.input, &mut out);
            assert!(out.len() <= 2 * MOST_WAITING, "the output is bounded");
            while !out.is_empty() {
                out.send(&mut answers).expect("a vector takes all that is written");
            }
            self.input.drain(..done);
            match turn {
                Turn::Needs(bytes) if self.input.len() < bytes => return (answers, false),
                Turn::Ends => return (answers, true),
                _ => {}
            }
        }
    }

    /// Sends this text, with line ends as the protocol has them.
    pub fn ask(&mut self, text: &str) -> String {
        let (answers, _) = self.ask_bytes(text.replace('\n', "\r\n").as_bytes());
        String::from_utf8(answers).expect("the answers are text").replace("\r\n", "\n")
    }

    /// The same, and another client acts when the command has looked at its key and is about to change it.
    pub fn ask_beside(&mut self, text: &str, act: impl FnOnce(Client) + Send + 'static) -> String {
        let other = self.beside();
        *self.control.meanwhile.lock().unwrap() = Some(Box::new(move || act(other)));
        let answer = self.ask(text);
        assert!(self.control.meanwhile.lock().unwrap().is_none(), "{text} changes something");
        answer
    }

    /// The same, and the other client acts that often: each time when the command has looked at its key anew.
    pub fn ask_beside_often(&mut self, text: &str, times: usize, act: fn(&mut Client)) -> String {
        self.beside().act_often(times, act);
        let answer = self.ask(text);
        self.control.meanwhile.lock().unwrap().take();
        answer
    }

    fn act_often(mut self, times: usize, act: fn(&mut Client)) {
        let control = Arc::clone(&self.control);
        *control.meanwhile.lock().unwrap() = Some(Box::new(move || {
            act(&mut self);
            if times > 1 {
                self.act_often(times - 1, act);
            }
        }));
    }
}

pub fn options_of(words: &str) -> Options {
    match parse(words.split(' ').map(str::to_owned)) {
        Ok(Asked::Serve(options)) => options,
        asked => panic!("{words}: {asked:?}"),
    }
}

/// A store over the index of the server, which has room for 10,000 items. These may take so many bytes.
pub fn map_store(limit: u64, words: &str) -> Store {
    let options = options_of(words);
    let books = Arc::new(Books::new(limit, &options));
    let index = MapIndex::open(10_000, options.threads, &books, None).expect("there is memory");
    Store::new(Box::new(index), books, options)
}

/// An order to store a value of so many bytes.
pub fn order(how: How, key: &[u8], length: usize) -> Order<'_> {
    Order { how, key, length, ..Order::default() }
}

/// Bounds the process to so many bytes more than it takes, and lets it exceed that from now on, as if it took much more. Returns the room of items.
pub fn exceed(store: &Store, more: usize) -> u64 {
    let (taken, budget) = (RssLimit::new(0).and_then(|limit| limit.resident()).expect("the system tells"), &store.books.budget);
    let most = budget.bound_process(taken + more as u64).expect("the system tells");
    let mut claim = budget.claim(1 << 40);
    claim.expect();
    forget(claim);
    budget.leave(1 << 40);
    budget.free(1 << 40);
    most
}
