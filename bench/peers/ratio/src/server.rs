//! The server's items, by its commands and without a connection.
use crate::{Cache, Failure};
use cefrodild::books::Books;
use cefrodild::budget::cost;
use cefrodild::dialogue::Dialogue;
use cefrodild::map_index::MapIndex;
use cefrodild::options::{parse, Asked};
use cefrodild::output::Output;
use cefrodild::store::Store;
use std::sync::Arc;

/// The bytes of a key, and of a value.
const BYTES: usize = 16;

struct Client {
    store: Store,
    dialogue: Dialogue,
}

impl Client {
    fn ask(&mut self, command: &str) -> String {
        let mut output = Output::default();
        let (done, _) = self.dialogue.turn(&self.store, command.as_bytes(), &mut output);
        assert_eq!(done, command.len());
        String::from_utf8(output.to_vec()).expect("the answer is text")
    }
}

impl Cache for Client {
    fn get(&mut self, key: u64) -> Option<u64> {
        let answer = self.ask(&format!("get {key:016x}\r\n"));
        answer.lines().nth(1).map(|value| u64::from_str_radix(value, 16).expect("a number"))
    }

    fn put(&mut self, key: u64) -> Result<(), Failure> {
        assert_eq!(self.ask(&format!("set {key:016x} 0 0 {BYTES}\r\n{key:016x}\r\n")), "STORED\r\n");
        Ok(())
    }
}

/// A server that has room for so many items. Its index has room for more.
pub fn open(capacity: usize) -> Result<Box<dyn Cache>, Failure> {
    let words = ["-t1".to_owned(), format!("-n{}", 2 * capacity)];
    let Asked::Serve(options) = parse(words)? else { return Err("no options".into()) };
    let books = Arc::new(Books::new(capacity as u64 * cost(BYTES, BYTES), &options));
    let index = MapIndex::open(options.items, 1, &books, None)?;
    let store = Store::new(Box::new(index), books, options);
    Ok(Box::new(Client { store, dialogue: Dialogue::default() }))
}
