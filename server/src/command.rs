//! Carries commands out, and writes their answers.
use crate::counts::Count;
use crate::item::Item;
use crate::meta_command;
use crate::number;
use crate::output::Output;
use crate::request::{Change, Request};
use crate::stats;
use crate::store::{Answer, Changed, Fault, Store};
use std::io::Write;

/// An answer, without its end.
pub type Text = &'static str;

/// The version that clients see: that of the memcached whose answers these are, since clients choose commands by it.
macro_rules! version {
    () => {
        "1.6.18"
    };
}
pub(crate) use version;

const NOT_FOUND: Text = "NOT_FOUND";

impl Fault {
    pub fn text(self) -> Text {
        match self {
            Fault::NoRoom => "SERVER_ERROR out of memory storing object",
            Fault::TooLong => "SERVER_ERROR object too large for cache",
            Fault::Stale => "SERVER_ERROR not stored, and the old value may still be found",
            Fault::Disturbed => "SERVER_ERROR busy, and nothing was changed",
        }
    }
}

pub fn line(out: &mut Vec<u8>, text: &str) {
    out.extend_from_slice(text.as_bytes());
    out.extend_from_slice(b"\r\n");
}

macro_rules! text {
    ($out:expr, $($words:tt)*) => {
        write!($out, $($words)*).expect("a vector takes all that is written")
    };
}
pub(crate) use text;

/// Writes an item as the answer of `get` has it.
pub fn value(out: &mut Output, key: &[u8], item: &Item, token: Option<u64>) {
    out.extend_from_slice(b"VALUE ");
    out.extend_from_slice(key);
    out.push(b' ');
    number::write(out, item.flags);
    out.push(b' ');
    number::write(out, item.value().len());
    if let Some(token) = token {
        out.push(b' ');
        number::write(out, token);
    }
    out.block(item);
}

/// Carries out a command whose block, if it has one, is this. `get` and its kin, lists, and `quit`, are the connection's.
pub fn run(store: &Store, request: &Request, data: &[u8], is_quiet: bool, out: &mut Output) {
    let text = match request {
        Request::Store(order) => told(store.store(order, data), "STORED"),
        Request::Delete(key) => told(store.delete(key, None), "DELETED"),
        Request::Change(key, change) => return answer_change(store, key, *change, is_quiet, out),
        Request::Touch(key, expiry) => touch(store, key, *expiry),
        Request::Flush(delay) => {
            store.books.counts.add(Count::Flushes);
            store.flush(*delay);
            "OK"
        }
        Request::Stats(what) => return stats::answer(store, what, out),
        Request::Version => concat!("VERSION ", version!()),
        Request::Verbosity => "OK",
        Request::NoOperation => "MN",
        Request::Details(key) => return meta_command::details(store, key, out),
        Request::Meta(meta) => return meta_command::run(store, meta, data, out),
        Request::Keys(..) | Request::Dump(..) | Request::Crawl(..) | Request::Quit => return,
    };
    if !is_quiet {
        line(out, text);
    }
}

fn told(answered: Result<Answer, Fault>, done: Text) -> Text {
    match answered {
        Ok(Answer::Done(_)) => done,
        Ok(Answer::NotStored) => "NOT_STORED",
        Ok(Answer::Exists) => "EXISTS",
        Ok(Answer::NotFound) => NOT_FOUND,
        Err(why) => why.text(),
    }
}

fn touch(store: &Store, key: &[u8], expiry: i64) -> Text {
    store.books.counts.add(Count::Touches);
    let touched = store.touch(key, store.books.clock.deadline(expiry));
    if let Ok(is_hit) = touched {
        store.books.counts.add_if(is_hit, Count::TouchHits, Count::TouchMisses);
    }
    match touched {
        Ok(true) => "TOUCHED",
        Ok(false) => NOT_FOUND,
        Err(why) => why.text(),
    }
}

/// What arithmetic answers on a value that is no number.
pub const NOT_NUMERIC: Text = "CLIENT_ERROR cannot increment or decrement non-numeric value";

fn answer_change(store: &Store, key: &[u8], change: Change, is_quiet: bool, out: &mut Vec<u8>) {
    let changed = store.change(key, change, None, None);
    count_change(store, change, changed);
    if is_quiet {
        return;
    }
    match changed {
        Ok(Changed::Changed(number, ..)) => text!(out, "{number}\r\n"),
        Ok(Changed::NotNumeric) => line(out, NOT_NUMERIC),
        Ok(_) => line(out, NOT_FOUND),
        Err(why) => line(out, why.text()),
    }
}

pub fn count_change(store: &Store, change: Change, changed: Result<Changed, Fault>) {
    let is_hit = match changed {
        Ok(Changed::Changed(..)) => true,
        Ok(Changed::NotFound) => false,
        _ => return,
    };
    match change {
        Change::Add(_) => store.books.counts.add_if(is_hit, Count::IncrHits, Count::IncrMisses),
        Change::Subtract(_) => store.books.counts.add_if(is_hit, Count::DecrHits, Count::DecrMisses),
    }
}
