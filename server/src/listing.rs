//! Long answers, which are made part by part: of `stats cachedump`, `lru_crawler metadump` and `stats conns`.
use crate::base64;
use crate::clock::unix_time;
use crate::command::text;
use crate::index::Token;
use crate::item::{Item, BINARY};
use crate::listen::tcp;
use crate::output::Output;
use crate::request::Request;
use crate::seat::Seen;
use crate::slabs::address_of;
use crate::store::Store;
use crate::walk;
use std::io::Write;
use std::mem::ManuallyDrop;
use std::net::SocketAddr;
use std::os::fd::{FromRawFd, RawFd};
use std::os::unix::net::UnixStream;

/// The class of all items. The others are empty.
pub const CLASS: u64 = 1;

/// A part has so many clients at most.
const PART: usize = 64;

/// What is listed, and what of it comes next.
#[derive(Clone, Copy, Debug)]
pub enum Listing {
    Items(Items),
    /// From this place on.
    Clients(usize),
}

/// Items in the order in which they lie in memory. One that gets another value meanwhile may come twice, or not at all.
#[derive(Clone, Copy, Debug)]
pub struct Items {
    write: fn(&Store, &Item, Token, &mut Output),
    next: Option<usize>,
    /// How many are to be listed.
    most: u64,
}

impl Listing {
    /// The list that answers a request.
    pub fn of(request: &Request) -> Option<Listing> {
        let items = |write, is_empty: bool, most| Some(Listing::Items(Items { write, next: (!is_empty).then_some(0), most }));
        match *request {
            Request::Dump(class, most) => items(write_cached, class != CLASS, if most == 0 { u64::MAX } else { most }),
            Request::Crawl(has_class) => items(write_crawled, !has_class, u64::MAX),
            Request::Stats(b"conns") => Some(Listing::Clients(0)),
            _ => None,
        }
    }

    /// Lists the next ones. Returns whether there may be more.
    pub fn part(&mut self, store: &Store, out: &mut Output) -> bool {
        match self {
            Listing::Items(items) => items.part(store, out),
            Listing::Clients(place) => (0..PART).all(|_| list_client(store, place, out)),
        }
    }
}

impl Items {
    fn part(&mut self, store: &Store, out: &mut Output) -> bool {
        let Some(position) = self.next else { return false };
        let mut found = Vec::new();
        self.next = walk::look(position, |item| found.push((store.index.hash_of(item.key()), address_of(item))));
        for (hash, address) in found {
            if self.most == 0 {
                return false;
            }
            store.index.peek(hash, &mut |item, token| {
                // Another item of this key, or one of another index, is not what was found.
                if address_of(item) == address && store.books.is_live(item) {
                    self.most -= 1;
                    (self.write)(store, item, token, out);
                }
            });
        }
        true
    }
}

/// Writes a key as it is. One that came as base64 may have blanks, so it goes as that.
pub fn write_short_key(out: &mut Vec<u8>, item: &Item) {
    if item.has(BINARY) {
        base64::write(out, item.key());
    } else {
        out.extend_from_slice(item.key());
    }
}

fn write_cached(store: &Store, item: &Item, _: Token, out: &mut Output) {
    out.extend_from_slice(b"ITEM ");
    write_short_key(out, item);
    text!(out, " [{} b; {} s]\r\n", item.value().len(), store.books.clock.unix_end(item.deadline()));
}

fn write_crawled(store: &Store, item: &Item, token: Token, out: &mut Output) {
    out.extend_from_slice(b"key=");
    for byte in item.key() {
        match byte {
            b'0'..=b'9' | b'A'..=b'Z' | b'a'..=b'z' | b'-' | b'.' | b'_' | b'~' => out.push(*byte),
            _ => text!(out, "%{byte:02X}"),
        }
    }
    let clock = &store.books.clock;
    let end = Some(clock.unix_end(item.deadline())).filter(|end| *end > 0).map_or(-1, |end| end as i64);
    write_details(out, item, token, end, unix_time().saturating_sub(item.idle(clock.now()).into()));
    out.push(b'\n');
}

/// Writes what is known of an item behind its key, with these times of its end and its last use.
pub fn write_details(out: &mut Vec<u8>, item: &Item, token: Token, end: i64, used: u64) {
    let fetched = if item.was_fetched() { "yes" } else { "no" };
    text!(out, " exp={end} la={used} cas={token} fetch={fetched} cls={CLASS} size={}", item.size());
}

/// Lists the client at this place or the next one behind it. Returns whether there is one.
fn list_client(store: &Store, place: &mut usize, out: &mut Output) -> bool {
    let listeners = store.seats.listeners();
    if let Some(file) = listeners.get(*place) {
        *place += 1;
        write_address(out, *file, "addr", true);
        text!(out, "STAT {file}:state conn_listening\r\nSTAT {file}:secs_since_last_cmd {}\r\n", store.books.clock.uptime());
        return true;
    }
    let Some((index, Seen { file, turn, state })) = store.seats.seen_from(*place - listeners.len()) else { return false };
    *place = index + 1 + listeners.len();
    write_address(out, file, "addr", false);
    write_address(out, file, "listen_addr", true);
    let silent = store.books.clock.uptime().saturating_sub(turn.into());
    text!(out, "STAT {file}:state {state}\r\nSTAT {file}:secs_since_last_cmd {silent}\r\n");
    true
}

/// Writes the address of an open file's own end, or of the other one. Its worker may close it meanwhile: then this is the address of another file, or
/// none.
fn write_address(out: &mut Output, file: RawFd, name: &str, is_own: bool) {
    // SAFETY: the file is not closed here, and only asked for an address.
    let (tcp, unix) = (tcp(file), unsafe { ManuallyDrop::new(UnixStream::from_raw_fd(file)) });
    let (address, path) = if is_own { (tcp.local_addr(), unix.local_addr()) } else { (tcp.peer_addr(), unix.peer_addr()) };
    match (address, path.as_ref().ok().and_then(|address| address.as_pathname())) {
        (Ok(address @ SocketAddr::V4(_)), _) => text!(out, "STAT {file}:{name} tcp:{address}\r\n"),
        (Ok(address), _) => text!(out, "STAT {file}:{name} tcp6:{address}\r\n"),
        (Err(_), Some(path)) => text!(out, "STAT {file}:{name} unix:{}\r\n", path.display()),
        (Err(_), None) => text!(out, "STAT {file}:{name} unix\r\n"),
    }
}
