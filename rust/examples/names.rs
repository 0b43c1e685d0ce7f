//! A cache of host names for a server whose threads come and go: each takes a handle from a pool. If a thread doesn't find a name,
//! it resolves the name the slow way, and sends the answer to the one thread that writes.
use cefrodil::{Cache, Handle, Pool, Shape, Writing};
use std::error::Error;
use std::hash::{BuildHasher, RandomState};
use std::net::Ipv4Addr;
use std::sync::mpsc::{channel, Receiver, Sender};
use std::thread;

const REQUESTS: usize = 3;
const NAMES: u32 = 500;
const ROUNDS: u32 = 4;
const LOOKUPS: u32 = 20_000;

/// Hashes names, keyed by secrets. The first hash of a name is its key. The value keeps the second, which tells apart names of one
/// key.
#[derive(Clone, Default)]
struct Hashes(RandomState, RandomState);

/// An answer on its way to the writer.
struct Resolved {
    key: u64,
    value: [u64; 2],
}

/// What a thread of the server has.
struct Resolver {
    hashes: Hashes,
    handles: Pool<Handle<2>>,
    writer: Sender<Resolved>,
}

/// The slow way: asks a name server.
fn resolve(name: &str) -> Ipv4Addr {
    let number: u32 = name.strip_prefix("host").and_then(|rest| rest.parse().ok()).unwrap_or(0);
    Ipv4Addr::from_bits(0x0A00_0000 + number)
}

impl Resolver {
    /// The address of a name, and whether the cache had it.
    fn look_up(&self, handle: &mut Handle<2>, name: &str) -> (Ipv4Addr, bool) {
        let Hashes(first, second) = &self.hashes;
        let (key, check) = (first.hash_one(name), second.hash_one(name));
        match handle.get(key).value() {
            Some([kept, address]) if kept == check => (Ipv4Addr::from_bits(address as u32), true),
            // The key is absent, or another name has it, or the lookup was busy. If addresses change, take a ticket first, as `store.rs`
            // does.
            _ => {
                let address = resolve(name);
                let value = [check, u64::from(address.to_bits())];
                let _ = self.writer.send(Resolved { key, value });
                (address, false)
            }
        }
    }

    /// Serves one request. How many of its names the cache had.
    fn serve(&self) -> u32 {
        let mut handle = self.handles.take().expect("no more requests at once than handles");
        let mut hits = 0;
        for lookup in 0..LOOKUPS {
            let name = format!("host{}", lookup * 7 % NAMES);
            let (address, hit) = self.look_up(&mut handle, &name);
            assert_eq!(address, resolve(&name));
            hits += u32::from(hit);
        }
        hits
    }
}

/// Writes what was resolved, until no thread can send more. If a put fails, the name is resolved again later.
fn write_all(mut cache: Writing<2>, resolved: &Receiver<Resolved>) {
    for Resolved { key, value } in resolved {
        if let Err(why) = cache.put(key, &value) {
            eprintln!("a name is not cached: {why}");
        }
    }
}

fn main() -> Result<(), Box<dyn Error>> {
    let mut handles = Cache::<2>::open(&Shape::for_items(2 * NAMES, 1)?, 1, 1 + REQUESTS)?;
    let cache = handles.pop().ok_or("no handle")?.into_writing()?;
    let (handles, hashes) = (Pool::new(handles), Hashes::default());
    let (sender, resolved) = channel();
    let writing = thread::spawn(move || write_all(cache, &resolved));
    let mut hits = 0;
    for _ in 0..ROUNDS {
        let requests: Vec<_> = (0..REQUESTS)
            .map(|_| Resolver { hashes: hashes.clone(), handles: handles.clone(), writer: sender.clone() })
            .map(|resolver| thread::spawn(move || resolver.serve()))
            .collect();
        for request in requests {
            hits += request.join().map_err(|_| "a request got a wrong address")?;
        }
    }
    drop(sender);
    writing.join().map_err(|_| "the writer panicked")?;
    println!("{hits} names were cached");
    if hits == 0 {
        return Err("no name was cached".into());
    }
    Ok(())
}
