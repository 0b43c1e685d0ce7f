//! A cache beside a store that several threads change. A thread that misses a key reads the store, which takes a while, and sends the value
//! to the one thread that writes. Meanwhile another thread may have changed the store: then the value is old, and the filler refuses it.
use cefrodil::{Cache, FillError, Filler, Handle, Shape, Ticket, Tickets};
use std::error::Error;
use std::sync::atomic::{AtomicU64, Ordering::SeqCst};
use std::sync::mpsc::{channel, Sender};
use std::thread;
use std::time::Duration;

const KEYS: usize = 50;
const THREADS: usize = 3;
const ROUNDS: usize = 5000;

/// Stands for a database.
static STORE: [AtomicU64; KEYS] = [const { AtomicU64::new(0) }; KEYS];

/// What a thread asks of the writer.
enum Request {
    /// To fill a key with what was read.
    Fill(u64, Ticket, u64),
    /// To remove a key that was changed.
    Remove(u64),
}

fn serve(mut handle: Handle<1>, tickets: &Tickets, writer: &Sender<Request>) {
    for round in 0..ROUNDS {
        let key = round * 7 % KEYS;
        let request = if round % 9 == 0 {
            STORE[key].fetch_add(1, SeqCst); // first the store, then the cache
            Request::Remove(key as u64)
        } else if handle.get(key as u64).value().is_none() {
            let ticket = tickets.take(); // before the store is read
            let value = STORE[key].load(SeqCst);
            thread::sleep(Duration::from_micros(20));
            Request::Fill(key as u64, ticket, value)
        } else {
            continue;
        };
        writer.send(request).expect("the writer waits for all senders");
    }
}

fn main() -> Result<(), Box<dyn Error>> {
    let mut handles = Cache::<1>::open(&Shape::for_items(2 * KEYS as u32, 1)?, 1, 1 + THREADS)?;
    let mut filler = Filler::new(handles.pop().ok_or("no handle")?.into_writing()?, 1024);
    let (sender, requests) = channel();
    let threads: Vec<_> = handles
        .into_iter()
        .map(|handle| (handle, filler.tickets(), sender.clone()))
        .map(|(handle, tickets, sender)| thread::spawn(move || serve(handle, &tickets, &sender)))
        .collect();
    drop(sender);
    let mut refused = 0;
    for request in requests {
        match request {
            Request::Remove(key) => drop(filler.remove(key)?),
            Request::Fill(key, ticket, value) => {
                refused += u32::from(filler.fill(key, ticket, &[value]) == Err(FillError::Stale));
            }
        }
    }
    for thread in threads {
        thread.join().map_err(|_| "a thread panicked")?;
    }
    println!("{refused} old values were refused");
    for (key, value) in filler.writing().entries()? {
        if value != [STORE[key as usize].load(SeqCst)] {
            return Err(format!("the cache has an old value of {key}").into());
        }
    }
    Ok(())
}
