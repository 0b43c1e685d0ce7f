//! A rate limiter for a service of several threads: each client may make `LIMIT` requests in a window of time. The cache holds a
//! window and a count for each client. Threads write all the time, so the cache has several shards.
use cefrodil::{Cache, Handle, PutError, PutIfError, Reply, Shape, TurnError};
use std::error::Error;
use std::thread;

const THREADS: usize = 4;
const SHARDS: u32 = 16;
const CLIENTS: u32 = 1000;
const WINDOWS: u64 = 3;
const LIMIT: u64 = 5;
const REQUESTS: u64 = 4;
const TRIES: u32 = 100;

// Of each client the cache has a window, and how many requests the client has made in it.
type Clients = Handle<2>;

// A client begins with no requests.
fn greet(clients: &mut Clients, client: u64) -> Result<(), TurnError<PutError>> {
    clients.put_within(TRIES, client, &[0, 0]).map(drop)
}

// Counts one request of the client in this window, unless it has made `LIMIT` of them.
fn allow(clients: &mut Clients, client: u64, window: u64) -> Result<bool, PutIfError> {
    loop {
        match clients.get_or_turn(client) {
            Reply::Found { value: [last, made], since, .. } => {
                let count = if last == window { made } else { 0 };
                if count == LIMIT {
                    return Ok(false);
                }
                match clients.try_put_if(client, since, &[window, count + 1]) {
                    Ok(_) => return Ok(true),
                    // Another thread had the shard's turn, or counted a request of the same client.
                    Err(TurnError::Held | TurnError::Call(PutIfError::Changed { .. })) => {}
                    Err(TurnError::Call(why)) => return Err(why),
                }
            }
            Reply::Absent { .. } => return Ok(false),
            Reply::Busy => {}
        }
        thread::yield_now();
    }
}

// Each client sends `REQUESTS` requests to this thread. How many it let through.
fn serve(clients: &mut Clients, window: u64) -> Result<u64, PutIfError> {
    let mut allowed = 0;
    for _ in 0..REQUESTS {
        for client in 0..u64::from(CLIENTS) {
            allowed += u64::from(allow(clients, client, window)?);
        }
    }
    Ok(allowed)
}

// How many requests all threads let through in this window. Each thread takes a handle and gives it back.
fn serve_all(handles: Vec<Clients>, window: u64) -> Result<(Vec<Clients>, u64), PutIfError> {
    let threads: Vec<_> = handles
        .into_iter()
        .map(|mut clients| {
            thread::spawn(move || {
                let allowed = serve(&mut clients, window);
                (clients, allowed)
            })
        })
        .collect();
    let (mut back, mut sum) = (Vec::new(), 0);
    for thread in threads {
        let (clients, allowed) = thread.join().expect("a thread panicked");
        back.push(clients);
        sum += allowed?;
    }
    Ok((back, sum))
}

fn main() -> Result<(), Box<dyn Error>> {
    let shape = Shape::for_items(CLIENTS, SHARDS)?;
    let mut handles = Cache::<2>::open(&shape, SHARDS, THREADS)?;
    for client in 0..u64::from(CLIENTS) {
        greet(&mut handles[0], client)?;
    }
    let mut allowed = 0;
    for window in 1..=WINDOWS {
        let (back, more) = serve_all(handles, window)?;
        handles = back;
        allowed += more;
    }
    println!("{allowed} of {} requests allowed", WINDOWS * REQUESTS * u64::from(CLIENTS) * THREADS as u64);
    if allowed != WINDOWS * LIMIT * u64::from(CLIENTS) {
        return Err("each client must get as many requests as the limit says".into());
    }
    Ok(())
}
