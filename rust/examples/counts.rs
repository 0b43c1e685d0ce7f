//! A server's metrics: threads look names up, and another one prints what became of it for Prometheus, as a page `/metrics` would.
use cefrodil::{prometheus, Cache, Handle, Meter, Shape};
use std::error::Error;
use std::thread;

const THREADS: usize = 3;
const LOOKUPS: u64 = 10_000;

fn serve(mut handle: Handle<1>) {
    for key in 0..LOOKUPS {
        let _ = handle.get(key % 1000);
    }
}

/// What a scrape of the page returns. It needs no handle of the cache.
fn metrics(names: &Meter) -> String {
    prometheus(&[("names", names.counts())])
}

fn main() -> Result<(), Box<dyn Error>> {
    let mut handles = Cache::<1>::open(&Shape::for_items(500, 1)?, 1, THREADS)?;
    for key in 0..500 {
        handles[0].try_put(key, &[key])?;
    }
    let meter = handles[0].meter();
    let threads: Vec<_> = handles.into_iter().map(|handle| thread::spawn(move || serve(handle))).collect();
    for thread in threads {
        thread.join().map_err(|_| "a thread panicked")?;
    }
    print!("{}", metrics(&meter));
    let counts = meter.counts();
    if cfg!(feature = "counts") && (counts.hits != 15_000 || counts.misses != 15_000) {
        return Err("a lookup was not counted".into());
    }
    Ok(())
}
