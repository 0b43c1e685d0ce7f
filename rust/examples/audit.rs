//! Threads that write to one shard by turns log each change and each answer. Then `mccheck FOLDER/*.log` says whether each answer was true.
use cefrodil::{AuditLog, Cache, Handle, Shape, TurnError};
use std::error::Error;
use std::fs::{self, File};
use std::io::{self, BufWriter};
use std::path::{Path, PathBuf};
use std::{env, thread};

const THREADS: u64 = 3;
const CALLS: u64 = 2000;

/// Puts and looks up, and logs what came of it. A try that is held is no change.
fn serve(mut handle: Handle<1>, file: &Path, number: u64) -> io::Result<()> {
    let mut log = AuditLog::new(BufWriter::new(File::create(file)?))?;
    for call in 0..CALLS {
        let (key, value) = (call % 50, [number + THREADS * call]);
        match handle.try_put(key, &value) {
            Ok(put) => log.put(key, &value, put)?,
            Err(TurnError::Held) => thread::yield_now(),
            Err(why) => eprintln!("{key} is not cached: {why}"),
        }
        log.looked(key + 1, handle.get(key + 1))?;
    }
    log.into_inner().into_inner()?;
    Ok(())
}

fn main() -> Result<(), Box<dyn Error>> {
    let folder = env::args_os().nth(1).map_or_else(|| env::temp_dir().join("cefrodil-audit"), PathBuf::from);
    fs::create_dir_all(&folder)?;
    let handles = Cache::<1>::open(&Shape::for_items(40, 1)?, 1, THREADS as usize)?;
    thread::scope(|threads| {
        let serving: Vec<_> = (0..THREADS)
            .zip(handles)
            .map(|(number, handle)| (number, handle, folder.join(format!("{number}.log"))))
            .map(|(number, handle, file)| threads.spawn(move || serve(handle, &file, number)))
            .collect();
        serving.into_iter().try_for_each(|thread| thread.join().expect("a thread panicked"))
    })?;
    println!("the logs are in {}", folder.display());
    Ok(())
}
