//! Limits of the process: how many files it may have open at a time, how many addresses it has, and how large its core files may be.
use nix::sys::resource::{getrlimit, setrlimit, Resource};

/// How many files the server has open beside its connections and what each worker has: standard streams, sockets, the log.
const OWN: usize = 32;

/// How many files a worker has open beside its connections.
const OF_A_WORKER: usize = 4;

/// Raises the limit of open files if it is too low for so many connections. If the system doesn't allow that, the error says what to do.
pub fn make_room(connections: usize, workers: usize) -> Result<(), String> {
    let needed = (connections + workers * OF_A_WORKER + OWN) as u64;
    let (limit, most) =
        getrlimit(Resource::RLIMIT_NOFILE).map_err(|why| format!("the limit of open files can't be read: {why}"))?;
    if limit >= needed {
        return Ok(());
    }
    if most < needed {
        return Err(format!("{connections} connections need {needed} open files, and {most} are allowed: choose a smaller -c, or raise `ulimit -Hn`"));
    }
    setrlimit(Resource::RLIMIT_NOFILE, needed, most)
        .map_err(|why| format!("the limit of open files can't be raised to {needed}: {why}"))
}

/// An error if the system allows the process fewer bytes of addresses than so many. It says what to do.
pub fn check_addresses(needed: usize) -> Result<(), String> {
    let (most, _) = getrlimit(Resource::RLIMIT_AS).map_err(|why| format!("the limit of addresses can't be read: {why}"))?;
    if most >= needed as u64 {
        return Ok(());
    }
    let [needed, most] = [needed as u64, most].map(|bytes| bytes / 1024);
    Err(format!("the server needs {needed} KB of addresses, and {most} are allowed: choose a smaller -m, or raise `ulimit -v`"))
}

/// Lets core files be as large as the system allows.
pub fn allow_core() -> Result<(), String> {
    let raised = getrlimit(Resource::RLIMIT_CORE).and_then(|(_, most)| setrlimit(Resource::RLIMIT_CORE, most, most));
    raised.map_err(|why| format!("the limit of core files can't be raised: {why}"))
}
