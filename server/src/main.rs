//! The program `cefrodild`.
use cefrodild::allocator;
use cefrodild::audit::Audit;
use cefrodild::books::Books;
use cefrodild::daemon;
use cefrodild::files;
use cefrodild::listen::{Listener, Place};
use cefrodild::log::{has_room, log};
use cefrodild::map_index::MapIndex;
use cefrodild::memory::Spare;
use cefrodild::options::{parse, Asked, Options, HELP};
use cefrodild::server::{named, Server};
use cefrodild::slabs;
use cefrodild::store::Store;
#[cfg(feature = "tls")]
use cefrodild::tls::Acceptor;
use cefrodild::user::{become_user, is_root};
use cefrodild::users::Users;
use std::alloc::System;
use std::env;
use std::error::Error;
use std::ffi::OsString;
use std::io::{self, Write};
use std::process::ExitCode;
use std::sync::Arc;

/// The process may take this part of the memory limit beside it: for what is no item and no part of the index, and for the allocator's loss.
const PART_OF_LOSS: usize = 10;

/// For small items, addresses of so many times the memory limit are reserved. All else may need as many, and some for each thread.
const ADDRESSES: usize = 2;
const ADDRESSES_OF_A_THREAD: usize = 4 << 20;

/// The program itself needs as many as so many threads.
const OWN_THREADS: usize = 4;

#[global_allocator]
static ALLOCATOR: Spare = Spare::new(System);

fn main() -> ExitCode {
    let words = env::args_os().skip(1).map(OsString::into_string).collect::<Result<Vec<String>, OsString>>();
    match words.map_err(|word| format!("{word:?} is no text")).and_then(parse) {
        Ok(Asked::Help) => return tell(HELP),
        Ok(Asked::Version) => return tell(concat!("cefrodild ", env!("CARGO_PKG_VERSION"), "\n")),
        Ok(Asked::Serve(options)) => {
            if let Err(why) = serve(options) {
                log(format_args!("{why}"));
                return ExitCode::from(1);
            }
        }
        Err(why) => {
            log(format_args!("{why}"));
            return ExitCode::from(2);
        }
    }
    ExitCode::SUCCESS
}

/// Writes to standard output, which may be full or closed.
fn tell(text: &str) -> ExitCode {
    match io::stdout().write_all(text.as_bytes()).and_then(|()| io::stdout().flush()) {
        Ok(()) => ExitCode::SUCCESS,
        Err(why) => {
            log(format_args!("standard output: {why}"));
            ExitCode::from(1)
        }
    }
}

fn serve(options: Options) -> Result<(), Box<dyn Error>> {
    let Options { threads, memory, items, verbosity, .. } = options;
    for word in &options.idle {
        log(format_args!("{word} changes nothing here"));
    }
    let starter = options.detaches.then(daemon::detach).transpose()?;
    // Perhaps only root can read it.
    let users = options.users.as_deref().map(|file| Users::read(file).map_err(|why| named(&file.display(), &why))).transpose()?;
    let listeners = prepare(&options)?;
    let file = options.process_file.as_deref();
    let _own_file = file.map(|file| daemon::write_number(file).map_err(|why| named(&file.display(), &why))).transpose()?;
    allocator::set_up();
    if let Err(why) = reserve_addresses(memory, threads) {
        log(format_args!("{why}. When the sizes of values change, the server may take more memory"));
    }
    let audit = options.audit.as_deref().map(Audit::create).transpose()?.map(Arc::new);
    let books = Arc::new(Books::new(0, &options));
    let index = MapIndex::open(items, threads, &books, audit.clone())?;
    if books.budget.bound_process((memory + memory / PART_OF_LOSS) as u64)? == 0 {
        return Err("the index takes all of the memory limit: choose a smaller -n".into());
    }
    let mut store = Store::new(Box::new(index), books, options);
    store.users = users;
    let store = Arc::new(store);
    let told: String = listeners.iter().map(|listener| format!("cefrodild: listening on {listener}\n")).collect();
    Server::run(store, listeners, || {
        // If nobody reads that, the server goes on.
        if has_room(&io::stdout()) {
            drop(io::stdout().write_all(told.as_bytes()).and_then(|()| io::stdout().flush()));
        }
        starter.map_or(Ok(()), |starter| starter.tell_ready(verbosity > 0))
    })?;
    audit.map_or(Ok(()), |audit| audit.end()).map_err(Into::into)
}

/// Reserves addresses for small items, unless too few would be left for all else.
fn reserve_addresses(memory: usize, threads: usize) -> Result<(), String> {
    files::check_addresses(2 * ADDRESSES * memory + (threads + OWN_THREADS) * ADDRESSES_OF_A_THREAD)?;
    slabs::set_up(ADDRESSES * memory).map_err(|why| format!("no addresses for small items: {why}"))
}

/// Sets the limits of the process, listens, and then becomes the user's.
fn prepare(options: &Options) -> Result<Vec<Listener>, Box<dyn Error>> {
    if options.user.is_none() && is_root() {
        return Err("root needs -u and the name of the user whose process the server is to become".into());
    }
    files::make_room(options.connections, options.threads)?;
    if options.dumps_core {
        files::allow_core()?;
    }
    let change_user = || options.user.as_deref().map_or(Ok(()), become_user).map_err(|why| format!("-u: {why}"));
    // A Unix socket is the user's own file. With one there is no port and no key that only root may have.
    if options.listen.iter().any(|place| matches!(place, Place::File(..))) {
        change_user()?;
    }
    let listen = |place: &Place| place.listen().map_err(|why| named(place, &why));
    let listeners = options.listen.iter().map(listen).collect::<io::Result<Vec<_>>>()?;
    let listeners = listeners.into_iter().flatten().collect();
    #[cfg(feature = "tls")]
    let listeners = secured(listeners, options)?;
    change_user()?;
    Ok(listeners)
}

/// Reads the files for TLS, if it is asked for: perhaps only root can.
#[cfg(feature = "tls")]
fn secured(mut listeners: Vec<Listener>, options: &Options) -> io::Result<Vec<Listener>> {
    if let Some(tls) = &options.tls {
        let acceptor = Acceptor::new(tls)?;
        listeners.iter_mut().for_each(|listener| listener.secure(&acceptor));
    }
    Ok(listeners)
}
