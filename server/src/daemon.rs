//! A server that runs by itself: it leaves the process that started it, and says in a file which process it is.
use crate::listen::OwnFile;
use nix::sys::wait::{waitpid, WaitStatus};
use nix::unistd::{dup2, fork, setsid, ForkResult, Pid};
use std::fs::{self, File};
use std::io::{self, Read, Write};
use std::os::fd::AsRawFd;
use std::os::unix::net::UnixStream;
use std::path::Path;
use std::{env, process};

/// How many standard streams there are. The first one is for input.
const STREAMS: i32 = 3;

/// The process that started the server, and waits until that is ready.
pub struct Starter(UnixStream);

/// Goes on in a new process without a terminal. The first process ends with status 0 when the new one is ready. If the new one ends before that, it
/// ends with the same status.
pub fn detach() -> io::Result<Starter> {
    let (mut starter, server) = UnixStream::pair()?;
    // SAFETY: this process has one thread.
    match unsafe { fork() }? {
        ForkResult::Child => {
            setsid()?;
            Ok(Starter(server))
        }
        ForkResult::Parent { child } => {
            drop(server);
            let is_ready = starter.read_exact(&mut [0]).is_ok();
            process::exit(if is_ready { 0 } else { status_of(child) })
        }
    }
}

fn status_of(process: Pid) -> i32 {
    match waitpid(process, None) {
        Ok(WaitStatus::Exited(_, status)) => status,
        _ => 1,
    }
}

impl Starter {
    /// The server is ready. It keeps no folder in use from now on, and no standard stream, or only those for output.
    pub fn tell_ready(mut self, keeps_output: bool) -> io::Result<()> {
        env::set_current_dir("/")?;
        let nowhere = File::options().read(true).write(true).open("/dev/null")?;
        for stream in 0..if keeps_output { 1 } else { STREAMS } {
            dup2(nowhere.as_raw_fd(), stream)?;
        }
        self.0.write_all(&[0])
    }
}

/// Writes the number of this process to a file, which may be there.
pub fn write_number(path: &Path) -> io::Result<OwnFile> {
    fs::write(path, format!("{}\n", process::id()))?;
    OwnFile::new(path)
}
