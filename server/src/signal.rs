//! Signals. Those that end the server are a file that can be waited for.
use nix::sys::signal::{SigSet, Signal};
use nix::sys::signalfd::{SfdFlags, SignalFd};
use std::io;

/// The signals that end the server.
const ENDING: [Signal; 3] = [Signal::SIGTERM, Signal::SIGINT, Signal::SIGUSR1];

/// Those that do nothing. Without that they would end it at once.
const IDLE: [Signal; 2] = [Signal::SIGHUP, Signal::SIGUSR2];

/// Blocks these signals in this thread and those that it starts later. The file can be read when one has come that ends the server.
pub fn file() -> io::Result<SignalFd> {
    IDLE.into_iter().collect::<SigSet>().thread_block()?;
    let ending: SigSet = ENDING.into_iter().collect();
    ending.thread_block()?;
    Ok(SignalFd::with_flags(&ending, SfdFlags::SFD_NONBLOCK | SfdFlags::SFD_CLOEXEC)?)
}
