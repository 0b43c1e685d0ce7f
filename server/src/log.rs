//! Messages for the operator.
use libc::PIPE_BUF;
use nix::poll::{poll, PollFd, PollFlags};
use std::fmt::Arguments;
use std::io::{stderr, Write};
use std::os::fd::AsRawFd;
use std::sync::{Mutex, PoisonError};
use std::time::{Duration, Instant};

/// Tells the operator. If nobody reads that, the server goes on.
pub fn log(what: Arguments) {
    write_line(format_args!("cefrodild: {what}"));
}

/// Writes a line to standard error, unless it would have to wait for a reader.
pub fn write_line(line: Arguments) {
    // What is longer is cut: a pipe that has room takes so much at once.
    let mut text = [b'\n'; PIPE_BUF];
    let mut rest = &mut text[..PIPE_BUF - 1];
    let _ = rest.write_fmt(line);
    let length = PIPE_BUF - rest.len();
    let mut out = stderr().lock();
    if has_room(&out) {
        let _ = out.write_all(&text[..length]);
    }
}

/// Whether something can be written to this file now, or is refused at once.
pub fn has_room(file: &impl AsRawFd) -> bool {
    poll(&mut [PollFd::new(file.as_raw_fd(), PollFlags::POLLOUT)], 0) != Ok(0)
}

/// Messages of one kind, of which few are written a minute.
pub struct Seldom {
    most: u32,
    /// When the minute began, and how many were written in it.
    written: Mutex<(Option<Instant>, u32)>,
}

impl Seldom {
    pub const fn new(most: u32) -> Seldom {
        Seldom { most, written: Mutex::new((None, 0)) }
    }

    /// Tells the operator, unless there were too many.
    pub fn log(&self, what: Arguments) {
        let mut written = self.written.lock().unwrap_or_else(PoisonError::into_inner);
        if written.0.is_none_or(|since| since.elapsed() >= Duration::from_secs(60)) {
            *written = (Some(Instant::now()), 0);
        }
        if written.1 < self.most {
            written.1 += 1;
            log(what);
        }
    }
}
