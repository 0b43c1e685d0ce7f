//! Where the server listens, and what it accepts there.
use crate::stream::Stream;
#[cfg(feature = "tls")]
use crate::tls::Acceptor;
use mio::net::{TcpListener, UnixListener};
use nix::sys::stat::{umask, Mode};
use std::fmt::{self, Display, Formatter};
use std::fs;
use std::io::{self, ErrorKind};
use std::mem::ManuallyDrop;
use std::net::{TcpStream, ToSocketAddrs};
use std::os::fd::{AsRawFd, FromRawFd, IntoRawFd, OwnedFd, RawFd};
use std::os::unix::fs::FileTypeExt;
use std::os::unix::net;
use std::path::{Path, PathBuf};
use std::ptr;

/// A place to listen at.
#[derive(Clone, Debug, PartialEq, Eq)]
pub enum Place {
    /// A host's name or address, and a port. A name may have several addresses.
    Host(String, u16),
    /// A Unix socket in the file system, and the bits of its mode.
    File(PathBuf, u32),
}

/// A socket that clients connect to, and its file if it is a Unix socket.
pub struct Listener {
    socket: OwnedFd,
    file: Option<OwnFile>,
    #[cfg(feature = "tls")]
    tls: Option<Acceptor>,
}

/// A file of the server's own, by its whole path. It is removed when this is dropped.
pub struct OwnFile(PathBuf);

impl OwnFile {
    /// The file is there. Later the server may work in another folder.
    pub fn new(path: &Path) -> io::Result<OwnFile> {
        fs::canonicalize(path).map(OwnFile)
    }
}

impl Drop for OwnFile {
    fn drop(&mut self) {
        // Somebody else may have removed it, or its folder may be closed to the server's user.
        let _ = fs::remove_file(&self.0);
    }
}

impl Display for Place {
    fn fmt(&self, text: &mut Formatter) -> fmt::Result {
        match self {
            Place::Host(host, port) if host.contains(':') => write!(text, "[{host}]:{port}"),
            Place::Host(host, port) => write!(text, "{host}:{port}"),
            Place::File(path, _) => write!(text, "{}", path.display()),
        }
    }
}

impl Place {
    /// Listens there: at each address that the host has. It is enough if one of them can be had.
    pub fn listen(&self) -> io::Result<Vec<Listener>> {
        match self {
            Place::Host(host, port) => listen_at(host, *port),
            Place::File(path, mode) => Ok(vec![listen_in(path, *mode)?]),
        }
    }
}

fn listen_at(host: &str, port: u16) -> io::Result<Vec<Listener>> {
    let mut listeners = Vec::new();
    let mut last = ErrorKind::AddrNotAvailable.into();
    for address in (host, port).to_socket_addrs()? {
        match TcpListener::bind(address) {
            Ok(listener) => listeners.push(Listener::new(listener, None)),
            Err(why) => last = why,
        }
    }
    if listeners.is_empty() {
        Err(last)
    } else {
        Ok(listeners)
    }
}

/// A socket that an earlier server has left is replaced. One at which a server listens is not, nor is another file.
fn listen_in(path: &Path, mode: u32) -> io::Result<Listener> {
    if fs::symlink_metadata(path).is_ok_and(|file| file.file_type().is_socket()) {
        match net::UnixStream::connect(path) {
            Ok(_) => return Err(ErrorKind::AddrInUse.into()),
            Err(why) if why.kind() == ErrorKind::ConnectionRefused => fs::remove_file(path)?,
            Err(why) => return Err(why),
        }
    }
    // So the file never has another mode. The server has one thread so far.
    let before = umask(Mode::from_bits_truncate(!mode & 0o777));
    let bound = UnixListener::bind(path);
    umask(before);
    Ok(Listener::new(bound?, Some(OwnFile::new(path)?)))
}

impl Display for Listener {
    fn fmt(&self, text: &mut Formatter) -> fmt::Result {
        match (&self.file, tcp(self.as_raw_fd()).local_addr()) {
            (Some(file), _) => file.0.display().fmt(text),
            (None, Ok(address)) => address.fmt(text),
            (None, Err(why)) => why.fmt(text),
        }
    }
}

impl Listener {
    fn new(socket: impl IntoRawFd, file: Option<OwnFile>) -> Listener {
        // SAFETY: it is open, and this owns it from now on.
        let socket = unsafe { OwnedFd::from_raw_fd(socket.into_raw_fd()) };
        Listener {
            socket,
            file,
            #[cfg(feature = "tls")]
            tls: None,
        }
    }

    /// Those who connect from now on must use TLS.
    #[cfg(feature = "tls")]
    pub fn secure(&mut self, tls: &Acceptor) {
        self.tls = Some(tls.clone());
    }

    pub fn accept(&self) -> io::Result<Stream> {
        let flags = libc::SOCK_NONBLOCK | libc::SOCK_CLOEXEC;
        // SAFETY: the call writes no address.
        let file = unsafe { libc::accept4(self.as_raw_fd(), ptr::null_mut(), ptr::null_mut(), flags) };
        if file < 0 {
            return Err(io::Error::last_os_error());
        }
        // SAFETY: it is open, and this owns it.
        let stream = unsafe { TcpStream::from_raw_fd(file) };
        // Without that the system would hold small answers back. A client of TCP that has gone already is seen later.
        let _ = stream.set_nodelay(true);
        #[cfg(feature = "tls")]
        if let Some(tls) = &self.tls {
            return Ok(Stream::Tls(Box::new(tls.session(stream)?)));
        }
        Ok(Stream::Plain(stream))
    }
}

impl AsRawFd for Listener {
    fn as_raw_fd(&self) -> RawFd {
        self.socket.as_raw_fd()
    }
}

/// An open file as a socket of TCP, to ask and tell the system of it. If it is another one, each answer is an error.
pub fn tcp(file: RawFd) -> ManuallyDrop<TcpStream> {
    // SAFETY: the file is not closed here.
    ManuallyDrop::new(unsafe { TcpStream::from_raw_fd(file) })
}
