//! TLS, by OpenSSL.
use crate::options::Tls;
use crate::server::named;
use openssl::error::ErrorStack;
use openssl::ssl::{Ssl, SslAcceptor, SslFiletype, SslMethod, SslSessionCacheMode, SslStream, SslVerifyMode};
use openssl::x509::X509;
use std::fs;
use std::io::{self, Read, Write};
use std::net::TcpStream;
use std::path::Path;

/// What the sessions of these certificates are called. Without a name a client that was asked for a certificate could not resume its session.
const NAME: &[u8] = b"cefrodild";

/// The server's certificates and their key, and what clients must have.
#[derive(Clone)]
pub struct Acceptor(SslAcceptor);

/// A client's session. Its first reads make the handshake.
pub struct Session(SslStream<TcpStream>);

impl Acceptor {
    /// Reads the files.
    pub fn new(tls: &Tls) -> io::Result<Acceptor> {
        let mut builder = SslAcceptor::mozilla_intermediate_v5(SslMethod::tls())?;
        of(&tls.chain, builder.set_certificate_chain_file(&tls.chain))?;
        // It fails if the key is not that of the certificate.
        of(&tls.key, builder.set_private_key_file(&tls.key, SslFiletype::PEM))?;
        if let Some(file) = &tls.authority {
            of(file, builder.set_ca_file(file))?;
            let certificates = fs::read(file).map_err(|why| named(&file.display(), &why))?;
            of(file, X509::stack_from_pem(&certificates))?.iter().try_for_each(|one| builder.add_client_ca(one))?;
        }
        builder.set_verify(match tls.verify {
            0 => SslVerifyMode::NONE,
            1 => SslVerifyMode::PEER,
            _ => SslVerifyMode::PEER | SslVerifyMode::FAIL_IF_NO_PEER_CERT,
        });
        builder.set_session_id_context(NAME)?;
        // Clients keep what they need to resume.
        builder.set_session_cache_mode(SslSessionCacheMode::OFF);
        Ok(Acceptor(builder.build()))
    }

    pub fn session(&self, socket: TcpStream) -> io::Result<Session> {
        let mut session = Ssl::new(self.0.context())?;
        session.set_accept_state();
        Ok(Session(SslStream::new(session, socket)?))
    }
}

/// An error with the file that it is about.
fn of<T>(file: &Path, result: Result<T, ErrorStack>) -> io::Result<T> {
    result.map_err(|why| named(&file.display(), &why.into()))
}

impl Session {
    pub fn socket(&self) -> &TcpStream {
        self.0.get_ref()
    }
}

impl Read for Session {
    fn read(&mut self, room: &mut [u8]) -> io::Result<usize> {
        self.0.read(room)
    }
}

impl Write for Session {
    fn write(&mut self, bytes: &[u8]) -> io::Result<usize> {
        self.0.write(bytes)
    }

    fn flush(&mut self) -> io::Result<()> {
        self.0.flush()
    }
}

impl Drop for Session {
    fn drop(&mut self) {
        // The client sees that nothing was cut off. If it doesn't wait for that, nothing is lost.
        let _ = self.0.shutdown();
    }
}
