//! Who may use the server: names and passwords.
use std::fs;
use std::hint::black_box;
use std::io;
use std::path::Path;

/// Names and passwords, each with a colon in between.
#[derive(Debug, Default)]
pub struct Users(Vec<Vec<u8>>);

impl Users {
    /// Reads a file with `name:password` on each line.
    pub fn read(file: &Path) -> io::Result<Users> {
        let text = fs::read(file)?;
        let lines = text.split(|byte| *byte == b'\n').map(|line| line.strip_suffix(b"\r").unwrap_or(line));
        let users: Vec<_> = lines.filter(|line| !line.is_empty()).map(<[u8]>::to_vec).collect();
        if users.is_empty() || users.iter().any(|user| !user.contains(&b':')) {
            return Err(io::Error::new(io::ErrorKind::InvalidData, "each line must be name:password, and there must be one"));
        }
        Ok(Users(users))
    }

    /// Whether one of them has this name and this password. It takes as long wherever a byte differs.
    pub fn has(&self, name: &[u8], password: &[u8]) -> bool {
        let asked = [name, b":", password].concat();
        self.0.iter().fold(false, |found, user| found | is_same(user, &asked))
    }
}

fn is_same(one: &[u8], other: &[u8]) -> bool {
    let differs = one.iter().zip(other).fold(0, |differs, (one, other)| black_box(differs | one ^ other));
    one.len() == other.len() && differs == 0
}
