//! A log of changes and answers for `mccheck`, which says how many answers are not what the index held at their moment.
//!
//! In the log a key is its hash, as the index has it. A value is a digest of the item's flags and bytes: so an answer with the bytes of
//! another item is found, too, and not only one from another moment.
use crate::item::Item;
use crate::server::named;
use std::collections::hash_map::DefaultHasher;
use std::fs::File;
use std::hash::{Hash, Hasher};
use std::io::{self, BufWriter, Write};
use std::sync::{Mutex, PoisonError};

/// The log, which all workers write.
pub struct Audit(Mutex<State>);

struct State {
    out: BufWriter<File>,
    /// The first error. After it nothing is written.
    fault: Option<io::Error>,
}

/// What the log says of an item.
pub fn digest(item: &Item) -> u64 {
    let mut hasher = DefaultHasher::new();
    (item.flags, item.value()).hash(&mut hasher);
    hasher.finish()
}

impl Audit {
    pub fn create(path: &str) -> io::Result<Audit> {
        let file = File::create(path).map_err(|why| named(&path, &why))?;
        let audit = Audit(Mutex::new(State { out: BufWriter::new(file), fault: None }));
        audit.line(format_args!("words 1"));
        Ok(audit)
    }

    pub fn line(&self, line: std::fmt::Arguments) {
        let mut state = self.0.lock().unwrap_or_else(PoisonError::into_inner);
        if state.fault.is_none() {
            state.fault = writeln!(state.out, "{line}").err();
        }
    }

    pub fn end(&self) -> io::Result<()> {
        let mut state = self.0.lock().unwrap_or_else(PoisonError::into_inner);
        match state.fault.take() {
            Some(why) => Err(why),
            None => state.out.flush(),
        }
    }
}
