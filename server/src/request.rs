//! A command line, and what it asks for.
use crate::listing::CLASS;
use crate::meta::{self, Meta};
use crate::number;

pub const LONGEST_KEY: usize = 250;

/// The most words of a command line that are kept apart. No command but those of keys and flags has as many.
const WORDS: usize = 9;

/// The last class of items that clients may ask for, as to memcached.
const LAST_CLASS: u64 = 63;

#[derive(Debug, PartialEq, Eq)]
pub enum Request<'a> {
    /// `get` and its kin. The keys are what follows this many bytes of the line.
    Keys(Keys, usize),
    /// `set` and its kin. A block follows.
    Store(Order<'a>),
    Delete(&'a [u8]),
    /// `incr`, `decr`.
    Change(&'a [u8], Change),
    /// `touch`, with a time to live.
    Touch(&'a [u8], i64),
    /// `flush_all`, with a delay.
    Flush(i64),
    /// `stats`, with what it is asked for.
    Stats(&'a [u8]),
    /// `stats cachedump`, with a class of items, and the most items that are to be listed. 0: any number.
    Dump(u64, u64),
    /// `lru_crawler metadump`, and whether it is asked for the class that has items.
    Crawl(bool),
    Version,
    /// It changes nothing.
    Verbosity,
    Quit,
    /// `mg`, `ms`, `md` and `ma`.
    Meta(Meta<'a>),
    /// `me`.
    Details(&'a [u8]),
    /// `mn`.
    NoOperation,
}

/// How the keys of a line are to be looked up.
#[derive(Clone, Copy, Debug, PartialEq, Eq)]
pub struct Keys {
    /// Whether each answer has the item's token.
    pub with_token: bool,
    /// The new time to live of what is found.
    pub expiry: Option<i64>,
}

/// When a value is stored.
#[derive(Clone, Copy, Debug, Default, PartialEq, Eq)]
pub enum How {
    /// Always.
    #[default]
    Set,
    /// If the key has no value.
    Add,
    /// If it has one.
    Replace,
    /// If it has one, behind which the new one goes.
    Append,
    /// If it has one, before which the new one goes.
    Prepend,
}

/// What is to be stored.
#[derive(Clone, Copy, Debug, Default, PartialEq, Eq)]
pub struct Order<'a> {
    pub how: How,
    pub key: &'a [u8],
    pub flags: u32,
    pub expiry: i64,
    /// How many bytes its block has.
    pub length: usize,
    /// The token that the item must have.
    pub compare: Option<u64>,
    /// Whether it is stored as stale over an item with a newer token.
    pub may_be_stale: bool,
    /// The marks that it gets.
    pub marks: u8,
}

/// What becomes of a number.
#[derive(Clone, Copy, Debug, PartialEq, Eq)]
pub enum Change {
    /// This is added, modulo 2^64.
    Add(u64),
    /// This is subtracted, down to 0.
    Subtract(u64),
}

#[derive(Clone, Copy, Debug, PartialEq, Eq)]
pub struct Refusal {
    pub text: &'static str,
    /// How many bytes behind the line belong to it.
    pub block: usize,
}

/// The answer to a line that is no command.
pub const ERROR: Refusal = refusal("ERROR");
/// The answer to a command whose words can't be read.
pub const FORMAT: Refusal = refusal("CLIENT_ERROR bad command line format");
const EXPTIME: Refusal = refusal("CLIENT_ERROR invalid exptime argument");
const DELTA: Refusal = refusal("CLIENT_ERROR invalid numeric delta argument");
const USAGE: Refusal = refusal("CLIENT_ERROR bad command line format.  Usage: delete <key> [noreply]");

/// A refusal of a line that has no block.
pub const fn refusal(text: &'static str) -> Refusal {
    Refusal { text, block: 0 }
}

pub fn words(line: &[u8]) -> impl Iterator<Item = &[u8]> {
    line.split(|byte| *byte == b' ').filter(|word| !word.is_empty())
}

/// Reads a line, without its end. Its key goes to `decoded` if it is base64. The second result is whether the client wants no answer.
pub fn parse<'a>(line: &'a [u8], decoded: &'a mut Vec<u8>) -> (Result<Request<'a>, Refusal>, bool) {
    let mut found = [&line[..0]; WORDS];
    let count = words(line).take(WORDS).zip(&mut found).map(|(word, place)| *place = word).count();
    let (words, name) = (&found[..count], found[0]);
    if name.len() == 2 && name[0] == b'm' {
        return (meta::parse(name[1], line, decoded), false);
    }
    let is_quiet = words.last() == Some(&b"noreply".as_slice()) && can_be_quiet(name, count);
    let request = classic(name, words, line, is_quiet);
    let is_known = request != Err(ERROR);
    (request, is_quiet && is_known)
}

/// Whether the last of so many words can be `noreply`.
fn can_be_quiet(name: &[u8], count: usize) -> bool {
    match name {
        b"set" | b"add" | b"replace" | b"append" | b"prepend" | b"cas" | b"incr" | b"decr" | b"touch" => true,
        b"flush_all" | b"verbosity" => true,
        _ => name == b"delete" && count > 2,
    }
}

fn classic<'a>(name: &[u8], words: &[&'a [u8]], line: &'a [u8], is_quiet: bool) -> Result<Request<'a>, Refusal> {
    let count = words.len();
    match (name, count) {
        (b"get" | b"gets", 2..) => Ok(Request::Keys(Keys { with_token: name == b"gets", expiry: None }, behind(line, name))),
        (b"gat" | b"gats", 2..) => {
            let expiry = Some(number::integer(words[1]).ok_or(EXPTIME)?);
            Ok(Request::Keys(Keys { with_token: name == b"gats", expiry }, behind(line, words[1])))
        }
        (b"set", 5 | 6) => store(How::Set, words, None),
        (b"add", 5 | 6) => store(How::Add, words, None),
        (b"replace", 5 | 6) => store(How::Replace, words, None),
        (b"append", 5 | 6) => store(How::Append, words, None),
        (b"prepend", 5 | 6) => store(How::Prepend, words, None),
        (b"cas", 6 | 7) => store(How::Set, words, Some(number::unsigned(words[5]).ok_or(FORMAT)?)),
        (b"incr", 3 | 4) => change(words, Change::Add),
        (b"decr", 3 | 4) => change(words, Change::Subtract),
        (b"touch", 3 | 4) => Ok(Request::Touch(key(words[1])?, number::integer(words[2]).ok_or(EXPTIME)?)),
        (b"delete", 2..=4) => delete(words, is_quiet),
        (b"flush_all", 1..=3) if count == 1 + usize::from(is_quiet) => Ok(Request::Flush(0)),
        (b"flush_all", 2 | 3) => Ok(Request::Flush(number::integer(words[1]).ok_or(EXPTIME)?)),
        (b"verbosity", 2 | 3) => number::unsigned(words[1]).map(|_| Request::Verbosity).ok_or(FORMAT),
        (b"stats", _) if words.get(1) == Some(&b"cachedump".as_slice()) => dump(words),
        (b"lru_crawler", 3) if words[1] == b"metadump" => crawl(words[2]),
        (b"stats", _) => Ok(Request::Stats(words.get(1).copied().unwrap_or_default())),
        (b"version", _) => Ok(Request::Version),
        (b"quit", _) => Ok(Request::Quit),
        _ => Err(ERROR),
    }
}

/// Where a word of a line ends.
pub fn behind(line: &[u8], word: &[u8]) -> usize {
    word.as_ptr() as usize - line.as_ptr() as usize + word.len()
}

/// The key, unless it is too long.
pub fn key(word: &[u8]) -> Result<&[u8], Refusal> {
    Some(word).filter(|word| word.len() <= LONGEST_KEY).ok_or(FORMAT)
}

/// All faults of these words have one answer.
fn store<'a>(how: How, words: &[&'a [u8]], compare: Option<u64>) -> Result<Request<'a>, Refusal> {
    let flags = number::flags(words[2]).ok_or(FORMAT)?;
    let expiry = number::integer(words[3]).ok_or(FORMAT)?;
    let length = number::length(words[4]).ok_or(FORMAT)?;
    Ok(Request::Store(Order { how, key: key(words[1])?, flags, expiry, length, compare, ..Order::default() }))
}

fn change<'a>(words: &[&'a [u8]], change: fn(u64) -> Change) -> Result<Request<'a>, Refusal> {
    let key = key(words[1])?;
    Ok(Request::Change(key, change(number::unsigned(words[2]).ok_or(DELTA)?)))
}

fn dump<'a>(words: &[&'a [u8]]) -> Result<Request<'a>, Refusal> {
    let &[_, _, class, most, ..] = words else { return Err(refusal("CLIENT_ERROR bad command line")) };
    match (number::unsigned(class), number::unsigned(most)) {
        (Some(class), Some(most)) if class <= LAST_CLASS => Ok(Request::Dump(class, most)),
        (Some(_), Some(_)) => Err(refusal("CLIENT_ERROR Illegal slab id")),
        _ => Err(FORMAT),
    }
}

fn crawl<'a>(classes: &[u8]) -> Result<Request<'a>, Refusal> {
    if matches!(classes, b"all" | b"hash") {
        return Ok(Request::Crawl(true));
    }
    let mut has_class = false;
    for class in classes.split(|byte| *byte == b',').map(number::unsigned) {
        let known = class.filter(|class| (1..=LAST_CLASS).contains(class)).ok_or(refusal("BADCLASS invalid class id"))?;
        has_class |= known == CLASS;
    }
    Ok(Request::Crawl(has_class))
}

/// Old clients send a time, which must be 0.
fn delete<'a>(words: &[&'a [u8]], is_quiet: bool) -> Result<Request<'a>, Refusal> {
    let has_zero = words.get(2) == Some(&b"0".as_slice());
    match words.len() {
        3 if !has_zero && !is_quiet => Err(USAGE),
        4 if !has_zero || !is_quiet => Err(USAGE),
        _ => Ok(Request::Delete(key(words[1])?)),
    }
}
