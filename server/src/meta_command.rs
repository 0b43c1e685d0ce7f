//! Carries meta commands out.
use crate::base64;
use crate::command::{count_change, line, text, NOT_NUMERIC};
use crate::counts::Count;
use crate::index::Token;
use crate::item::{Item, BINARY, STALE, WON};
use crate::listing::{write_details, write_short_key};
use crate::meta::{Meta, Verb};
use crate::number;
use crate::output::Output;
use crate::request::{words, Change, How, Order};
use crate::store::{Answer, Changed, Fault, Found, Hit, Store};
use std::io::Write;

/// What the answer's flags say of the item.
#[derive(Default)]
struct Facts {
    /// An index makes less than 2^63 changes.
    token: Option<i64>,
    flags: Option<i64>,
    size: Option<i64>,
    left: Option<i64>,
    hit: Option<i64>,
    /// The seconds since it was used.
    idle: Option<i64>,
    /// Whether its key came as base64. `None`: as that of the command.
    is_binary: Option<bool>,
    /// What comes behind all flags.
    marks: &'static str,
}

impl Facts {
    fn of(&self, flag: u8) -> Option<i64> {
        match flag {
            b'c' => self.token,
            b'f' => self.flags,
            b's' => self.size,
            b't' => self.left,
            b'h' => self.hit,
            b'l' => self.idle,
            _ => None,
        }
    }
}

fn with(token: Token) -> Facts {
    Facts { token: Some(token as i64), ..Facts::default() }
}

/// Carries out a command whose block is this, if it has one.
pub fn run(store: &Store, meta: &Meta, data: &[u8], out: &mut Output) {
    store.books.counts.add(Count::MetaCommands);
    match meta.verb {
        Verb::Get => get(store, meta, out),
        Verb::Set => tell(meta, store.store(&meta.order, data), out),
        Verb::Delete if meta.invalidates => {
            let deadline = meta.expiry.map(|expiry| store.books.clock.deadline(expiry));
            tell(meta, store.invalidate(meta.order.key, meta.order.compare, deadline), out)
        }
        Verb::Delete => tell(meta, store.delete(meta.order.key, meta.order.compare), out),
        Verb::Arithmetic => change(store, meta, out),
    }
}

fn get(store: &Store, meta: &Meta, out: &mut Output) {
    let (mut is_found, mut may_win) = (false, false);
    let deadline = meta.expiry.map(|expiry| store.books.clock.deadline(expiry));
    let each = |_, hit: Hit| {
        is_found = true;
        may_win = deadline.is_none() && wants_winner(store, meta, hit.item) && !hit.item.has(WON);
        if !may_win {
            tell_item(store, meta, hit, None, out);
        }
        true
    };
    match deadline {
        Some(deadline) => store.look_and_touch(&[meta.order.key], deadline, each),
        None => store.look(&[meta.order.key], each),
    };
    if may_win || !is_found && meta.vivified.is_some() {
        win(store, meta, deadline, !is_found, out).unwrap_or_else(|why| line(out, why.text()));
    } else if !is_found {
        miss(meta, out);
    }
}

/// Answers a client that may be told to fetch the value anew. The lock keeps changes out that copy who was told so.
fn win(store: &Store, meta: &Meta, deadline: Option<u64>, is_made: bool, out: &mut Output) -> Result<(), Fault> {
    let (mut lock, mut made) = (Some(store.lock(meta.order.key)?), None);
    if let Some(expiry) = meta.vivified.filter(|_| is_made) {
        let order = Order { how: How::Add, compare: None, expiry, marks: meta.order.marks | WON, ..meta.order };
        if let Answer::Done(token) = store.store_under(&mut lock, &order, b"")? {
            made = Some(token);
        }
    }
    let found = store.find(meta.order.key, |hit| {
        deadline.into_iter().for_each(|deadline| hit.item.touch(deadline));
        tell_item(store, meta, hit, made, out);
    });
    if !matches!(found, Ok(Found::Live(..))) {
        // It has gone again.
        miss(meta, out);
    }
    Ok(())
}

fn miss(meta: &Meta, out: &mut Vec<u8>) {
    if !meta.is_quiet {
        answer(meta, "EN", &Facts::default(), out);
    }
}

/// Whether a client is to fetch the item's value anew.
fn wants_winner(store: &Store, meta: &Meta, item: &Item) -> bool {
    // -1: it stays.
    let ends_soon = meta.recached.is_some_and(|time| (0..time).contains(&store.books.clock.left(item.deadline())));
    item.has(STALE) || ends_soon
}

/// Answers with an item. The client wins it if it has made it, with this token.
fn tell_item(store: &Store, meta: &Meta, Hit { item, token, now }: Hit, made: Option<Token>, out: &mut Output) {
    let (clock, size) = (&store.books.clock, item.value().len());
    let facts = Facts {
        flags: Some(item.flags.into()),
        size: Some(size as i64),
        left: Some(clock.left(item.deadline())),
        hit: Some(item.was_fetched().into()),
        idle: Some(item.idle(now).into()),
        is_binary: Some(item.has(BINARY)),
        marks: marks(item, made == Some(token) || wants_winner(store, meta, item) && item.mark(WON)),
        ..with(token)
    };
    if meta.with_value {
        out.extend_from_slice(b"VA ");
        number::write(out, size);
        write_flags(meta, &facts, out);
        out.block(item);
    } else {
        answer(meta, "HD", &facts, out);
    }
    if !meta.counts_no_use {
        item.note_fetched(now);
    }
}

/// What a client is told beside what it asks for: that another one fetches the value anew, that it is stale, and that this client is to fetch it.
fn marks(item: &Item, wins: bool) -> &'static str {
    match (wins, item.has(STALE)) {
        (true, true) => " X W",
        (true, false) => " W",
        (false, true) => " Z X",
        (false, false) if item.has(WON) => " Z",
        (false, false) => "",
    }
}

/// Answers `me`, which is no use of the item.
pub fn details(store: &Store, key: &[u8], out: &mut Vec<u8>) {
    store.books.counts.add(Count::MetaCommands);
    let (clock, mut is_found) = (&store.books.clock, false);
    store.index.peek(store.index.hash_of(key), &mut |item, token| {
        is_found = item.key() == key && store.books.is_live(item);
        if is_found {
            out.extend_from_slice(b"ME ");
            write_short_key(out, item);
            // As memcached has it: a time that is left is negative.
            let end = clock.left(item.deadline()).abs().wrapping_neg();
            write_details(out, item, token, end, item.idle(clock.now()).into());
            out.extend_from_slice(b"\r\n");
        }
    });
    if !is_found {
        line(out, "EN");
    }
}

fn tell(meta: &Meta, answered: Result<Answer, Fault>, out: &mut Vec<u8>) {
    let (code, token) = match answered {
        Ok(Answer::Done(_)) if meta.is_quiet => return,
        Ok(Answer::Done(token)) => ("HD", token),
        Ok(Answer::NotStored) => ("NS", 0),
        Ok(Answer::Exists) => ("EX", 0),
        Ok(Answer::NotFound) => ("NF", 0),
        Err(why) => return line(out, why.text()),
    };
    let facts = if meta.verb == Verb::Set { with(token) } else { Facts::default() };
    answer(meta, code, &facts, out);
}

fn change(store: &Store, meta: &Meta, out: &mut Vec<u8>) {
    let deadline = meta.expiry.map(|expiry| store.books.clock.deadline(expiry));
    let change = if meta.subtracts { Change::Subtract(meta.delta) } else { Change::Add(meta.delta) };
    let mut changed = store.change(meta.order.key, change, meta.order.compare, deadline);
    let mut is_quiet = meta.is_quiet;
    match (changed, meta.creates) {
        // Memcached counts no miss either where a number is made.
        (Ok(Changed::NotFound), true) => {
            changed = make(store, meta, change, deadline);
            is_quiet = false;
        }
        _ => count_change(store, change, changed),
    }
    match changed {
        Ok(Changed::Changed(..)) if is_quiet => {}
        Ok(Changed::Changed(number, token, deadline)) => {
            let facts = Facts { left: Some(store.books.clock.left(deadline)), ..with(token) };
            answer_number(meta, number, &facts, out);
        }
        Ok(Changed::NotFound) => answer(meta, "NF", &Facts::default(), out),
        Ok(Changed::Exists) => answer(meta, "EX", &Facts::default(), out),
        Ok(Changed::NotNumeric) => line(out, NOT_NUMERIC),
        Err(why) => line(out, why.text()),
    }
}

/// Makes the number that was missing. If another client makes it first, that one is changed, and gets this deadline.
fn make(store: &Store, meta: &Meta, change: Change, deadline: Option<u64>) -> Result<Changed, Fault> {
    let number = meta.initial.to_string();
    let order = Order { how: How::Add, compare: None, flags: 0, expiry: meta.made_expiry, ..meta.order };
    match store.store(&order, number.as_bytes())? {
        Answer::Done(token) => Ok(Changed::Changed(meta.initial, token, store.books.clock.deadline(meta.made_expiry))),
        _ => store.change(meta.order.key, change, meta.order.compare, deadline),
    }
}

fn answer_number(meta: &Meta, number: u64, facts: &Facts, out: &mut Vec<u8>) {
    if !meta.with_value {
        return answer(meta, "HD", facts, out);
    }
    text!(out, "VA {}", number.checked_ilog10().unwrap_or(0) + 1);
    write_flags(meta, facts, out);
    text!(out, "\r\n{number}\r\n");
}

fn answer(meta: &Meta, code: &str, facts: &Facts, out: &mut Vec<u8>) {
    out.extend_from_slice(code.as_bytes());
    write_flags(meta, facts, out);
    out.extend_from_slice(b"\r\n");
}

/// Writes the flags of the answer, in the order of the command's.
fn write_flags(meta: &Meta, facts: &Facts, out: &mut Vec<u8>) {
    for word in words(meta.words) {
        match (word[0], facts.of(word[0])) {
            (b'O', _) => {
                out.push(b' ');
                out.extend_from_slice(word);
            }
            (b'k', _) => write_key(meta, facts, out),
            (flag, Some(fact)) => {
                out.extend_from_slice(&[b' ', flag]);
                number::write(out, fact);
            }
            (_, None) => {}
        }
    }
    out.extend_from_slice(facts.marks.as_bytes());
}

fn write_key(meta: &Meta, facts: &Facts, out: &mut Vec<u8>) {
    out.extend_from_slice(b" k");
    if facts.is_binary.unwrap_or(meta.is_binary()) {
        base64::write(out, meta.order.key);
        out.extend_from_slice(b" b");
    } else {
        out.extend_from_slice(meta.order.key);
    }
}
