//! What a client sends and is answered, byte by byte, without its connection.
use crate::command::{line, run, value};
use crate::counts::Count;
use crate::listing::Listing;
use crate::log::write_line;
use crate::meta::Verb;
use crate::number;
use crate::output::Output;
use crate::request::{parse, refusal, words, Keys, Order, Refusal, Request, ERROR, FORMAT, LONGEST_KEY};
use crate::store::{Fault, Hit, Store};
use memchr::memchr;
use std::mem;
use std::os::fd::RawFd;

/// The longest command line, with its end. A line of keys may be longer, since its keys are answered as they come.
const LONGEST_LINE: usize = 2048;

/// How many commands, or batches of keys, are carried out before other clients have their turn.
const COMMANDS: u32 = 64;

/// How many keys are looked up together.
const KEYS: usize = 32;

/// The first byte of the binary protocol.
const BINARY: u8 = 0x80;

/// How a turn ended.
#[derive(Clone, Copy, Debug, PartialEq, Eq)]
pub enum Turn {
    /// So many bytes of input must be there before there is anything to do.
    Needs(usize),
    /// There is more to do: now, or when answers have been sent.
    HasMore,
    /// The connection ends when all answers have been sent.
    Ends,
}

/// Where in the protocol a client is.
#[derive(Default)]
pub struct Dialogue {
    state: State,
    /// The block of the next command is refused if it has not come.
    refuses_block: bool,
    /// The client's open file, which names it in what `-vv` shows.
    file: RawFd,
    /// Whether the line was shown. It is read again when its block has come.
    is_shown: bool,
}

#[derive(Default)]
enum State {
    #[default]
    New,
    /// It has not said who it is.
    Stranger,
    Line,
    /// So many bytes belong to a command that was refused.
    Block(usize),
    Keys(Keys),
    /// In a line of keys that was refused.
    Rest,
    /// In a list that is the answer.
    List(Listing),
}

/// What a step did: how many bytes of the input are done with, and how the turn goes on.
struct Step(usize, Option<Turn>);

impl Dialogue {
    /// That of a client with this open file.
    pub fn of(file: RawFd) -> Dialogue {
        Dialogue { file, ..Dialogue::default() }
    }

    /// There is no memory for the block that has not come as a whole. The client gets an error, and what is still to come of it is skipped.
    pub fn refuse_block(&mut self) {
        self.refuses_block = true;
    }

    pub fn is_skipping(&self) -> bool {
        matches!(self.state, State::Block(_))
    }

    /// Carries out what has come, and writes the answers. Returns how many bytes of the input are done with.
    pub fn turn(&mut self, store: &Store, input: &[u8], out: &mut Output) -> (usize, Turn) {
        let done = self.steps(store, input, out);
        self.refuses_block = false;
        done
    }

    fn steps(&mut self, store: &Store, input: &[u8], out: &mut Output) -> (usize, Turn) {
        let mut done = 0;
        for _ in 0..COMMANDS {
            if out.is_full() {
                break;
            }
            let Step(taken, turn) = self.step(store, &input[done..], out);
            done += taken;
            if let Some(turn) = turn {
                return (done, turn);
            }
        }
        (done, Turn::HasMore)
    }

    pub fn is_within(&self) -> bool {
        !matches!(self.state, State::New | State::Stranger | State::Line)
    }

    fn step(&mut self, store: &Store, input: &[u8], out: &mut Output) -> Step {
        match self.state {
            State::New => self.first(store, input),
            State::Stranger => self.stranger(store, input, out),
            State::Line => self.line(store, input, out),
            State::Block(bytes) => self.skip(bytes, input),
            State::Keys(keys) => self.keys(keys, store, input, out),
            State::Rest => self.rest(input),
            State::List(listing) => self.list(listing, store, out),
        }
    }

    /// A client of the binary protocol would wait for an answer that never comes.
    fn first(&mut self, store: &Store, input: &[u8]) -> Step {
        self.state = if store.users.is_some() { State::Stranger } else { State::Line };
        Step(0, (input.first() == Some(&BINARY)).then_some(Turn::Ends))
    }

    fn line(&mut self, store: &Store, input: &[u8], out: &mut Output) -> Step {
        let end = memchr(b'\n', &input[..input.len().min(LONGEST_LINE)]);
        let Some(end) = end else { return self.part_of_line(input, out) };
        let (text, rest) = (input[..end].strip_suffix(b"\r").unwrap_or(&input[..end]), &input[end + 1..]);
        let end = end + 1;
        if store.options.verbosity > 1 && !mem::take(&mut self.is_shown) {
            show(self.file, text);
        }
        let mut decoded = Vec::new();
        let (request, is_quiet) = parse(text, &mut decoded);
        match request {
            Ok(Request::Quit) => return Step(end, Some(Turn::Ends)),
            Ok(Request::Keys(keys, start)) if have_right_length(&text[start..]) => {
                self.state = State::Keys(keys);
                return Step(start, None);
            }
            Ok(Request::Keys(..)) => line(out, FORMAT.text),
            Ok(request) => match order_of(&request) {
                Some(order) => {
                    let step = self.block(store, &request, is_quiet, &order, rest, out).behind(end);
                    self.is_shown = matches!(step, Step(_, Some(Turn::Needs(_))));
                    return step;
                }
                None => match Listing::of(&request) {
                    Some(listing) => self.state = State::List(listing),
                    None => run(store, &request, b"", is_quiet, out),
                },
            },
            Err(ERROR) if is_http(text) => return Step(end, Some(Turn::Ends)),
            Err(why) => self.refuse(why, is_quiet, out),
        }
        Step(end, None)
    }

    /// A client says who it is by a `set` of any key, whose value is its name and its password.
    fn stranger(&mut self, store: &Store, input: &[u8], out: &mut Output) -> Step {
        let Some(end) = memchr(b'\n', &input[..input.len().min(LONGEST_LINE)]).map(|end| end + 1) else {
            return Step(0, Some(if input.len() < LONGEST_LINE { Turn::Needs(input.len() + 1) } else { Turn::Ends }));
        };
        let length =
            words(&input[..end - 1]).nth(4).map(|word| word.strip_suffix(b"\r").unwrap_or(word)).and_then(number::length);
        let Some(length) = length.filter(|length| input.starts_with(b"set ") && *length < LONGEST_LINE) else {
            if is_http(&input[..end - 1]) {
                return Step(end, Some(Turn::Ends));
            }
            line(out, "CLIENT_ERROR unauthenticated");
            return Step(end, None);
        };
        let whole = end + length + END.len();
        if input.len() < whole {
            return Step(0, Some(Turn::Needs(whole)));
        }
        let mut said = words(&input[end..end + length]);
        let answer = match (said.next(), said.next()) {
            _ if input[end + length..whole] != *END => "CLIENT_ERROR bad command line termination",
            (Some(name), Some(password)) => self.log_in(store, name, password),
            _ => "CLIENT_ERROR bad authentication token format",
        };
        line(out, answer);
        Step(whole, None)
    }

    fn log_in(&mut self, store: &Store, name: &[u8], password: &[u8]) -> &'static str {
        store.books.counts.add(Count::Logins);
        if store.users.as_ref().is_none_or(|users| users.has(name, password)) {
            self.state = State::Line;
            return "STORED";
        }
        store.books.counts.add(Count::BadLogins);
        "CLIENT_ERROR authentication failure"
    }

    /// The line has not ended yet, or is too long.
    fn part_of_line(&mut self, input: &[u8], out: &mut Output) -> Step {
        if input.len() < LONGEST_LINE {
            return Step(0, Some(Turn::Needs(input.len() + 1)));
        }
        let input = &input[..LONGEST_LINE];
        let keys = |line| match parse(line, &mut Vec::new()) {
            (Ok(Request::Keys(keys, start)), _) => Some((keys, start)),
            _ => None,
        };
        // The last word may be a part of one: of a key, or of a time.
        let whole = input.iter().rposition(|byte| *byte == b' ').unwrap_or(0);
        let found = keys(input).filter(|(keys, _)| keys.expiry.is_none()).or_else(|| keys(&input[..whole]));
        if let Some((keys, start)) = found {
            self.state = State::Keys(keys);
            return Step(start, None);
        }
        line(out, "CLIENT_ERROR line too long");
        Step(input.len(), Some(Turn::Ends))
    }

    fn refuse(&mut self, why: Refusal, is_quiet: bool, out: &mut Output) {
        if !is_quiet {
            line(out, why.text);
        }
        if why.block > 0 {
            self.state = State::Block(why.block);
        }
    }

    /// Carries out a command with a block, if that is there: the input is what follows the line.
    fn block(&mut self, store: &Store, request: &Request, is_quiet: bool, order: &Order, input: &[u8], out: &mut Output) -> Step {
        let (length, whole) = (order.length, order.length + END.len());
        let refuses = mem::take(&mut self.refuses_block) && input.len() < whole;
        if length > store.options.longest || refuses {
            let (count, why) = if refuses { (Count::NoMemory, Fault::NoRoom) } else { (Count::TooLarge, Fault::TooLong) };
            store.books.counts.add(count);
            self.refuse(Refusal { text: store.refuse(order, why).text(), block: whole }, is_quiet, out);
            return Step(0, None);
        }
        if input.len() < whole {
            return Step(0, Some(Turn::Needs(whole)));
        }
        if input[length..whole] == *END {
            run(store, request, &input[..length], is_quiet, out);
        } else {
            self.refuse(refusal("CLIENT_ERROR bad data chunk"), is_quiet, out);
        }
        Step(whole, None)
    }

    fn skip(&mut self, bytes: usize, input: &[u8]) -> Step {
        let skipped = bytes.min(input.len());
        if skipped == bytes {
            self.state = State::Line;
            return Step(skipped, None);
        }
        self.state = State::Block(bytes - skipped);
        Step(skipped, Some(Turn::Needs(1)))
    }

    fn rest(&mut self, input: &[u8]) -> Step {
        let Some(end) = memchr(b'\n', input) else { return Step(input.len(), Some(Turn::Needs(1))) };
        self.state = State::Line;
        Step(end + 1, None)
    }

    fn list(&mut self, mut listing: Listing, store: &Store, out: &mut Output) -> Step {
        self.state = if listing.part(store, out) { State::List(listing) } else { State::Line };
        if matches!(self.state, State::Line) {
            line(out, "END");
        }
        Step(0, None)
    }

    /// Looks some keys up, the first of what is left of the line.
    fn keys(&mut self, keys: Keys, store: &Store, input: &[u8], out: &mut Output) -> Step {
        let batch = Batch::of(input);
        let found = &batch.keys[..batch.count];
        let each = |position: usize, Hit { item, token, now }: Hit| {
            value(out, found[position], item, keys.with_token.then_some(token));
            item.note_fetched(now);
            !out.is_full()
        };
        let looked = match keys.expiry {
            Some(expiry) => store.look_and_touch(found, store.books.clock.deadline(expiry), each),
            None => store.look(found, each),
        };
        if looked < batch.count {
            return Step(batch.ends[looked - 1], None);
        }
        match batch.stop {
            Stop::Full => Step(batch.end, None),
            Stop::Line => {
                line(out, "END");
                self.state = State::Line;
                Step(batch.end, None)
            }
            Stop::Input => Step(batch.end, Some(Turn::Needs(input.len() - batch.end + 1))),
            Stop::LongKey => {
                line(out, FORMAT.text);
                self.state = State::Rest;
                Step(batch.end, None)
            }
        }
    }
}

const END: &[u8; 2] = b"\r\n";

impl Step {
    /// The same step behind so many bytes, which are done with unless the step needs more.
    fn behind(self, bytes: usize) -> Step {
        match self {
            Step(taken, Some(Turn::Needs(more))) => Step(taken, Some(Turn::Needs(bytes + more))),
            Step(taken, turn) => Step(bytes + taken, turn),
        }
    }
}

fn have_right_length(keys: &[u8]) -> bool {
    keys.len() <= LONGEST_KEY || words(keys).all(|key| key.len() <= LONGEST_KEY)
}

/// Whether this is the first line of a request of HTTP. A web page can make a browser send one, with commands in its body.
fn is_http(line: &[u8]) -> bool {
    words(line).last().is_some_and(|word| word.starts_with(b"HTTP/"))
}

/// Shows the operator what a client sends, as memcached does.
#[cold]
fn show(file: RawFd, line: &[u8]) {
    write_line(format_args!("<{file} {}", line.escape_ascii()));
}

/// What is to be stored, if a block follows the line.
fn order_of<'a>(request: &Request<'a>) -> Option<Order<'a>> {
    match request {
        Request::Store(order) => Some(*order),
        Request::Meta(meta) if meta.verb == Verb::Set => Some(meta.order),
        _ => None,
    }
}

struct Batch<'a> {
    keys: [&'a [u8]; KEYS],
    ends: [usize; KEYS],
    count: usize,
    end: usize,
    stop: Stop,
}

enum Stop {
    Full,
    Line,
    Input,
    LongKey,
}

impl<'a> Batch<'a> {
    fn of(input: &'a [u8]) -> Batch<'a> {
        let mut batch = Batch { keys: [b""; KEYS], ends: [0; KEYS], count: 0, end: 0, stop: Stop::Full };
        while batch.count < KEYS {
            let rest = &input[batch.end..];
            let Some(length) = rest.iter().position(|byte| matches!(byte, b' ' | b'\n')) else {
                batch.stop = if rest.len() > LONGEST_KEY + 1 { Stop::LongKey } else { Stop::Input };
                break;
            };
            let ends_line = rest[length] == b'\n';
            let key = if ends_line { rest[..length].strip_suffix(b"\r").unwrap_or(&rest[..length]) } else { &rest[..length] };
            if key.len() > LONGEST_KEY {
                batch.stop = Stop::LongKey;
                break;
            }
            if !key.is_empty() {
                batch.keys[batch.count] = key;
                batch.ends[batch.count] = batch.end + key.len();
                batch.count += 1;
            }
            batch.end += length + 1;
            if ends_line {
                batch.stop = Stop::Line;
                break;
            }
        }
        batch
    }
}
