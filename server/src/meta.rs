//! Meta commands: what their words ask for.
use crate::base64;
use crate::item::BINARY;
use crate::number;
use crate::request::{behind, key, refusal, words, How, Order, Refusal, Request, ERROR, FORMAT};

/// The longest opaque token, its flag included.
const LONGEST_OPAQUE: usize = 33;

#[derive(Clone, Copy, Debug, Default, PartialEq, Eq)]
pub enum Verb {
    /// `mg`
    #[default]
    Get,
    /// `ms`
    Set,
    /// `md`
    Delete,
    /// `ma`
    Arithmetic,
}

#[derive(Debug, Default, PartialEq, Eq)]
pub struct Meta<'a> {
    pub verb: Verb,
    /// Its key, and what `ms` stores: `F`, `M`, `C`, `T` and the length of its block.
    pub order: Order<'a>,
    /// Its flags, as they were sent. The answer has them in this order.
    pub words: &'a [u8],
    /// `q`: whether the usual answer is left out.
    pub is_quiet: bool,
    /// `v`: whether the answer has the value.
    pub with_value: bool,
    /// `T`: the new time to live.
    pub expiry: Option<i64>,
    /// `N` of `mg`: the time to live of an empty item that is made if there is none.
    pub vivified: Option<i64>,
    /// `R`: with less time to live the item is to be fetched anew.
    pub recached: Option<i64>,
    /// `u` of `mg`: whether the item stays as it was used before.
    pub counts_no_use: bool,
    /// `I` of `md`: whether the item becomes stale, and stays.
    pub invalidates: bool,
    /// `M` of `ma`: whether it subtracts.
    pub subtracts: bool,
    /// `D`: what is added or subtracted.
    pub delta: u64,
    /// `N` of `ma`: whether a number is made that is missing.
    pub creates: bool,
    /// Its time to live: the last of `N` and `T`.
    pub made_expiry: i64,
    /// `J`: the number that is made.
    pub initial: u64,
}

/// Reads a line whose first word is `m` and this letter. Its key goes to `decoded` if it is base64.
pub fn parse<'a>(letter: u8, line: &'a [u8], decoded: &'a mut Vec<u8>) -> Result<Request<'a>, Refusal> {
    let verb = match letter {
        b'g' => Verb::Get,
        b's' => Verb::Set,
        b'd' => Verb::Delete,
        b'a' => Verb::Arithmetic,
        b'e' => return details(line, decoded),
        b'n' => return Ok(Request::NoOperation),
        _ => return Err(ERROR),
    };
    let mut all = words(line).skip(1);
    let mut last = all.next().ok_or(ERROR)?;
    let key = key(last)?;
    let mut length = 0;
    if verb == Verb::Set {
        last = all.next().ok_or(FORMAT)?;
        length = number::length(last).ok_or(FORMAT)?;
    }
    let order = Order { key, length, ..Order::default() };
    let mut meta = Meta { verb, order, words: &line[behind(line, last)..], delta: 1, ..Meta::default() };
    match meta.read_flags().and_then(|()| meta.decode(decoded)) {
        Ok(()) => Ok(Request::Meta(meta)),
        Err(why) if verb == Verb::Set => Err(Refusal { block: length + 2, ..why }),
        Err(why) => Err(why),
    }
}

/// What is behind the key changes nothing, unless it begins with `b`.
fn details<'a>(line: &'a [u8], decoded: &'a mut Vec<u8>) -> Result<Request<'a>, Refusal> {
    let mut all = words(line).skip(1);
    let key = key(all.next().ok_or(FORMAT)?)?;
    if all.next() != Some(b"b") {
        return Ok(Request::Details(key));
    }
    *decoded = base64::read(key).ok_or(FORMAT)?;
    Ok(Request::Details(decoded))
}

impl<'a> Meta<'a> {
    /// Whether its key came as base64.
    pub fn is_binary(&self) -> bool {
        self.order.marks & BINARY != 0
    }

    fn decode(&mut self, decoded: &'a mut Vec<u8>) -> Result<(), Refusal> {
        if self.is_binary() {
            *decoded = base64::read(self.order.key).ok_or(self.fault("CLIENT_ERROR error decoding key"))?;
            self.order.key = decoded;
        }
        Ok(())
    }

    fn read_flags(&mut self) -> Result<(), Refusal> {
        let (mut seen, mut mode) = (0u128, None);
        for word in words(self.words) {
            let bit = 1u128.checked_shl(u32::from(word[0])).unwrap_or(0);
            if seen & bit != 0 {
                return Err(self.fault("CLIENT_ERROR duplicate flag"));
            }
            seen |= bit;
            match word[0] {
                b'M' if matches!(self.verb, Verb::Set | Verb::Arithmetic) => mode = Some(&word[1..]),
                flag => self.read_flag(flag, &word[1..])?,
            }
        }
        match (self.verb, mode) {
            (Verb::Set, Some(mode)) => self.order.how = how(mode)?,
            (_, Some(mode)) => self.subtracts = subtracts(mode)?,
            _ => {}
        }
        Ok(())
    }

    fn read_flag(&mut self, flag: u8, token: &[u8]) -> Result<(), Refusal> {
        match (flag, self.verb) {
            (b'b', _) => self.order.marks |= BINARY,
            (b'q', _) => self.is_quiet = true,
            (b'v', _) => self.with_value = true,
            (b'k' | b'c' | b'f' | b's' | b't' | b'P' | b'L', _) => {}
            (b'O', _) if token.len() < LONGEST_OPAQUE => {}
            (b'O', _) => return Err(refusal("CLIENT_ERROR opaque token too long")),
            (b'T', _) => {
                self.order.expiry = number::integer(token).ok_or(self.bad_token())?;
                self.expiry = Some(self.order.expiry);
                self.made_expiry = self.order.expiry;
            }
            (b'C', _) => self.order.compare = Some(number::unsigned(token).ok_or(self.bad_token())?),
            (b'h' | b'l', Verb::Get) => {}
            (b'u', Verb::Get) => self.counts_no_use = true,
            (b'N', Verb::Get) => self.vivified = Some(number::integer(token).ok_or(self.bad_token())?),
            (b'R', Verb::Get) => self.recached = Some(number::integer(token).ok_or(self.bad_token())?),
            (b'I', Verb::Set) => self.order.may_be_stale = true,
            (b'I', Verb::Delete) => self.invalidates = true,
            (b'F', Verb::Set) => self.order.flags = number::flags(token).ok_or(FORMAT)?,
            (b'D', Verb::Arithmetic) => self.delta = number::unsigned(token).ok_or(self.bad_token())?,
            (b'J', Verb::Arithmetic) => self.initial = number::unsigned(token).ok_or(self.bad_token())?,
            (b'N', Verb::Arithmetic) => {
                self.creates = true;
                self.made_expiry = number::integer(token).ok_or(self.bad_token())?;
            }
            _ => return Err(self.fault("CLIENT_ERROR invalid flag")),
        }
        Ok(())
    }

    /// Of some commands each fault in the flags has the same text.
    fn fault(&self, text: &'static str) -> Refusal {
        refusal(if matches!(self.verb, Verb::Delete | Verb::Arithmetic) { INVALID_OR_DUPLICATE } else { text })
    }

    fn bad_token(&self) -> Refusal {
        self.fault("CLIENT_ERROR bad token in command line format")
    }
}

const INVALID_OR_DUPLICATE: &str = "CLIENT_ERROR invalid or duplicate flag";

fn how(token: &[u8]) -> Result<How, Refusal> {
    match token {
        [b'E' | b'e'] => Ok(How::Add),
        [b'A' | b'a'] => Ok(How::Append),
        [b'P' | b'p'] => Ok(How::Prepend),
        [b'R' | b'r'] => Ok(How::Replace),
        [b'S' | b's'] => Ok(How::Set),
        [_] => Err(refusal("CLIENT_ERROR invalid mode for ms M token")),
        _ => Err(refusal("CLIENT_ERROR incorrect length for M token")),
    }
}

fn subtracts(token: &[u8]) -> Result<bool, Refusal> {
    match token {
        [b'I' | b'i' | b'+'] => Ok(false),
        [b'D' | b'd' | b'-'] => Ok(true),
        [_] => Err(refusal("CLIENT_ERROR invalid mode for ma M token")),
        _ => Err(refusal(INVALID_OR_DUPLICATE)),
    }
}
