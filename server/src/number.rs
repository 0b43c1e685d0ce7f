//! Numbers in command lines, read as memcached reads them: `strtol` and its kin, up to the first blank. And numbers in answers.

/// Whether it is white space in C, which has one byte more than Rust.
fn is_blank(byte: &u8) -> bool {
    byte.is_ascii_whitespace() || *byte == b'\x0b'
}

/// A sign and a magnitude. White space may come before it, and anything behind the first white space after it.
fn signed(text: &[u8]) -> Option<(bool, u64)> {
    let text = &text[text.iter().position(|byte| !is_blank(byte))?..];
    let (negative, digits) = match text.split_first()? {
        (b'-', rest) => (true, rest),
        (b'+', rest) => (false, rest),
        _ => (false, text),
    };
    let end = digits.iter().position(is_blank).unwrap_or(digits.len());
    let mut magnitude = 0u64;
    for byte in digits.get(..end).filter(|digits| !digits.is_empty())? {
        let digit = byte.is_ascii_digit().then(|| u64::from(byte - b'0'))?;
        magnitude = magnitude.checked_mul(10)?.checked_add(digit)?;
    }
    Some((negative, magnitude))
}

/// The number that these digits are, if they are nothing else and can't be too large.
fn short(digits: &[u8]) -> Option<u64> {
    if digits.is_empty() || digits.len() >= DIGITS {
        return None;
    }
    let next = |number, byte: &u8| byte.is_ascii_digit().then(|| 10 * number + u64::from(byte - b'0'));
    digits.iter().try_fold(0, next)
}

/// A number without a sign: a delta, a token, a stored counter.
pub fn unsigned(text: &[u8]) -> Option<u64> {
    short(text).or_else(|| match signed(text)? {
        (true, 1..) => None,
        (_, magnitude) => Some(magnitude),
    })
}

pub fn flags(text: &[u8]) -> Option<u32> {
    u32::try_from(unsigned(text)?).ok()
}

/// A number with a sign: a time to live, or a delay.
pub fn integer(text: &[u8]) -> Option<i64> {
    let (negative, magnitude) = short(text).map(|number| (false, number)).or_else(|| signed(text))?;
    let magnitude = i64::try_from(magnitude).ok()?;
    Some(if negative { -magnitude } else { magnitude })
}

pub fn length(text: &[u8]) -> Option<usize> {
    unsigned(text).filter(|length| *length <= i32::MAX as u64 - 2).map(|length| length as usize)
}

const DIGITS: usize = u64::MAX.ilog10() as usize + 1;

pub fn write(out: &mut Vec<u8>, number: impl itoa::Integer) {
    out.extend_from_slice(itoa::Buffer::new().format(number).as_bytes());
}
