//! Keys in base64, as memcached reads and writes them.

const LETTERS: &[u8; 64] = b"ABCDEFGHIJKLMNOPQRSTUVWXYZabcdefghijklmnopqrstuvwxyz0123456789+/";
const PAD: u8 = b'=';

/// Four letters encode three bytes.
const GROUP: usize = 4;
const PART: usize = 3;

/// Writes bytes as text.
pub fn write(out: &mut Vec<u8>, bytes: &[u8]) {
    for part in bytes.chunks(PART) {
        let mut bits = [0; GROUP];
        bits[1..=part.len()].copy_from_slice(part);
        let letters = [18, 12, 6, 0].map(|shift| LETTERS[(u32::from_be_bytes(bits) >> shift) as usize % LETTERS.len()]);
        out.extend_from_slice(&letters[..=part.len()]);
        out.resize(out.len() + PART - part.len(), PAD);
    }
}

/// Decodes a text, up to the first group that has a pad. `None`: it is not base64.
pub fn read(text: &[u8]) -> Option<Vec<u8>> {
    if text.len() % GROUP != 0 {
        return None;
    }
    let mut bytes = Vec::with_capacity(text.len());
    for group in text.chunks_exact(GROUP) {
        let pads = group.iter().filter(|letter| **letter == PAD).count();
        let bits = group.iter().try_fold(0, |bits: u32, letter| Some(bits << 6 | value(*letter)?))?;
        bytes.extend_from_slice(bits.to_be_bytes().get(1..GROUP - pads).filter(|part| !part.is_empty())?);
        if pads > 0 {
            break;
        }
    }
    Some(bytes)
}

/// The six bits of a letter. Like memcached, this takes a pad anywhere in a group.
fn value(letter: u8) -> Option<u32> {
    LETTERS.iter().position(|known| *known == letter).or((letter == PAD).then_some(0)).map(|value| value as u32)
}
