//! SipHash-1-3, by Jean-Philippe Aumasson and Daniel J. Bernstein (2012), with a secret: that of 128 bits, and for a single word that of 64.
//!
//! std has only that of 64 bits, and doesn't inline it. It is designed so that nobody who does not know the secret can choose keys whose
//! hashes meet.

/// 128 secret bits.
#[derive(Clone, Copy)]
pub(crate) struct Secret(pub u64, pub u64);

impl Secret {
    /// SipHash-1-3 of 64 bits of this word.
    #[inline(always)]
    pub fn hash(self, word: u64) -> u64 {
        let mut state = Sip::beginning(self, 0);
        state.take_word(word);
        state.take_word((BYTES_OF_A_WORD as u64) << 56);
        state.v2 ^= 0xff;
        state.ended()
    }
}

const BYTES_OF_A_WORD: usize = size_of::<u64>();

/// What was hashed so far: the four words, as the paper names them, and the bytes that fill no word yet.
#[derive(Clone)]
pub(crate) struct Sip {
    v0: u64,
    v1: u64,
    v2: u64,
    v3: u64,
    rest: u64,
    size: usize,
}

impl Sip {
    /// That of 128 bits.
    #[inline]
    pub fn new(secret: Secret) -> Sip {
        Sip::beginning(secret, 0xee)
    }

    // `kind` tells hashes of 128 bits from those of 64.
    #[inline]
    fn beginning(secret: Secret, kind: u64) -> Sip {
        Sip {
            v0: secret.0 ^ 0x736f_6d65_7073_6575,
            v1: secret.1 ^ 0x646f_7261_6e64_6f6d ^ kind,
            v2: secret.0 ^ 0x6c79_6765_6e65_7261,
            v3: secret.1 ^ 0x7465_6462_7974_6573,
            rest: 0,
            size: 0,
        }
    }

    /// The two words of the hash.
    #[inline(always)]
    pub fn pair(mut self) -> (u64, u64) {
        self.take_word(self.rest | (self.size as u64) << 56);
        self.v2 ^= 0xee;
        let first = self.ended();
        self.v1 ^= 0xdd;
        (first, self.ended())
    }

    #[inline]
    fn ended(&mut self) -> u64 {
        (0..3).for_each(|_| self.round());
        self.v0 ^ self.v1 ^ self.v2 ^ self.v3
    }

    #[inline]
    fn take_word(&mut self, word: u64) {
        self.v3 ^= word;
        self.round();
        self.v0 ^= word;
    }

    /// Takes these bytes.
    #[inline]
    pub fn write(&mut self, bytes: &[u8]) {
        let mut words = bytes.chunks_exact(BYTES_OF_A_WORD);
        for word in &mut words {
            self.take(little(word), BYTES_OF_A_WORD);
        }
        let rest = words.remainder();
        if !rest.is_empty() {
            self.take(little(rest), rest.len());
        }
    }

    /// Takes 1 to 8 bytes, the lowest first. Those of `bytes` above them are 0.
    #[inline]
    pub fn take(&mut self, bytes: u64, count: usize) {
        let filled = self.size % BYTES_OF_A_WORD;
        self.size = self.size.wrapping_add(count);
        self.rest |= bytes << (8 * filled);
        if filled + count >= BYTES_OF_A_WORD {
            self.take_word(self.rest);
            self.rest = if filled == 0 { 0 } else { bytes >> (8 * (BYTES_OF_A_WORD - filled)) };
        }
    }

    #[inline]
    fn round(&mut self) {
        self.v0 = self.v0.wrapping_add(self.v1);
        self.v2 = self.v2.wrapping_add(self.v3);
        self.v1 = self.v1.rotate_left(13) ^ self.v0;
        self.v3 = self.v3.rotate_left(16) ^ self.v2;
        self.v0 = self.v0.rotate_left(32).wrapping_add(self.v3);
        self.v2 = self.v2.wrapping_add(self.v1);
        self.v3 = self.v3.rotate_left(21) ^ self.v0;
        self.v1 = self.v1.rotate_left(17) ^ self.v2;
        self.v2 = self.v2.rotate_left(32);
    }
}

// Up to 8 bytes as a number.
#[inline]
fn little(bytes: &[u8]) -> u64 {
    match bytes.try_into() {
        Ok(word) => u64::from_le_bytes(word),
        Err(_) => bytes.iter().rev().fold(0, |bits, byte| bits << 8 | u64::from(*byte)),
    }
}
