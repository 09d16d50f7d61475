//! Hashing, with the hasher that Rust's `std` has: SipHash with one round for each word and three at the end, under a key of
//! zeros. `core` has none that is stable.
pub use core::hash::*;

/// The hasher.
#[derive(Clone, Debug)]
pub struct DefaultHasher {
    state: [u64; 4],
    // The bytes that make no word yet, lowest first, and how many bytes came in all.
    rest: u64,
    count: usize,
}

impl DefaultHasher {
    /// A hasher that was given nothing.
    pub fn new() -> DefaultHasher {
        let state = [0x736f_6d65_7073_6575, 0x646f_7261_6e64_6f6d, 0x6c79_6765_6e65_7261, 0x7465_6462_7974_6573];
        DefaultHasher { state, rest: 0, count: 0 }
    }

    fn take_word(&mut self, word: u64) {
        self.state[3] ^= word;
        turn(&mut self.state);
        self.state[0] ^= word;
    }

    fn take_byte(&mut self, byte: u8) {
        self.rest |= u64::from(byte) << (8 * (self.count % 8));
        self.count = self.count.wrapping_add(1);
        if self.count.is_multiple_of(8) {
            let word = self.rest;
            self.rest = 0;
            self.take_word(word);
        }
    }

    // The bytes up to the next end of a word are taken, and the others are left.
    fn take_to_word<'a>(&mut self, bytes: &'a [u8]) -> &'a [u8] {
        let missing = (8 - self.count % 8) % 8;
        let (front, others) = bytes.split_at(missing.min(bytes.len()));
        for byte in front {
            self.take_byte(*byte);
        }
        others
    }
}

impl Default for DefaultHasher {
    fn default() -> DefaultHasher {
        DefaultHasher::new()
    }
}

// One round.
fn turn(state: &mut [u64; 4]) {
    let [a, b, c, d] = state;
    *a = a.wrapping_add(*b);
    *b = b.rotate_left(13) ^ *a;
    *a = a.rotate_left(32);
    *c = c.wrapping_add(*d);
    *d = d.rotate_left(16) ^ *c;
    *a = a.wrapping_add(*d);
    *d = d.rotate_left(21) ^ *a;
    *c = c.wrapping_add(*b);
    *b = b.rotate_left(17) ^ *c;
    *c = c.rotate_left(32);
}

impl Hasher for DefaultHasher {
    fn write(&mut self, bytes: &[u8]) {
        let (words, rest) = self.take_to_word(bytes).as_chunks();
        for word in words {
            self.take_word(u64::from_le_bytes(*word));
        }
        self.count = self.count.wrapping_add(8 * words.len());
        for byte in rest {
            self.take_byte(*byte);
        }
    }

    fn finish(&self) -> u64 {
        let mut hasher = self.clone();
        hasher.take_word(self.rest | (self.count as u64) << 56);
        hasher.state[2] ^= 0xff;
        for _ in 0..3 {
            turn(&mut hasher.state);
        }
        hasher.state.iter().fold(0, |sum, word| sum ^ word)
    }
}

#[cfg(test)]
mod tests {
    use super::{DefaultHasher, Hasher};
    use rust_std::collections::hash_map::DefaultHasher as Rusts;

    // Rust's own, over every way to cut bytes in two.
    #[test]
    fn hashes_as_rusts_own() {
        let bytes: [u8; 40] = core::array::from_fn(|place| (place * 37 + 5) as u8);
        for count in 0..=bytes.len() {
            for cut in 0..=count {
                let (mut hasher, mut rusts) = (DefaultHasher::new(), Rusts::new());
                for part in [&bytes[..cut], &bytes[cut..count]] {
                    hasher.write(part);
                    rusts.write(part);
                }
                assert_eq!(hasher.finish(), rusts.finish(), "of {count} bytes, cut at {cut}");
            }
        }
    }
}
