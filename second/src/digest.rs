//! Digest: FNV-1a, 64 bits, over every lent table and the totals.

use crate::caller::Lent;

const BASIS: u64 = 0xcbf2_9ce4_8422_2325;
const PRIME: u64 = 0x0000_0100_0000_01b3;

/// A running FNV-1a hash.
#[derive(Clone, Copy, Debug)]
pub struct Digest(u64);

impl Default for Digest {
    fn default() -> Digest {
        Digest(BASIS)
    }
}

impl Digest {
    pub fn bytes(&mut self, bytes: &[u8]) {
        for &byte in bytes {
            self.0 = (self.0 ^ u64::from(byte)).wrapping_mul(PRIME);
        }
    }

    pub fn value(self) -> u64 {
        self.0
    }

    /// A table: its length in 8 bytes, then each word in 4, the least significant byte first.
    fn table(&mut self, words: &[u32]) {
        self.bytes(&(words.len() as u64).to_le_bytes());
        for word in words {
            self.bytes(&word.to_le_bytes());
        }
    }
}

/// The digest of store, spare, waiting, answers and the two totals, in this order.
pub fn of(lent: &Lent) -> u64 {
    let mut digest = Digest::default();
    for words in [&lent.store, &lent.spare, &lent.waiting, &lent.answers] {
        digest.table(words);
    }
    digest.bytes(&lent.totals.links.to_le_bytes());
    digest.bytes(&lent.totals.reversals.to_le_bytes());
    digest.value()
}
