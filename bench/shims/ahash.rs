//! Stands in for `ahash`: a quick hasher of eight bytes at a time.

use std::hash::{BuildHasher, Hasher};

#[derive(Clone, Debug, Default)]
pub struct RandomState;

impl BuildHasher for RandomState {
    type Hasher = Folded;

    fn build_hasher(&self) -> Folded {
        Folded(0x243f_6a88_85a3_08d3)
    }
}

pub struct Folded(u64);

impl Folded {
    /// The two halves of the product, folded together.
    fn fold(&mut self, word: u64) {
        let product = u128::from(self.0 ^ word) * 0x9e37_79b9_7f4a_7c15_u128;
        self.0 = product as u64 ^ (product >> 64) as u64;
    }
}

impl Hasher for Folded {
    fn write(&mut self, bytes: &[u8]) {
        for eight in bytes.chunks(8) {
            let mut word = [0; 8];
            word[..eight.len()].copy_from_slice(eight);
            self.fold(u64::from_le_bytes(word));
        }
    }

    fn finish(&self) -> u64 {
        self.0
    }
}
