//! Maps by numbers, whose hash takes less time than the standard library's.

use crate::numbers::{low_u64, to_u64};
use std::collections::hash_map::{HashMap, RandomState};
use std::hash::{BuildHasher, BuildHasherDefault, Hasher};

/// 2^64 divided by the golden ratio.
const FACTOR: u64 = 0x9e37_79b9_7f4a_7c15;

/// By numbers that this process counts. Hosts can't choose them.
pub type Counted<V> = HashMap<u64, V, BuildHasherDefault<Product>>;
/// By numbers that hosts choose. Since it has a secret, they can't choose many with the same hash.
pub type Chosen<V> = HashMap<u64, V, Secret>;

/// Both halves of the product of a constant with what was written.
#[derive(Default)]
pub struct Product(u64);

impl Hasher for Product {
    fn write(&mut self, bytes: &[u8]) {
        bytes.iter().for_each(|byte| self.write_u64((*byte).into()));
    }

    fn write_u16(&mut self, number: u16) {
        self.write_u64(number.into());
    }

    fn write_u32(&mut self, number: u32) {
        self.write_u64(number.into());
    }

    fn write_usize(&mut self, number: usize) {
        self.write_u64(to_u64(number));
    }

    #[inline]
    fn write_u64(&mut self, number: u64) {
        let product = u128::from(self.0.rotate_left(32) ^ number) * u128::from(FACTOR);
        self.0 = low_u64(product) ^ low_u64(product >> 64);
    }

    #[inline]
    fn finish(&self) -> u64 {
        self.0
    }
}

/// A random number that hashes begin with.
pub struct Secret(u64);

impl Default for Secret {
    fn default() -> Self {
        Secret(RandomState::new().build_hasher().finish())
    }
}

impl BuildHasher for Secret {
    type Hasher = Product;

    #[inline]
    fn build_hasher(&self) -> Product {
        Product(self.0)
    }
}

#[cfg(test)]
mod tests {
    use super::*;
    use std::collections::HashSet;

    #[test]
    fn few_numbers_at_equal_distances_have_one_hash() {
        for secret in [Secret(0), Secret(u64::MAX), Secret::default()] {
            for shift in 0..48 {
                // A map takes the lowest bits for the place of a number.
                let mut counts = [0; 1024];
                for number in 0..1024_u64 {
                    let mut hasher = secret.build_hasher();
                    hasher.write_u64(number << shift);
                    counts[(hasher.finish() % 1024) as usize] += 1;
                }
                assert!(counts.iter().all(|it| *it < 64), "shifted by {shift}, secret {}", secret.0);
            }
        }
    }

    #[test]
    fn secrets_differ() {
        let secrets: HashSet<u64> = [0; 8].iter().map(|_| Secret::default().0).collect();
        assert_eq!(secrets.len(), 8);
    }
}
