//! Numbers nobody can guess, for tags, first TSNs and keys; and numbers that a seed repeats, for tests and the relay.

use crate::signature::{sign, Key, SIGNATURE};
use std::io;

/// A stream of signatures of a counter, under a key that the system gave.
pub struct Random {
    key: Key,
    counter: u64,
}

impl Random {
    /// Waits, on a machine that has just started, until its generator is ready.
    pub fn from_system() -> io::Result<Random> {
        let mut key = [0; SIGNATURE];
        getrandom::getrandom(&mut key)?;
        Ok(Random::from_key(key))
    }

    /// The stream of this key, which tests repeat.
    pub fn from_key(key: Key) -> Random {
        Random { key, counter: 0 }
    }

    /// The next 32 bytes.
    pub fn key(&mut self) -> Key {
        self.counter += 1;
        sign(&self.key, &self.counter.to_be_bytes())
    }

    /// The next eight bytes.
    pub fn bytes(&mut self) -> [u8; 8] {
        let code = self.key();
        [code[0], code[1], code[2], code[3], code[4], code[5], code[6], code[7]]
    }

    /// The next 32 bits.
    pub fn word(&mut self) -> u32 {
        (u64::from_be_bytes(self.bytes()) >> 32) as u32
    }

    /// A verification tag: not 0.
    pub fn tag(&mut self) -> u32 {
        loop {
            let tag = self.word();
            if tag != 0 {
                return tag;
            }
        }
    }
}

/// SplitMix64: fast, and the same numbers for the same seed.
#[derive(Clone, Debug)]
pub struct Seeded(u64);

impl Seeded {
    /// The numbers of this seed.
    pub fn new(seed: u64) -> Seeded {
        Seeded(seed)
    }

    /// The next number.
    pub fn number(&mut self) -> u64 {
        self.0 = self.0.wrapping_add(0x9e37_79b9_7f4a_7c15);
        let mut mixed = self.0;
        mixed = (mixed ^ (mixed >> 30)).wrapping_mul(0xbf58_476d_1ce4_e5b9);
        mixed = (mixed ^ (mixed >> 27)).wrapping_mul(0x94d0_49bb_1331_11eb);
        mixed ^ (mixed >> 31)
    }

    /// A number from 0 up to but not including the bound, which is not 0.
    pub fn below(&mut self, bound: u64) -> u64 {
        self.number() % bound
    }

    /// Whether an event of this probability happens now.
    pub fn happens(&mut self, probability: f64) -> bool {
        let unit = (self.number() >> 11) as f64 / (1u64 << 53) as f64;
        unit < probability
    }
}

#[cfg(test)]
mod tests {
    use super::*;

    #[test]
    fn a_key_gives_one_stream_and_another_key_another() {
        let mut a = Random::from_key([1; SIGNATURE]);
        let mut same = Random::from_key([1; SIGNATURE]);
        let mut other = Random::from_key([2; SIGNATURE]);
        let first = a.word();
        assert_eq!(first, same.word());
        assert_ne!(first, other.word());
        assert_ne!(first, a.word());
    }

    #[test]
    fn the_system_gives_different_keys() {
        let mut a = Random::from_system().unwrap();
        let mut b = Random::from_system().unwrap();
        assert_ne!(a.key(), b.key());
    }

    #[test]
    fn splitmix_gives_its_published_numbers() {
        let mut seeded = Seeded::new(1234567);
        assert_eq!(seeded.number(), 6457827717110365317);
        assert_eq!(seeded.number(), 3203168211198807973);
    }

    #[test]
    fn a_probability_is_met() {
        let mut seeded = Seeded::new(7);
        let happened = (0..100_000).filter(|_| seeded.happens(0.1)).count();
        assert!((9_500..10_500).contains(&happened), "{}", happened);
        assert!(!seeded.happens(0.0));
        assert!(seeded.happens(1.0));
    }
}
