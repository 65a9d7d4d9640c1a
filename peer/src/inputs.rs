//! Inputs of a certain kind, for tests, comparisons and stored vectors: bytes that look random, and random bytes, blocks
//! and keys that lead a call to a certain end. No call uses this module.

use crate::bits::{bytes_for, pack, unpack};
use crate::pad::pad;
use crate::perm::Permutation;
use crate::seal::part_block;
use crate::sets::{Set, WINDOWS};
use crate::setup::Draw;

/// Numbers that look random (SplitMix64), the same in every run.
pub struct Noise(pub u64);

impl Noise {
    /// The next number.
    pub fn number(&mut self) -> u64 {
        self.0 = self.0.wrapping_add(0x9E37_79B9_7F4A_7C15);
        let mut mixed = self.0;
        mixed = (mixed ^ mixed >> 30).wrapping_mul(0xBF58_476D_1CE4_E5B9);
        mixed = (mixed ^ mixed >> 27).wrapping_mul(0x94D0_49BB_1331_11EB);
        mixed ^ mixed >> 31
    }

    /// A number below a bound.
    ///
    /// # Panics
    /// If the bound is 0.
    pub fn below(&mut self, bound: usize) -> usize {
        (self.number() % bound as u64) as usize
    }

    /// Bytes.
    pub fn bytes(&mut self, length: usize) -> Vec<u8> {
        (0..length).map(|_| self.number() as u8).collect()
    }

    /// 16-bit numbers.
    pub fn numbers(&mut self, count: usize) -> Vec<u16> {
        (0..count).map(|_| self.number() as u16).collect()
    }

    /// A field element.
    pub fn element(&mut self) -> u16 {
        self.below(1024) as u16
    }

    /// A field element that is not zero.
    pub fn unit(&mut self) -> u16 {
        1 + self.below(1023) as u16
    }

    /// Field elements.
    pub fn elements(&mut self, count: usize) -> Vec<u16> {
        (0..count).map(|_| self.element()).collect()
    }

    /// Some of the places below a bound, rising.
    pub fn places(&mut self, count: usize, bound: usize) -> Vec<u16> {
        let numbers = self.numbers(count);
        let mut places = Permutation::shuffle(bound, &numbers).list()[..count].to_vec();
        places.sort_unstable();
        places
    }
}

/// Changes the elements of setup's random bytes.
///
/// # Panics
/// If there are fewer bytes than the elements take.
pub fn edit_elements(set: &Set, random: &mut [u8], edit: impl FnOnce(&mut [u16])) {
    let packed = &mut random[..bytes_for(set.setup_elements())];
    let mut elements = unpack(packed);
    edit(&mut elements);
    packed.copy_from_slice(&pack(&elements));
}

/// Where the packed elements of a private key begin.
pub fn packed_part(set: &Set) -> usize {
    1 + 2 * set.n + 2 * set.scrambled()
}

/// Changes the elements of a private key: 2w of block columns, n inverses, then GE. Spare bits become zero.
///
/// # Panics
/// If the key does not have the set's length.
pub fn edit_private(set: &Set, key: &mut [u8], edit: impl FnOnce(&mut [u16])) {
    let packed = &mut key[packed_part(set)..];
    let mut elements = unpack(packed);
    edit(&mut elements);
    packed.copy_from_slice(&pack(&elements));
}

/// Random bytes of setup whose first fitting window is p; none of the five fits if p is 5.
///
/// Chance alone rarely makes several windows fail, so this climbs: it changes one byte after the other and keeps
/// changes that do not lower the counts u of the windows before p.
pub fn window_fits_first(set: &'static Set, p: usize, noise: &mut Noise) -> Vec<u8> {
    let counts = |random: &[u8]| Draw::new(set, random).window_counts();
    let height = |counts: &[usize; WINDOWS]| counts[..p].iter().map(|&u| u.min(set.u0 + 1)).sum::<usize>();
    let mut random = noise.bytes(set.setup_random_bytes());
    let mut before = counts(&random);
    while before.iter().position(|&u| u <= set.u0).unwrap_or(WINDOWS) != p {
        let place = random.len() - 1 - noise.below(2 * set.scrambled() + 2);
        let old = std::mem::replace(&mut random[place], noise.number() as u8);
        let after = counts(&random);
        if height(&after) < height(&before) {
            random[place] = old;
        } else {
            before = after;
        }
    }
    random
}

/// The k + t elements of a triple: the message vector, then the error values, of which some may be zero.
///
/// # Panics
/// If message and seed do not have k1 and k3 bytes.
pub fn triple_elements(set: &Set, message: &[u8], seed: &[u8], places: &[u16]) -> Vec<u16> {
    unpack(&pad(set, message, seed, places))
}

/// Whether a random block of sealing yields a zero error value for this message.
///
/// # Panics
/// If message and block do not have the set's lengths.
pub fn is_zero_block(set: &Set, message: &[u8], block: &[u8]) -> bool {
    let (seed, places) = part_block(set, block);
    triple_elements(set, message, seed, &places)[set.k..].contains(&0)
}

/// A random block of sealing that yields a zero error value for this message.
///
/// # Panics
/// If the message does not have k1 bytes.
pub fn zero_block(set: &Set, message: &[u8], noise: &mut Noise) -> Vec<u8> {
    loop {
        let block = noise.bytes(set.block_bytes());
        if is_zero_block(set, message, &block) {
            return block;
        }
    }
}
