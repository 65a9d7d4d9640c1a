//! SHA-512 (FIPS 180-4, 6.4), in one go over a byte string.
//!
//! No constant is typed in: FIPS 180-4 defines them as fractional parts of roots of primes, and so they are computed,
//! at first use, with exact integers.

use std::sync::OnceLock;

/// Bytes of a digest.
pub const DIGEST: usize = 64;

/// Bytes of a message block.
const BLOCK: usize = 128;

/// Rounds for each block.
const ROUNDS: usize = 80;

/// The digest of a byte string.
pub fn digest(message: &[u8]) -> [u8; DIGEST] {
    let constants = Constants::get();
    let mut state = constants.start;
    let blocks = message.chunks_exact(BLOCK);
    let tail = padded_tail(blocks.remainder(), message.len());
    for block in blocks.chain(tail.chunks_exact(BLOCK)) {
        compress(&mut state, block, &constants.rounds);
    }
    let mut digest = [0; DIGEST];
    for (bytes, word) in digest.chunks_exact_mut(8).zip(state) {
        bytes.copy_from_slice(&word.to_be_bytes());
    }
    digest
}

/// The last one or two blocks: what is left of the message, a one bit, zeros, and the message's length in bits as a
/// 128-bit number (FIPS 180-4, 5.1.2).
fn padded_tail(rest: &[u8], message_bytes: usize) -> Vec<u8> {
    let mut tail = rest.to_vec();
    tail.push(0x80);
    while tail.len() % BLOCK != BLOCK - 16 {
        tail.push(0);
    }
    tail.extend((8 * message_bytes as u128).to_be_bytes());
    tail
}

/// One block (FIPS 180-4, 6.4.2).
fn compress(state: &mut [u64; 8], block: &[u8], constants: &[u64; ROUNDS]) {
    let schedule = schedule(block);
    let [mut a, mut b, mut c, mut d, mut e, mut f, mut g, mut h] = *state;
    for (&constant, word) in constants.iter().zip(schedule) {
        let big_sigma_1 = e.rotate_right(14) ^ e.rotate_right(18) ^ e.rotate_right(41);
        let choice = (e & f) ^ (!e & g);
        let t1 = h
            .wrapping_add(big_sigma_1)
            .wrapping_add(choice)
            .wrapping_add(constant)
            .wrapping_add(word);
        let big_sigma_0 = a.rotate_right(28) ^ a.rotate_right(34) ^ a.rotate_right(39);
        let majority = (a & b) ^ (a & c) ^ (b & c);
        let t2 = big_sigma_0.wrapping_add(majority);
        (h, g, f, e) = (g, f, e, d.wrapping_add(t1));
        (d, c, b, a) = (c, b, a, t1.wrapping_add(t2));
    }
    for (word, change) in state.iter_mut().zip([a, b, c, d, e, f, g, h]) {
        *word = word.wrapping_add(change);
    }
}

/// The message schedule W of a block (FIPS 180-4, 6.4.2 step 1).
fn schedule(block: &[u8]) -> [u64; ROUNDS] {
    let mut words = [0u64; ROUNDS];
    for (word, bytes) in words.iter_mut().zip(block.chunks_exact(8)) {
        *word = bytes.iter().fold(0, |sum, &byte| sum << 8 | u64::from(byte));
    }
    for t in 16..ROUNDS {
        let (x, y) = (words[t - 15], words[t - 2]);
        let small_sigma_0 = x.rotate_right(1) ^ x.rotate_right(8) ^ (x >> 7);
        let small_sigma_1 = y.rotate_right(19) ^ y.rotate_right(61) ^ (y >> 6);
        words[t] = small_sigma_1
            .wrapping_add(words[t - 7])
            .wrapping_add(small_sigma_0)
            .wrapping_add(words[t - 16]);
    }
    words
}

/// The constants of FIPS 180-4.
struct Constants {
    /// H(0), 5.3.5: from the square roots of the first 8 primes.
    start: [u64; 8],
    /// K, 4.2.3: from the cube roots of the first 80 primes.
    rounds: [u64; ROUNDS],
}

impl Constants {
    fn get() -> &'static Constants {
        static CONSTANTS: OnceLock<Constants> = OnceLock::new();
        CONSTANTS.get_or_init(|| {
            let primes = primes();
            Constants {
                start: std::array::from_fn(|i| root_fraction(primes[i], 2)),
                rounds: std::array::from_fn(|i| root_fraction(primes[i], 3)),
            }
        })
    }
}

/// The first 80 primes.
fn primes() -> Vec<u128> {
    let is_prime = |&p: &u128| (2..p).all(|divisor| p % divisor != 0);
    (2..).filter(is_prime).take(ROUNDS).collect()
}

/// The first 64 bits of the fractional part of a root of p of the given degree, for p below 512.
///
/// That is, the lowest 64 bits of the largest r with r^degree at most p · 2^(64 · degree). The bits of r are found one
/// by one from the top: both roots are below 32, so r is below 2^69.
fn root_fraction(p: u128, degree: usize) -> u64 {
    let bound = Natural::from(p).shifted(2 * degree);
    let mut root = 0u128;
    for bit in (0..69).rev() {
        let candidate = root | 1 << bit;
        if Natural::from(candidate).power(degree).at_most(&bound) {
            root = candidate;
        }
    }
    root as u64
}

/// A natural number of any size: 32-bit digits, lowest first, the last one not zero.
#[derive(Debug, PartialEq, Eq)]
struct Natural(Vec<u32>);

impl From<u128> for Natural {
    fn from(number: u128) -> Self {
        let digits = (0..4).map(|i| (number >> (32 * i)) as u32);
        Natural::trimmed(digits.collect())
    }
}

impl Natural {
    /// The number with these digits, of which the last may be zero.
    fn trimmed(mut digits: Vec<u32>) -> Self {
        while digits.last() == Some(&0) {
            digits.pop();
        }
        Natural(digits)
    }

    /// The number with zero digits put in below.
    fn shifted(&self, by_digits: usize) -> Self {
        Natural::trimmed([&vec![0; by_digits], &self.0[..]].concat())
    }

    /// The product, as by hand.
    fn times(&self, other: &Self) -> Self {
        let mut digits = vec![0u32; self.0.len() + other.0.len()];
        for (i, &a) in self.0.iter().enumerate() {
            let mut carry = 0;
            for (j, &b) in other.0.iter().enumerate() {
                let sum = u64::from(a) * u64::from(b) + u64::from(digits[i + j]) + carry;
                digits[i + j] = sum as u32;
                carry = sum >> 32;
            }
            digits[i + other.0.len()] = carry as u32;
        }
        Natural::trimmed(digits)
    }

    fn power(&self, exponent: usize) -> Self {
        (0..exponent).fold(Natural::from(1), |power, _| power.times(self))
    }

    /// More digits, or as many and a larger one where they first differ from the top, make the larger number.
    fn at_most(&self, other: &Self) -> bool {
        let by_length = self.0.len().cmp(&other.0.len());
        by_length
            .then_with(|| self.0.iter().rev().cmp(other.0.iter().rev()))
            .is_le()
    }
}

#[cfg(test)]
mod tests {
    use super::*;

    #[test]
    fn naturals_multiply_and_compare() {
        let a = Natural::from(u128::MAX);
        // (2^128 - 1)^2 = 2^256 - 2^129 + 1
        assert_eq!(a.power(2).0, [1, 0, 0, 0, u32::MAX - 1, u32::MAX, u32::MAX, u32::MAX]);
        assert!(Natural::from(5).at_most(&Natural::from(5)));
        assert!(Natural::from(1 << 32).at_most(&Natural::from(1 << 33)));
        assert!(!Natural::from(1 << 64).at_most(&Natural::from((1 << 64) - 1)));
        assert_eq!(Natural::from(3).shifted(2), Natural::from(3 << 64));
        assert_eq!(Natural::from(0).shifted(2), Natural::from(0));
        assert_eq!(Natural::from(0).times(&a), Natural::from(0));
    }

    #[test]
    fn the_last_prime_is_409() {
        assert_eq!(primes()[..8], [2, 3, 5, 7, 11, 13, 17, 19]);
        assert_eq!(primes()[79], 409);
    }

    #[test]
    fn first_and_last_constants_are_those_of_fips_180_4() {
        let constants = Constants::get();
        assert_eq!(constants.start[0], 0x6a09e667f3bcc908);
        assert_eq!(constants.start[7], 0x5be0cd19137e2179);
        assert_eq!(constants.rounds[0], 0x428a2f98d728ae22);
        assert_eq!(constants.rounds[79], 0x6c44198c4a475817);
    }
}
