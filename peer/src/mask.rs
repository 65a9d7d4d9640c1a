//! The mask generator (specification, 7.4): SHA-512 of the seed and a counter, as often as needed.

use crate::sha512;

/// The longest seed and the longest mask of the public call.
pub const LONGEST: usize = 1 << 16;

/// The first `length` bytes of hash(seed ‖ 0) ‖ hash(seed ‖ 1) ‖ ..., the counters as four bytes, high byte first.
pub fn generate(seed: &[u8], length: usize) -> Vec<u8> {
    let hashes = (0u32..).flat_map(|counter| sha512::digest(&[seed, &counter.to_be_bytes()].concat()));
    hashes.take(length).collect()
}

#[cfg(test)]
mod tests {
    use super::*;
    use crate::sha512::DIGEST;

    #[test]
    fn a_mask_is_hash_after_hash() {
        let first = sha512::digest(b"seed\0\0\0\0");
        let second = sha512::digest(b"seed\0\0\0\x01");
        let both = [first, second].concat();
        for length in [0, 1, 63, 64, 65, 127, 128] {
            assert_eq!(generate(b"seed", length), both[..length]);
        }
    }

    #[test]
    fn the_counter_reaches_its_second_byte() {
        let mask = generate(b"", 257 * DIGEST);
        assert_eq!(mask[256 * DIGEST..], sha512::digest(&[0, 0, 1, 0]));
    }
}
