//! Bytes, bits, elements and 16-bit numbers (specification, 7.2, 7.3 and 7.10).
//!
//! Bits run from each byte's highest bit down; an element's first bit is its coefficient of x^9. Everything here goes
//! bit by bit, as the rule is written.

use crate::field::BITS;

/// How many elements a string of bytes gives: floor(8L / 10).
pub const fn elements_in(bytes: usize) -> usize {
    8 * bytes / BITS
}

/// How many bytes elements take: ceil(10F / 8).
pub const fn bytes_for(elements: usize) -> usize {
    (BITS * elements).div_ceil(8)
}

/// The bits of a byte string, first to last.
fn bits(bytes: &[u8]) -> impl Iterator<Item = bool> + '_ {
    bytes
        .iter()
        .flat_map(|byte| (0..8).rev().map(move |place| byte >> place & 1 == 1))
}

/// Bytes to elements (specification, 7.10, B2FE): as many as there are, remaining bits dropped.
pub fn unpack(bytes: &[u8]) -> Vec<u16> {
    let mut bits = bits(bytes);
    let mut element = || (&mut bits).take(BITS).fold(0, |sum, bit| sum << 1 | u16::from(bit));
    (0..elements_in(bytes.len())).map(|_| element()).collect()
}

/// Elements to bytes (specification, 7.10, FE2B); spare bits are zero.
pub fn pack(elements: &[u16]) -> Vec<u8> {
    let mut bytes = vec![0; bytes_for(elements.len())];
    let mut place = 0;
    for element in elements {
        for i in (0..BITS).rev() {
            if element >> i & 1 == 1 {
                bytes[place / 8] |= 0x80 >> (place % 8);
            }
            place += 1;
        }
    }
    bytes
}

/// Whether the bits that [`unpack`] drops after the last element are all zero.
pub fn spare_bits_are_zero(bytes: &[u8]) -> bool {
    let used = BITS * elements_in(bytes.len());
    bits(bytes).skip(used).all(|bit| !bit)
}

/// Bytes to 16-bit numbers, high byte first (specification, 7.2); an odd last byte is dropped.
pub fn to_numbers(bytes: &[u8]) -> Vec<u16> {
    bytes
        .chunks_exact(2)
        .map(|pair| u16::from_be_bytes([pair[0], pair[1]]))
        .collect()
}

/// 16-bit numbers to bytes, high byte first (specification, 7.3).
pub fn from_numbers(numbers: &[u16]) -> Vec<u8> {
    numbers.iter().flat_map(|number| number.to_be_bytes()).collect()
}

#[cfg(test)]
mod tests {
    use super::*;

    #[test]
    fn unpacking_drops_the_tail() {
        assert_eq!(unpack(&[]), []);
        assert_eq!(unpack(&[0xFF]), []);
        assert_eq!(unpack(&[0xFF, 0xC0, 0x01]), [1023, 0]);
        assert_eq!(unpack(&[0x00, 0x40, 0x20]), [1, 2]);
    }

    #[test]
    fn packing_leaves_spare_bits_zero() {
        assert_eq!(pack(&[]), []);
        assert_eq!(pack(&[1023, 0]), [0xFF, 0xC0, 0x00]);
        assert_eq!(pack(&[1, 2]), [0x00, 0x40, 0x20]);
        assert_eq!(pack(&[1023]), [0xFF, 0xC0]);
        assert_eq!(pack(&[1023; 4]), [0xFF; 5]);
    }

    #[test]
    fn unpacking_undoes_packing() {
        for count in 0..50 {
            let elements: Vec<u16> = (0..count).map(|i| (i * 377 + 5) % 1024).collect();
            let bytes = pack(&elements);
            assert_eq!(bytes.len(), bytes_for(elements.len()));
            assert!(spare_bits_are_zero(&bytes));
            assert_eq!(unpack(&bytes)[..elements.len()], elements);
        }
    }

    #[test]
    fn each_spare_bit_is_seen() {
        // 57 bytes hold 45 elements and 6 spare bits: the ciphertext of set 6.
        for bit in 0..8 {
            let mut bytes = [0u8; 57];
            bytes[56] = 1 << bit;
            assert_eq!(spare_bits_are_zero(&bytes), bit >= 6);
        }
        assert!(spare_bits_are_zero(&[0xFF; 5]));
        assert!(spare_bits_are_zero(&[]));
        assert!(!spare_bits_are_zero(&[0x80]));
    }

    #[test]
    fn numbers_are_high_byte_first() {
        assert_eq!(to_numbers(&[0x01, 0x02, 0xFF, 0x00]), [0x0102, 0xFF00]);
        assert_eq!(from_numbers(&[0x0102, 0xFF00]), [0x01, 0x02, 0xFF, 0x00]);
    }
}
