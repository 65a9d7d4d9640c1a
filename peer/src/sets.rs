//! The table of sets and the lengths that follow from it (specification,
//! Tables 1 and 2).

use crate::bits::bytes_for;
use crate::field::BITS;
use crate::refusal::Refusal;

/// The numbers of a set. Both sets have m = 10, the [`BITS`] of the field.
#[derive(Debug, PartialEq, Eq)]
pub struct Set {
    /// The first byte of the set's keys: RLCEpad with mediumEncoding, and the set's number (specification, 6.1.2).
    pub byte: u8,
    /// The set's number in the specification's Table 2.
    pub number: u8,
    /// Length of the code.
    pub n: usize,
    /// Dimension of the code.
    pub k: usize,
    /// Errors that the code corrects; 2t = n - k.
    pub t: usize,
    /// Random columns, each mixed with a column of the code.
    pub w: usize,
    /// Bytes of a message.
    pub k1: usize,
    /// Check bytes of the padding.
    pub k2: usize,
    /// Bytes of the pad seed.
    pub k3: usize,
    /// The most mixed places that setup allows among the first k.
    pub u0: usize,
}

/// The sets that the library knows.
pub static SETS: [Set; 2] = [
    Set {
        byte: 0x16,
        number: 6,
        n: 40,
        k: 20,
        t: 10,
        w: 5,
        k1: 30,
        k2: 4,
        k3: 4,
        u0: 7,
    },
    Set {
        byte: 0x11,
        number: 1,
        n: 532,
        k: 376,
        t: 78,
        w: 96,
        k1: 504,
        k2: 32,
        k3: 32,
        u0: 123,
    },
];

/// Windows of bytes that setup tries for P2.
pub const WINDOWS: usize = 5;

/// The most blocks of random bytes that sealing takes.
pub const MOST_BLOCKS: usize = 16;

impl Set {
    /// The set of a set byte.
    pub fn of_byte(byte: u8) -> Option<&'static Set> {
        SETS.iter().find(|set| set.byte == byte)
    }

    /// The set that a key's first byte names. The first two refusals of every call with a key, in their order:
    /// an empty key before an unknown byte.
    pub fn of_key(key: &[u8]) -> Result<&'static Set, Refusal> {
        let first = key.first().ok_or(Refusal::Length)?;
        Set::of_byte(*first).ok_or(Refusal::UnknownSet)
    }

    /// N = n + w, the length of a scrambled word.
    pub const fn scrambled(&self) -> usize {
        self.n + self.w
    }

    /// n - w: places of the word before P2 that are below this are unmixed.
    pub const fn unmixed(&self) -> usize {
        self.n - self.w
    }

    /// Columns of GE.
    pub const fn ge_columns(&self) -> usize {
        self.scrambled() - self.k
    }

    /// Elements of GE.
    pub const fn ge_elements(&self) -> usize {
        self.k * self.ge_columns()
    }

    /// Bytes of a public key (specification, 6.1.2).
    pub const fn public_bytes(&self) -> usize {
        1 + bytes_for(self.ge_elements())
    }

    /// Bytes of a private key in the form of decoding method 2 (specification, 6.1.2).
    pub const fn private_bytes(&self) -> usize {
        1 + 2 * self.n + 2 * self.scrambled() + bytes_for(2 * self.w + self.n + self.ge_elements())
    }

    /// Bytes of a ciphertext.
    pub const fn cipher_bytes(&self) -> usize {
        bytes_for(self.scrambled())
    }

    /// Bytes of a padded string: k1 + k2 + k3.
    pub const fn padded_bytes(&self) -> usize {
        self.k1 + self.k2 + self.k3
    }

    /// ν, the last bits of the pad seed, forced to zero, and of the padded string, lost (specification, 7.13).
    pub const fn lost_bits(&self) -> usize {
        8 * self.padded_bytes() - BITS * (self.k + self.t)
    }

    /// nRE, the number of random elements of setup (specification, 6.1.3 step 11).
    pub const fn setup_elements(&self) -> usize {
        self.n + (4 + self.k) * self.w + 25
    }

    /// nRB, the number of random bytes of setup (specification, 6.1.3 step 12).
    pub const fn setup_random_bytes(&self) -> usize {
        bytes_for(self.setup_elements()) + 4 * self.n + 2 * self.w
    }

    /// Bytes of a random block of sealing.
    pub const fn block_bytes(&self) -> usize {
        self.k3 + 2 * self.t
    }

    /// Whether a string of this length is 1 to 16 random blocks of sealing.
    pub const fn is_sealing_random(&self, bytes: usize) -> bool {
        let blocks = bytes / self.block_bytes();
        bytes.is_multiple_of(self.block_bytes()) && 1 <= blocks && blocks <= MOST_BLOCKS
    }

    /// 16-bit numbers of the work area.
    pub const fn work_numbers(&self) -> usize {
        4 * self.n * self.scrambled()
    }
}

#[cfg(test)]
mod tests {
    use super::*;

    #[test]
    fn lengths_of_the_specification() {
        let lengths = |set: &Set| {
            [
                set.public_bytes(),
                set.private_bytes(),
                set.cipher_bytes(),
                set.setup_random_bytes(),
                set.block_bytes(),
                set.work_numbers(),
                set.lost_bits(),
            ]
        };
        assert_eq!(lengths(&SETS[0]), [626, 859, 57, 402, 24, 7200, 4]);
        assert_eq!(lengths(&SETS[1]), [118441, 121666, 785, 48617, 188, 1336384, 4]);
    }

    #[test]
    fn facts_that_the_scheme_uses() {
        for set in &SETS {
            assert_eq!(set.n, set.k + 2 * set.t);
            assert!(set.k <= set.unmixed());
            assert_eq!(bytes_for(set.k + set.t), set.padded_bytes());
            assert_eq!(usize::from(set.byte), 0x10 + usize::from(set.number));
        }
    }

    #[test]
    fn a_key_names_its_set() {
        assert_eq!(Set::of_key(&[]), Err(Refusal::Length));
        assert_eq!(Set::of_key(&[0x26]), Err(Refusal::UnknownSet));
        assert_eq!(Set::of_key(&[0x16]), Ok(&SETS[0]));
        assert_eq!(Set::of_key(&[0x11, 7]), Ok(&SETS[1]));
        assert_eq!((0..=255).filter_map(Set::of_byte).count(), 2);
    }
}
