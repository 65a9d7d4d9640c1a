//! Keys and their byte strings (specification, 6.1.2).

use crate::bits::{from_numbers, pack, spare_bits_are_zero, to_numbers, unpack};
use crate::matrix::Matrix;
use crate::perm::Permutation;
use crate::refusal::Refusal;
use crate::sets::Set;

/// A public key: the right part of the generator matrix [I, GE].
#[derive(Clone, Debug, PartialEq, Eq)]
pub struct PublicKey {
    /// The key's set.
    pub set: &'static Set,
    /// GE, k by N - k.
    pub ge: Matrix,
}

impl PublicKey {
    /// Reads a public key. Every element string is one: in these sets a public key has no spare bits.
    ///
    /// # Panics
    /// If the string does not have the set's length.
    pub fn from_bytes(set: &'static Set, bytes: &[u8]) -> Self {
        assert_eq!(bytes.len(), set.public_bytes());
        PublicKey {
            set,
            ge: Matrix::from_elements(set.ge_columns(), &unpack(&bytes[1..])),
        }
    }

    /// Set byte, then GE by rows.
    pub fn to_bytes(&self) -> Vec<u8> {
        let mut bytes = vec![self.set.byte];
        bytes.extend(pack(&self.ge.elements()));
        bytes
    }
}

/// A private key in the form of decoding method 2.
#[derive(Clone, Debug, PartialEq, Eq)]
pub struct PrivateKey {
    /// The key's set.
    pub set: &'static Set,
    /// The inverse of P1.
    pub inverse_p1: Permutation,
    /// The inverse of P2.
    pub inverse_p2: Permutation,
    /// The first column of each inverse block, upper element first.
    pub columns: Vec<[u16; 2]>,
    /// The inverses of the multipliers.
    pub inverses: Vec<u16>,
    /// GE, as in the public key.
    pub ge: Matrix,
}

impl PrivateKey {
    /// Reads a private key. Malformed are: a list that is no permutation, a zero among the n inverses, spare bits set.
    ///
    /// # Panics
    /// If the string does not have the set's length.
    pub fn from_bytes(set: &'static Set, bytes: &[u8]) -> Result<Self, Refusal> {
        assert_eq!(bytes.len(), set.private_bytes());
        let (first_list, rest) = bytes[1..].split_at(2 * set.n);
        let (second_list, packed) = rest.split_at(2 * set.scrambled());
        let permutation = |list| Permutation::from_list(to_numbers(list)).ok_or(Refusal::Malformed);
        let elements = unpack(packed);
        let (columns, rest) = elements.split_at(2 * set.w);
        let (inverses, ge) = rest.split_at(set.n);
        if inverses.contains(&0) || !spare_bits_are_zero(packed) {
            return Err(Refusal::Malformed);
        }
        Ok(PrivateKey {
            set,
            inverse_p1: permutation(first_list)?,
            inverse_p2: permutation(second_list)?,
            columns: columns.chunks_exact(2).map(|column| [column[0], column[1]]).collect(),
            inverses: inverses.to_vec(),
            ge: Matrix::from_elements(set.ge_columns(), ge),
        })
    }

    /// Set byte, both lists as 16-bit numbers, then the columns, the inverses and GE packed together.
    pub fn to_bytes(&self) -> Vec<u8> {
        let elements = [self.columns.concat(), self.inverses.clone(), self.ge.elements()].concat();
        let mut bytes = vec![self.set.byte];
        bytes.extend(from_numbers(self.inverse_p1.list()));
        bytes.extend(from_numbers(self.inverse_p2.list()));
        bytes.extend(pack(&elements));
        bytes
    }
}

/// x · [I, GE]: the vector itself, then its product with GE.
pub fn encode(ge: &Matrix, vector: &[u16]) -> Vec<u16> {
    [vector, &ge.times_from_left(vector)].concat()
}
