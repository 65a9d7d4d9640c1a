//! Opening (specification, 6.3 by decoding algorithm 1, and 7.12).

use crate::bits::{pack, spare_bits_are_zero, unpack};
use crate::field::{inv, mul};
use crate::keys::{encode, PrivateKey};
use crate::matrix::Matrix;
use crate::pad::unpad;
use crate::perm::Permutation;
use crate::reed_solomon::decode;
use crate::refusal::Refusal;

/// A private key made ready for opening: what opening computes from the key alone.
#[derive(Clone, Debug)]
pub struct Opener {
    key: PrivateKey,
    p1: Permutation,
    p2: Permutation,
    multipliers: Vec<u16>,
    /// J: places below k whose P2 value is below n - w. Decoding gives their elements.
    unmixed: Vec<usize>,
    /// I: the other places below k. Their elements come from the system of W.
    mixed: Vec<usize>,
    /// T: the first places from k up whose P2 value is below n - w, as many as I has.
    helping: Vec<usize>,
    /// The inverse of W, the rows I of GE at the columns T - k.
    inverse_of_w: Matrix,
}

/// What a ciphertext holds: the two halves of the padded string, and the places.
#[derive(Clone, Debug, PartialEq, Eq)]
pub struct Found {
    /// The message vector, k elements.
    pub vector: Vec<u16>,
    /// The t error places, rising.
    pub places: Vec<u16>,
    /// The error values, none zero, in the order of the places.
    pub error_values: Vec<u16>,
}

/// Opens a ciphertext with a private key; the refusals are 8, then 10.
///
/// # Panics
/// If the ciphertext does not have the set's length.
pub fn open(key: PrivateKey, cipher: &[u8]) -> Result<Vec<u8>, Refusal> {
    let opener = Opener::new(key).ok_or(Refusal::Singular)?;
    opener.open(cipher).ok_or(Refusal::NotOpened)
}

impl Opener {
    /// Makes a key ready; `None` if its matrix W is singular.
    pub fn new(key: PrivateKey) -> Option<Self> {
        let set = key.set;
        let p1 = key.inverse_p1.inverse();
        let p2 = key.inverse_p2.inverse();
        let is_unmixed = |&place: &usize| p2.image(place) < set.unmixed();
        let (unmixed, mixed): (Vec<usize>, Vec<usize>) = (0..set.k).partition(is_unmixed);
        let helping: Vec<usize> = (set.k..set.scrambled()).filter(is_unmixed).take(mixed.len()).collect();
        let w = Matrix::from_fn(mixed.len(), helping.len(), |i, j| {
            key.ge.entry(mixed[i], helping[j] - set.k)
        });
        Some(Opener {
            inverse_of_w: w.inverse()?,
            multipliers: key.inverses.iter().map(|&inverse| inv(inverse)).collect(),
            key,
            p1,
            p2,
            unmixed,
            mixed,
            helping,
        })
    }

    /// Opens a ciphertext; `None` for every reason why it cannot be opened.
    ///
    /// # Panics
    /// If the ciphertext does not have the set's length.
    pub fn open(&self, cipher: &[u8]) -> Option<Vec<u8>> {
        let found = self.find(cipher)?;
        let padded = pack(&[found.vector, found.error_values].concat());
        unpad(self.key.set, &padded, &found.places)
    }

    /// Finds message vector, error places and error values of a ciphertext (specification, 6.3 steps 5 to 22); `None` if its
    /// spare bits are not zero, if no code word is near, or if it does not differ from the word of the vector found in
    /// exactly t places.
    ///
    /// # Panics
    /// If the ciphertext does not have the set's length.
    pub fn find(&self, cipher: &[u8]) -> Option<Found> {
        let set = self.key.set;
        assert_eq!(cipher.len(), set.cipher_bytes());
        if !spare_bits_are_zero(cipher) {
            return None;
        }
        let word = unpack(cipher);
        let code_word = decode(&self.undo(&word), set.t)?;
        let vector = self.vector(&self.redo(&code_word));
        let recomputed = encode(&self.key.ge, &vector);
        let differences = word.iter().zip(recomputed).map(|(a, b)| a ^ b);
        let (places, error_values): (Vec<u16>, Vec<u16>) = (0..)
            .zip(differences)
            .filter(|&(_, difference)| difference != 0)
            .unzip();
        (places.len() == set.t).then_some(Found {
            vector,
            places,
            error_values,
        })
    }

    /// From a scrambled word to a word near the Reed-Solomon code (specification, 6.3 steps 6 to 10): undo P2, multiply pairs by
    /// the stored column and keep one element of each, undo P1, multiply by the stored inverses.
    pub fn undo(&self, word: &[u16]) -> Vec<u16> {
        let unpermuted = self.key.inverse_p2.apply(word);
        let (unmixed, pairs) = unpermuted.split_at(self.key.set.unmixed());
        let kept = pairs
            .chunks_exact(2)
            .zip(&self.key.columns)
            .map(|(pair, [upper, lower])| mul(pair[0], *upper) ^ mul(pair[1], *lower));
        let before_pairs: Vec<u16> = unmixed.iter().copied().chain(kept).collect();
        products(&self.key.inverse_p1.apply(&before_pairs), &self.key.inverses)
    }

    /// From a code word back to the order before P2 (specification, 6.3 steps 14 and 15): multiply by v, then permute by P1.
    fn redo(&self, code_word: &[u16]) -> Vec<u16> {
        self.p1.apply(&products(code_word, &self.multipliers))
    }

    /// The message vector (specification, 6.3 steps 16 and 18): the J part is read off, the I part solves the system of W.
    ///
    /// With zeros for the I part, GE gives at T the share of the J part; what is missing there is the share of the
    /// I part, x_I · W.
    fn vector(&self, unscrambled: &[u16]) -> Vec<u16> {
        let k = self.key.set.k;
        let mut vector = vec![0; k];
        for &place in &self.unmixed {
            vector[place] = unscrambled[self.p2.image(place)];
        }
        let share = self.key.ge.times_from_left(&vector);
        let missing: Vec<u16> = self
            .helping
            .iter()
            .map(|&place| unscrambled[self.p2.image(place)] ^ share[place - k])
            .collect();
        let solved = self.inverse_of_w.times_from_left(&missing);
        for (&place, element) in self.mixed.iter().zip(solved) {
            vector[place] = element;
        }
        vector
    }
}

fn products(a: &[u16], b: &[u16]) -> Vec<u16> {
    a.iter().zip(b).map(|(&a, &b)| mul(a, b)).collect()
}
