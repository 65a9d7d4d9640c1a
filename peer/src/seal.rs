//! Sealing (specification, 6.2).

use crate::bits::{pack, to_numbers, unpack};
use crate::keys::{encode, PublicKey};
use crate::pad::pad;
use crate::perm::Permutation;
use crate::sets::Set;

/// What sealing makes.
#[derive(Clone, Debug, PartialEq, Eq)]
pub struct Sealed {
    /// The ciphertext.
    pub cipher: Vec<u8>,
    /// The number of the random block used, from 0.
    pub block: usize,
}

/// Seals a message with the first random block that yields no zero error value; `None` if there is no such block.
///
/// # Panics
/// If the message does not have k1 bytes.
pub fn seal(key: &PublicKey, random: &[u8], message: &[u8]) -> Option<Sealed> {
    random
        .chunks_exact(key.set.block_bytes())
        .enumerate()
        .find_map(|(block, bytes)| {
            let (seed, places) = part_block(key.set, bytes);
            let cipher = seal_triple(key, message, seed, &places)?;
            Some(Sealed { cipher, block })
        })
}

/// Parts a random block into the pad seed and the t error places, rising (specification, 6.2 step 13 d to g).
///
/// # Panics
/// If the block does not have k3 + 2t bytes.
pub fn part_block<'a>(set: &Set, block: &'a [u8]) -> (&'a [u8], Vec<u16>) {
    let (seed, numbers) = block.split_at(set.k3);
    let shuffled = Permutation::shuffle(set.scrambled(), &to_numbers(numbers));
    let mut places = shuffled.list()[..set.t].to_vec();
    places.sort_unstable();
    (seed, places)
}

/// The ciphertext of a triple of message, pad seed and error places (specification, 6.2 step 13 i to step 16); `None` if one of
/// its error values is zero. The seed's forced bits need not be zero.
///
/// # Panics
/// If message and seed do not have k1 and k3 bytes, or the places are not t, rising strictly, below N.
pub fn seal_triple(key: &PublicKey, message: &[u8], seed: &[u8], places: &[u16]) -> Option<Vec<u8>> {
    let set = key.set;
    assert_eq!(places.len(), set.t);
    assert!(places.is_sorted_by(|a, b| a < b));
    assert!(places.iter().all(|&place| usize::from(place) < set.scrambled()));
    let elements = unpack(&pad(set, message, seed, places));
    let (vector, error_values) = elements.split_at(set.k);
    if error_values.contains(&0) {
        return None;
    }
    let mut word = encode(&key.ge, vector);
    for (&place, value) in places.iter().zip(error_values) {
        word[usize::from(place)] ^= value;
    }
    Some(pack(&word))
}
