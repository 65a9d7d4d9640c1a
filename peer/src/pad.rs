//! RLCEpad with mediumEncoding (specification, 7.13): a two-round Feistel network over the mask generator.
//!
//! The *places string* is the t error places, rising, two bytes each. It goes into the hashes, not into the padded
//! string.

use crate::bits::from_numbers;
use crate::mask;
use crate::sets::Set;

/// Pads a message (specification, 7.13, RLCEpad).
///
/// # Panics
/// If message and seed do not have k1 and k3 bytes.
pub fn pad(set: &Set, message: &[u8], seed: &[u8], places: &[u16]) -> Vec<u8> {
    pad_with_check(set, message, seed, places, |check| check)
}

/// As [`pad`], with the check bytes changed: what unpadding must notice. With `|check| check` it is [`pad`].
///
/// # Panics
/// If message and seed do not have k1 and k3 bytes, or if the number of check bytes changes.
pub fn pad_with_check(
    set: &Set,
    message: &[u8],
    seed: &[u8],
    places: &[u16],
    change: impl FnOnce(Vec<u8>) -> Vec<u8>,
) -> Vec<u8> {
    assert_eq!(message.len(), set.k1);
    assert_eq!(seed.len(), set.k3);
    let seed = force_bits(set, seed);
    let seed_and_places = [&seed[..], &from_numbers(places)].concat();
    let check = change(check_bytes(set, message, &seed_and_places));
    assert_eq!(check.len(), set.k2);
    let front = xor(
        &[message, &check].concat(),
        &mask::generate(&seed_and_places, set.k1 + set.k2),
    );
    let back = xor(&seed, &mask::generate(&front, set.k3));
    [front, back].concat()
}

/// Undoes [`pad`] (specification, 7.13, RLCEpadDecode); `None` if the check bytes differ.
///
/// The lost bits of the padded string read as zeros here, so the seed's last bits come out wrong; they are forced to
/// zero again before the seed is used.
///
/// # Panics
/// If the padded string does not have k1 + k2 + k3 bytes.
pub fn unpad(set: &Set, padded: &[u8], places: &[u16]) -> Option<Vec<u8>> {
    assert_eq!(padded.len(), set.padded_bytes());
    let (front, back) = padded.split_at(set.k1 + set.k2);
    let seed = force_bits(set, &xor(back, &mask::generate(front, set.k3)));
    let seed_and_places = [&seed[..], &from_numbers(places)].concat();
    let message_and_check = xor(front, &mask::generate(&seed_and_places, front.len()));
    let (message, check) = message_and_check.split_at(set.k1);
    (check == check_bytes(set, message, &seed_and_places)).then(|| message.to_vec())
}

/// Sets the seed's last ν bits to zero (specification, 7.13 step 4).
fn force_bits(set: &Set, seed: &[u8]) -> Vec<u8> {
    let mut forced = seed.to_vec();
    if let Some(last) = forced.last_mut() {
        *last &= 0xFF << set.lost_bits();
    }
    forced
}

/// The k2 check bytes: the mask of message, seed and places (specification, 7.13 step 6).
fn check_bytes(set: &Set, message: &[u8], seed_and_places: &[u8]) -> Vec<u8> {
    mask::generate(&[message, seed_and_places].concat(), set.k2)
}

fn xor(a: &[u8], b: &[u8]) -> Vec<u8> {
    debug_assert_eq!(a.len(), b.len());
    a.iter().zip(b).map(|(a, b)| a ^ b).collect()
}

#[cfg(test)]
mod tests {
    use super::*;
    use crate::sets::SETS;

    fn example(set: &Set) -> (Vec<u8>, Vec<u8>, Vec<u16>) {
        let message = (0..set.k1).map(|i| (7 * i + 1) as u8).collect();
        let seed = (0..set.k3).map(|i| (31 * i + 0x5A) as u8).collect();
        let places = (0..set.t).map(|i| 2 * i as u16 + 1).collect();
        (message, seed, places)
    }

    #[test]
    fn unpadding_undoes_padding_without_the_lost_bits() {
        for set in &SETS {
            let (message, seed, places) = example(set);
            let mut padded = pad(set, &message, &seed, &places);
            assert_eq!(padded.len(), set.padded_bytes());
            for lost in 0..16 {
                *padded.last_mut().unwrap() &= 0xF0;
                *padded.last_mut().unwrap() |= lost;
                assert_eq!(unpad(set, &padded, &places).as_ref(), Some(&message));
            }
        }
    }

    #[test]
    fn forced_bits_are_cleared_before_hashing() {
        let set = &SETS[0];
        let (message, mut seed, places) = example(set);
        seed[3] = 0xA0;
        let cleared = pad(set, &message, &seed, &places);
        seed[3] = 0xAF;
        assert_eq!(pad(set, &message, &seed, &places), cleared);
    }

    #[test]
    fn padding_by_hand() {
        let set = &SETS[0];
        let (message, mut seed, places) = example(set);
        let padded = pad(set, &message, &seed, &places);
        seed[3] &= 0xF0;
        let places_string: Vec<u8> = places.iter().flat_map(|&place| [0, place as u8]).collect();
        let re0 = [seed.clone(), places_string].concat();
        let h1 = mask::generate(&[message.clone(), re0.clone()].concat(), 4);
        let front = xor(&[message, h1].concat(), &mask::generate(&re0, 34));
        assert_eq!(padded[..34], front);
        assert_eq!(padded[34..], xor(&seed, &mask::generate(&front, 4)));
    }

    #[test]
    fn every_check_bit_is_compared() {
        let set = &SETS[0];
        let (message, seed, places) = example(set);
        for bit in 0..32 {
            let padded = pad_with_check(set, &message, &seed, &places, |mut check| {
                check[bit / 8] ^= 1 << (bit % 8);
                check
            });
            assert_eq!(unpad(set, &padded, &places), None);
        }
    }

    #[test]
    fn every_other_change_is_noticed() {
        let set = &SETS[0];
        let (message, seed, places) = example(set);
        let padded = pad(set, &message, &seed, &places);
        for bit in 0..300 {
            let mut changed = padded.clone();
            changed[bit / 8] ^= 0x80 >> (bit % 8);
            assert_eq!(unpad(set, &changed, &places), None);
        }
        let mut other_places = places;
        other_places[9] = 40;
        assert_eq!(unpad(set, &padded, &other_places), None);
    }
}
