//! Slices of any length with any contents: no call panics, and the shared helpers find every buffer as it must be.

mod common;

use common::*;

/// The right length mostly, else one nearby, zero, or any other.
fn about(right: usize, noise: &mut Noise) -> usize {
    match noise.below(20) {
        0 => 0,
        1 => right - 1,
        2 => right + 1,
        3 => noise.below(1000),
        _ => right,
    }
}

/// A key of about the right length: random, a good one, or a good one with changed bytes.
fn any_key(good: &[u8], noise: &mut Noise) -> Vec<u8> {
    let mut key = good.to_vec();
    match noise.below(4) {
        0 => {
            let length = key.len();
            key[1..].copy_from_slice(&noise.bytes(length - 1));
        }
        1 => key[0] = noise.number() as u8,
        2 => {
            for _ in 0..1 + noise.below(4) {
                let place = noise.below(key.len());
                key[place] = noise.number() as u8;
            }
        }
        _ => {}
    }
    key.resize(about(good.len(), noise), 0x55);
    key
}

#[test]
fn any_slices_are_answered() {
    let mut noise = Noise(300);
    let [public, private] = keys(set6(), &mut noise);
    let (_, cipher) = seal(&public, &noise.bytes(384), &noise.bytes(30));
    let mut seen = [0; 12];
    for _ in 0..4000 {
        let work = about(7200, &mut noise);
        let byte = if noise.below(10) == 0 {
            noise.number() as u8
        } else {
            0x16
        };
        let length = about(402, &mut noise);
        let lengths = [about(626, &mut noise), about(859, &mut noise)];
        let setup_answer = setup_with(byte, &noise.bytes(length), lengths, work).0;

        let key = any_key(&public, &mut noise);
        let length = about(24 * (1 + noise.below(16)), &mut noise);
        let random = noise.bytes(length);
        let secret = vec![1; noise.below(33)];
        let length = about(30, &mut noise);
        let cipher_length = about(57, &mut noise);
        let seal_answer = seal_with(&key, &random, &vec![2; length], cipher_length, work).0;
        let wrap_answer = wrap_with(&key, &random, &secret, cipher_length, work).0;

        let key = any_key(&private, &mut noise);
        let mut word = cipher.clone();
        if noise.below(2) == 0 {
            let place = noise.below(57);
            word[place] ^= noise.number() as u8;
        }
        word.resize(about(57, &mut noise), 0);
        let open_answer = open_with(&key, &word, about(30, &mut noise), work).0;
        let unwrap_answer = unwrap_with(&key, &word, noise.below(33), work).0;

        for answer in [setup_answer, seal_answer, wrap_answer, open_answer, unwrap_answer] {
            seen[usize::from(answer % 256)] += 1;
        }
    }
    // Numbers 3 to 5, 8 and 9 need more than chance.
    for number in [0, 1, 2, 7, 10, 11] {
        assert!(seen[number] > 0, "number {number} in {seen:?}");
    }
}

#[test]
fn any_small_slices_are_answered() {
    let mut noise = Noise(301);
    for _ in 0..4000 {
        let [a, b] = [noise.below(20), noise.below(20)];
        let bytes = noise.bytes(a);
        let numbers: Vec<u16> = (0..a).map(|_| noise.below(a + 1) as u16).collect();
        let answers = [
            peer::unpack(&bytes, &mut vec![0; b]),
            peer::pack(&numbers, &mut vec![0; b]),
            peer::shuffle(&bytes, &mut vec![0; b]),
            peer::invert(&numbers, &mut vec![0; b]),
            peer::mask(&bytes, &mut vec![0; b]),
            peer::sha512(&bytes, &mut vec![0; b]),
        ];
        assert!(answers.iter().all(|answer| [0, 2].contains(answer)));
    }
}
