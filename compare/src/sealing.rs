//! Cases of seal and wrap: own and foreign keys, blocks with zero error values, secrets of every length.

use crate::call::{Call, Verb};
use crate::keys::Pair;
use crate::lengths::Lengths;
use peer::inputs::{zero_block, Noise};
use peer::sets::MOST_BLOCKS;
use peer::Set;

/// A public key, and what is special about it. Any bytes after the set byte are a public key.
fn public_key(pair: &Pair, noise: &mut Noise) -> (Vec<u8>, &'static str) {
    let mut key = pair.public.clone();
    let length = key.len();
    match noise.below(12) {
        0 => {
            key[1..].fill(0);
            (key, "a key of zeros")
        }
        1 => {
            key[1..].copy_from_slice(&noise.bytes(length - 1));
            (key, "a random key")
        }
        2 => {
            key[1..].fill(0xFF);
            (key, "a key of ones")
        }
        3 => {
            let place = 1 + noise.below(length - 1);
            key[place] ^= 1 << noise.below(8);
            (key, "a key with a flipped bit")
        }
        _ => (key, "an own key"),
    }
}

/// Random blocks, and what is special about them: some that yield zero error values for the message, then others.
fn blocks(set: &Set, message: &[u8], noise: &mut Noise) -> (Vec<u8>, String) {
    // 17 blocks, or none, are a wrong length
    let count = match noise.below(20) {
        0 => noise.one_of(&[0, MOST_BLOCKS + 1]),
        _ => 1 + noise.below(MOST_BLOCKS),
    };
    let zeros = match noise.below(6) {
        0 => count,
        1 | 2 => noise.below(count + 1),
        _ => 0,
    };
    let mut random: Vec<u8> = if zeros > 0 && noise.once_in(3) {
        zero_block(set, message, noise).repeat(zeros)
    } else {
        (0..zeros).flat_map(|_| zero_block(set, message, noise)).collect()
    };
    random.extend(noise.bytes((count - zeros) * set.block_bytes()));
    (
        random,
        format!("{zeros} of {count} blocks chosen with a zero error value"),
    )
}

/// A length of a secret: any from 0 to k1 + 1, the edges more often.
pub fn secret_length(set: &Set, noise: &mut Noise) -> usize {
    match noise.below(8) {
        0 => noise.one_of(&[0, 1, set.k1, set.k1 + 1]),
        1 => set.k1,
        _ => noise.below(set.k1 + 2),
    }
}

/// Bytes of a message or a secret.
fn text(length: usize, noise: &mut Noise) -> Vec<u8> {
    match noise.below(8) {
        0 => vec![0; length],
        1 => vec![0xFF; length],
        _ => noise.bytes(length),
    }
}

/// A case with right lengths, but perhaps for the secret's and the random bytes'.
pub fn case(verb: Verb, pair: &Pair, noise: &mut Noise) -> Call {
    let set = pair.set;
    let length = if verb == Verb::Wrap {
        secret_length(set, noise)
    } else {
        set.k1
    };
    let text = text(length, noise);
    let mut message = text.clone();
    message.resize(set.k1, 0);
    let (key, key_kind) = public_key(pair, noise);
    let (random, blocks_kind) = blocks(set, &message, noise);
    Call {
        verb,
        kind: format!("{key_kind}, {length} bytes, {blocks_kind}"),
        set: 0,
        read: vec![key, random, text],
        list: vec![],
        written: vec![noise.bytes(set.cipher_bytes())],
        numbers: noise.numbers(set.work_numbers()),
    }
}
