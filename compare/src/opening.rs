//! Cases of open and unwrap: ciphertexts near and far from a sealing, and keys own, foreign, malformed and singular.

use crate::call::{Call, Verb};
use crate::keys::Pair;
use crate::lengths::Lengths;
use crate::sealing::secret_length;
use peer::bits::{pack, unpack};
use peer::field::mul;
use peer::inputs::{edit_private, packed_part, triple_elements, Noise};
use peer::keys::encode;
use peer::pad::{pad, pad_with_check};
use peer::perm::Permutation;
use peer::Set;

/// What a ciphertext is made of.
struct Triple {
    message: Vec<u8>,
    seed: Vec<u8>,
    places: Vec<u16>,
}

/// A triple with places at random, or where opening has most to do: both halves of pairs, I and T.
fn triple(pair: &Pair, noise: &mut Noise) -> (Triple, &'static str) {
    let set = pair.set;
    let (mut wanted, kind): (Vec<u16>, _) = match noise.below(6) {
        0 => {
            let count = 1 + noise.below(set.w.min(set.t / 2));
            (
                (0..count).flat_map(|i| pair.places_of_pair(i)).collect(),
                "errors in both halves of pairs",
            )
        }
        1 => (
            pair.mixed().iter().map(|&i| i as u16).collect(),
            "errors at solved places",
        ),
        2 => (
            pair.helping().iter().map(|&i| i as u16).collect(),
            "errors at helping places",
        ),
        3 => ((0..set.t as u16).collect(), "errors at the first places"),
        _ => (vec![], "errors anywhere"),
    };
    wanted.truncate(set.t);
    let all = noise.numbers(set.scrambled());
    let others = Permutation::shuffle(set.scrambled(), &all);
    let fill: Vec<u16> = others
        .list()
        .iter()
        .copied()
        .filter(|place| !wanted.contains(place))
        .collect();
    wanted.extend(&fill[..set.t - wanted.len()]);
    wanted.sort_unstable();
    let message = if noise.once_in(8) {
        vec![0; set.k1]
    } else {
        noise.bytes(set.k1)
    };
    (
        Triple {
            message,
            seed: noise.bytes(set.k3),
            places: wanted,
        },
        kind,
    )
}

/// The word of k + t elements: the first k as the vector, the others added at the places.
fn word(pair: &Pair, elements: &[u16], places: &[u16]) -> Vec<u16> {
    let (vector, values) = elements.split_at(pair.set.k);
    let mut word = encode(&pair.public_key.ge, vector);
    for (&place, value) in places.iter().zip(values) {
        word[usize::from(place)] ^= value;
    }
    word
}

/// A word that opens, its triple, and its elements.
fn sealed(pair: &Pair, noise: &mut Noise) -> (Vec<u16>, Triple, Vec<u16>, &'static str) {
    loop {
        let (triple, kind) = triple(pair, noise);
        let elements = triple_elements(pair.set, &triple.message, &triple.seed, &triple.places);
        if !elements[pair.set.k..].contains(&0) {
            return (word(pair, &elements, &triple.places), triple, elements, kind);
        }
    }
}

/// A word made of a triple one of whose error values is zero: all is right about it but the number of places.
fn with_zero_value(pair: &Pair, noise: &mut Noise) -> Vec<u16> {
    loop {
        let (triple, _) = triple(pair, noise);
        let elements = triple_elements(pair.set, &triple.message, &triple.seed, &triple.places);
        if elements[pair.set.k..].contains(&0) {
            return word(pair, &elements, &triple.places);
        }
    }
}

/// A word with one place too few that all but the count would pass: the padding was made for t - 1 places, with or without a
/// zero in the last one's stead, and its last error value is zero.
fn with_a_place_too_few(pair: &Pair, noise: &mut Noise) -> Vec<u16> {
    let set = pair.set;
    let (mut triple, _) = triple(pair, noise);
    triple.places.pop();
    let mut hashed = triple.places.clone();
    if noise.once_in(2) {
        hashed.push(0);
    }
    loop {
        let elements = triple_elements(set, &triple.message, &noise.bytes(set.k3), &hashed);
        let (last, others) = elements.split_last().expect("k + t elements");
        if *last == 0 && !others[set.k..].contains(&0) {
            return word(pair, &elements, &triple.places);
        }
    }
}

/// A word that is right but for one bit of the check bytes.
fn with_a_wrong_check(pair: &Pair, noise: &mut Noise) -> Vec<u16> {
    let set = pair.set;
    let bit = noise.below(8 * set.k2);
    loop {
        let (triple, _) = triple(pair, noise);
        let padded = pad_with_check(set, &triple.message, &triple.seed, &triple.places, |mut check| {
            check[bit / 8] ^= 1 << (bit % 8);
            check
        });
        let elements = unpack(&padded);
        if !elements[set.k..].contains(&0) {
            return word(pair, &elements, &triple.places);
        }
    }
}

/// Changes so many places of a word.
fn change(word: &mut [u16], count: usize, noise: &mut Noise) {
    for place in noise.places(count, word.len()) {
        word[usize::from(place)] ^= noise.unit();
    }
}

/// A word, and what is special about it.
fn a_word(pair: &Pair, noise: &mut Noise) -> (Vec<u16>, String) {
    let set = pair.set;
    let changes = noise.below(2 * set.t + 3);
    match noise.below(15) {
        0..=3 => {
            let (word, _, _, kind) = sealed(pair, noise);
            (word, format!("a sealing with {kind}"))
        }
        4 | 5 => {
            let (mut word, _, _, _) = sealed(pair, noise);
            let changes = if noise.once_in(2) { 1 + noise.below(3) } else { changes };
            change(&mut word, changes, noise);
            (word, format!("a sealing with {changes} places changed"))
        }
        6 | 7 => {
            let mut word = encode(&pair.public_key.ge, &noise.elements(set.k));
            let changes = if noise.once_in(3) { set.t } else { changes };
            change(&mut word, changes, noise);
            (word, format!("a code word with {changes} places changed"))
        }
        8 => {
            let (mut word, triple, elements, _) = sealed(pair, noise);
            let most = noise.one_of(&[2, set.t]);
            let count = 1 + noise.below(most);
            for i in noise.places(count, set.t) {
                word[usize::from(triple.places[usize::from(i)])] ^= elements[set.k + usize::from(i)];
            }
            (word, format!("a sealing with {count} errors taken back"))
        }
        9 => {
            let (mut word, _, _, _) = sealed(pair, noise);
            let i = noise.below(set.w);
            let [upper, lower] = pair.private_key.columns[i];
            let [one, other] = pair.places_of_pair(i);
            let factor = noise.unit();
            word[usize::from(one)] ^= mul(factor, lower);
            word[usize::from(other)] ^= mul(factor, upper);
            (word, format!("a sealing with a change of pair {i} that undoing hides"))
        }
        10 => {
            let (triple, _) = triple(pair, noise);
            let mut padded = pad(set, &triple.message, &triple.seed, &triple.places);
            let bit = noise.below(10 * (set.k + set.t));
            padded[bit / 8] ^= 0x80 >> (bit % 8);
            (
                word(pair, &unpack(&padded), &triple.places),
                format!("a padding with bit {bit} flipped"),
            )
        }
        11 => (with_zero_value(pair, noise), "a triple with a zero error value".into()),
        12 => (
            with_a_place_too_few(pair, noise),
            "a padding for a place too few".into(),
        ),
        13 => (
            with_a_wrong_check(pair, noise),
            "a padding with a check bit flipped".into(),
        ),
        _ => {
            let value = noise.one_of(&[0, 0, 1, 1023]);
            let word = if noise.once_in(2) {
                vec![value; set.scrambled()]
            } else {
                noise.elements(set.scrambled())
            };
            (word, "a word by itself".into())
        }
    }
}

/// A ciphertext, and what is special about it.
fn ciphertext(pair: &Pair, noise: &mut Noise) -> (Vec<u8>, String) {
    let (word, mut kind) = a_word(pair, noise);
    let mut cipher = pack(&word);
    if noise.once_in(8) {
        let bits = 1 + noise.below(3);
        for _ in 0..bits {
            let place = noise.below(cipher.len());
            cipher[place] ^= 1 << noise.below(8);
        }
        kind = format!("{kind}, bits flipped {bits} times");
    }
    let spare = 8 * cipher.len() - 10 * pair.set.scrambled();
    if spare > 0 && noise.once_in(12) {
        let last = cipher.len() - 1;
        cipher[last] |= 1 << noise.below(spare);
        kind = format!("{kind}, a spare bit set");
    }
    (cipher, kind)
}

fn put(key: &mut [u8], place: usize, entry: u16) {
    key[place..place + 2].copy_from_slice(&entry.to_be_bytes());
}

/// Makes a private key malformed in one way.
fn malform(set: &'static Set, key: &mut [u8], noise: &mut Noise) -> &'static str {
    let lists = [(1, set.n), (1 + 2 * set.n, set.scrambled())];
    let (start, length) = noise.one_of(&lists);
    let (one, other) = (noise.below(length), noise.below(length - 1));
    let last = key.len() - 1;
    // a key of set 1 has no spare bits
    let spare = 8 * (key.len() - packed_part(set)) - 10 * (2 * set.w + set.n + set.ge_elements());
    match noise.below(if spare > 0 { 5 } else { 4 }) {
        0 => {
            let entry = noise.one_of(&[length as u16, length as u16 + 1, 0x0100 + one as u16, 0xFFFF]);
            put(key, start + 2 * one, entry.max(length as u16));
            "a list entry too large"
        }
        1 => {
            let other = if other < one { other } else { other + 1 };
            key.copy_within(start + 2 * one..start + 2 * one + 2, start + 2 * other);
            "a list entry twice"
        }
        2 | 3 => {
            let place = noise.one_of(&[0, set.n - 1, one % set.n]);
            edit_private(set, key, |elements| elements[2 * set.w + place] = 0);
            "an inverse zero"
        }
        _ => {
            key[last] |= 1 << noise.below(spare);
            "a spare bit of the key set"
        }
    }
}

/// Makes the matrix W of a private key singular in one way, if I is not empty.
fn make_singular(pair: &Pair, key: &mut [u8], noise: &mut Noise) -> &'static str {
    let set = pair.set;
    let (rows, columns) = (pair.mixed(), pair.helping());
    let at = |row: usize, column: usize| 2 * set.w + set.n + row * set.ge_columns() + column - set.k;
    if rows.is_empty() || noise.once_in(4) {
        edit_private(set, key, |elements| elements[2 * set.w + set.n..].fill(0));
        return "GE zero";
    }
    let (one, other) = (noise.below(rows.len()), noise.below(rows.len()));
    let factor = noise.unit();
    let by_rows = noise.once_in(2);
    edit_private(set, key, |elements| {
        for i in 0..rows.len() {
            // the entries of row or column `one` become multiples of those of `other`; zero if both are the same
            let (to, from) = if by_rows {
                (at(rows[one], columns[i]), at(rows[other], columns[i]))
            } else {
                (at(rows[i], columns[one]), at(rows[i], columns[other]))
            };
            elements[to] = if one == other { 0 } else { mul(factor, elements[from]) };
        }
    });
    "W singular"
}

/// Makes a well-formed key that is not the pair's.
fn make_odd(set: &'static Set, key: &mut [u8], noise: &mut Noise) -> &'static str {
    let scrambled = set.scrambled();
    let second = 1 + 2 * set.n;
    let write = |key: &mut [u8], start: usize, list: &[u16]| {
        list.iter()
            .enumerate()
            .for_each(|(i, &entry)| put(key, start + 2 * i, entry));
    };
    match noise.below(9) {
        0 => {
            let numbers = noise.numbers(set.n - 1);
            write(key, 1, Permutation::shuffle(set.n, &numbers).list());
            "another first list"
        }
        1 => {
            let numbers = noise.numbers(scrambled - 1);
            write(key, second, Permutation::shuffle(scrambled, &numbers).list());
            "another second list"
        }
        2 => {
            let reversed: Vec<u16> = (0..scrambled as u16).rev().collect();
            write(key, second, &reversed);
            "the second list reversed"
        }
        3 => {
            let identity = Permutation::identity(scrambled);
            write(key, second, identity.list());
            "the second list the identity"
        }
        4 => {
            let factor = noise.unit();
            edit_private(set, key, |elements| {
                elements[2 * set.w..][..set.n]
                    .iter_mut()
                    .for_each(|inverse| *inverse = mul(*inverse, factor))
            });
            "all inverses times a factor"
        }
        5 => {
            let place = noise.below(set.n);
            edit_private(set, key, |elements| elements[2 * set.w + place] = noise.unit());
            "another inverse"
        }
        6 => {
            let count = 1 + noise.below(set.w);
            edit_private(set, key, |elements| elements[..2 * count].fill(0));
            "block columns zero"
        }
        7 => {
            let place = noise.below(set.ge_elements());
            edit_private(set, key, |elements| {
                elements[2 * set.w + set.n + place] = noise.element()
            });
            "an entry of GE changed"
        }
        _ => {
            let ge = noise.elements(set.ge_elements());
            edit_private(set, key, |elements| {
                elements[2 * set.w + set.n..][..ge.len()].copy_from_slice(&ge)
            });
            "another GE"
        }
    }
}

/// A private key, and what is special about it. Malformed keys are often singular too, for the order of refusals.
fn private_key(pair: &Pair, other: &Pair, noise: &mut Noise) -> (Vec<u8>, String) {
    let mut key = pair.private.clone();
    let set = pair.set;
    match noise.below(20) {
        0 => (other.private.clone(), "another pair's key".into()),
        1..=3 => {
            let mut kind = String::new();
            if noise.once_in(3) {
                kind = format!("{}, ", make_singular(pair, &mut key, noise));
            }
            kind += malform(set, &mut key, noise);
            (key, kind)
        }
        4 | 5 => {
            let kind = make_singular(pair, &mut key, noise);
            (key, kind.into())
        }
        6 | 7 => {
            let kind = make_odd(set, &mut key, noise);
            (key, kind.into())
        }
        8 if noise.once_in(2) => {
            let length = key.len();
            key[1..].copy_from_slice(&noise.bytes(length - 1));
            (key, "a random key".into())
        }
        _ => (key, "the own key".into()),
    }
}

/// A case with right lengths, but perhaps for the secret's.
pub fn case(verb: Verb, pair: &Pair, other: &Pair, noise: &mut Noise) -> Call {
    let set = pair.set;
    let length = if verb == Verb::Unwrap {
        secret_length(set, noise)
    } else {
        set.k1
    };
    let (key, key_kind) = private_key(pair, other, noise);
    let (cipher, cipher_kind) = ciphertext(pair, noise);
    Call {
        verb,
        kind: format!("{key_kind}, {length} bytes, {cipher_kind}"),
        set: 0,
        read: vec![key, cipher],
        list: vec![],
        written: vec![noise.bytes(length)],
        numbers: noise.numbers(set.work_numbers()),
    }
}
