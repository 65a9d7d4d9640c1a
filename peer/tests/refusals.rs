//! Every answer number, and the order of refusals when several things are wrong. What a call leaves in its buffers is
//! checked by the shared helpers on every call: junk is put in before, and looked at after.

mod common;

use common::*;
use peer::keys::PrivateKey;
use peer::{Refusal, SETS};

const PUBLIC: usize = 626;
const PRIVATE: usize = 859;
const CIPHER: usize = 57;
const MESSAGE: usize = 30;
const WORK: usize = 7200;

/// A key pair of set 6, a message, a random block that seals it, and the ciphertext.
struct Example {
    public: Vec<u8>,
    private: Vec<u8>,
    message: Vec<u8>,
    random: Vec<u8>,
    cipher: Vec<u8>,
}

fn example(seed: u64) -> Example {
    let mut noise = Noise(seed);
    let [public, private] = keys(set6(), &mut noise);
    let message = noise.bytes(MESSAGE);
    loop {
        let random = noise.bytes(24);
        let (answer, cipher) = seal(&public, &random, &message);
        if answer == 0 {
            return Example {
                public,
                private,
                message,
                random,
                cipher,
            };
        }
    }
}

/// The key with GE all zero: well formed, and W is singular unless u is 0.
fn with_zero_ge(private: &[u8]) -> Vec<u8> {
    let mut private = private.to_vec();
    edit_private(set6(), &mut private, |elements| elements[50..550].fill(0));
    private
}

#[test]
fn done() {
    let example = example(100);
    assert_eq!(open(&example.private, &example.cipher), (0, example.message));
}

#[test]
fn number_1_for_every_other_set_byte() {
    let example = example(101);
    for byte in (0..=255).filter(|byte| SETS.iter().all(|set| set.byte != *byte)) {
        assert_eq!(setup(byte, &[0; 402]).0, 1);
        let mut key = example.public.clone();
        key[0] = byte;
        assert_eq!(seal(&key, &example.random, &example.message).0, 1);
        assert_eq!(wrap(&key, &example.random, &example.message).0, 1);
        let mut key = example.private.clone();
        key[0] = byte;
        assert_eq!(open(&key, &example.cipher).0, 1);
        assert_eq!(unwrap(&key, &example.cipher, 30).0, 1);
    }
}

#[test]
fn number_2_for_every_wrong_length() {
    let Example {
        public,
        private,
        message,
        random,
        cipher,
    } = example(102);
    let setup_random = Noise(0).bytes(403);
    for (public, private, work) in [
        (PUBLIC - 1, PRIVATE, WORK),
        (PUBLIC + 1, PRIVATE, WORK),
        (PUBLIC, PRIVATE - 1, WORK),
        (PUBLIC, PRIVATE + 1, WORK),
        (PUBLIC, PRIVATE, WORK - 1),
        (PUBLIC, PRIVATE, WORK + 1),
        (0, 0, 0),
    ] {
        assert_eq!(setup_with(0x16, &setup_random[..402], [public, private], work).0, 2);
    }
    for length in [0, 1, 401, 403] {
        assert_eq!(setup(0x16, &setup_random[..length]).0, 2);
    }
    // The lengths of set 6 are not those of set 1.
    assert_eq!(setup_with(0x11, &setup_random[..402], [PUBLIC, PRIVATE], WORK).0, 2);

    for length in [0, 1, 625] {
        assert_eq!(seal(&public[..length], &random, &message).0, 2);
        assert_eq!(wrap(&public[..length], &random, &message).0, 2);
    }
    assert_eq!(seal(&[&public[..], &[0]].concat(), &random, &message).0, 2);
    for length in [0, 29, 31] {
        assert_eq!(seal(&public, &random, &vec![0; length]).0, 2);
    }
    for (cipher, work) in [
        (CIPHER - 1, WORK),
        (CIPHER + 1, WORK),
        (0, WORK),
        (CIPHER, WORK - 1),
        (CIPHER, 0),
    ] {
        assert_eq!(seal_with(&public, &random, &message, cipher, work).0, 2);
        assert_eq!(wrap_with(&public, &random, &message, cipher, work).0, 2);
    }
    for length in [0, 23, 25, 408] {
        assert_eq!(wrap(&public, &vec![0; length], &message).0, 2);
    }

    for length in [0, 1, 858] {
        assert_eq!(open(&private[..length], &cipher).0, 2);
        assert_eq!(unwrap(&private[..length], &cipher, 30).0, 2);
    }
    assert_eq!(open(&[&private[..], &[0]].concat(), &cipher).0, 2);
    for length in [0, 56] {
        assert_eq!(open(&private, &cipher[..length]).0, 2);
        assert_eq!(unwrap(&private, &cipher[..length], 30).0, 2);
    }
    assert_eq!(open(&private, &[&cipher[..], &[0]].concat()).0, 2);
    for (message, work) in [
        (0, WORK),
        (29, WORK),
        (31, WORK),
        (MESSAGE, WORK - 1),
        (MESSAGE, WORK + 1),
    ] {
        assert_eq!(open_with(&private, &cipher, message, work).0, 2);
    }
    assert_eq!(unwrap_with(&private, &cipher, 30, WORK + 1).0, 2);
}

#[test]
fn number_3_too_few_multipliers() {
    assert_eq!(setup(0x16, &[0; 402]).0, 3);
    assert_eq!(setup(0x11, &vec![0; 48617]).0, 3);
}

#[test]
fn number_4_too_few_blocks() {
    let mut random = Noise(104).bytes(402);
    edit_elements(set6(), &mut random, |elements| elements[45..85].fill(1));
    assert_eq!(setup(0x16, &random).0, 4);
}

#[test]
fn number_5_no_window() {
    assert_eq!(setup(0x16, &no_window_fits(&mut Noise(105))).0, 5);
}

#[test]
fn number_6_dependent_columns() {
    let mut noise = Noise(106);
    let random = loop {
        let random = noise.bytes(402);
        if peer::setup::refusing_step(set6(), &random) == Some(Refusal::Dependent) {
            break random;
        }
    };
    assert_eq!(setup(0x16, &random).0, 6);
}

#[test]
fn number_7_malformed_keys() {
    let Example { private, cipher, .. } = example(107);
    let refused = |edit: &dyn Fn(&mut Vec<u8>)| {
        let mut private = private.clone();
        edit(&mut private);
        assert_eq!(open(&private, &cipher).0, 7);
        assert_eq!(unwrap(&private, &cipher, 16).0, 7);
    };
    // Entries out of range, just and far, in either list, at its first and its last place.
    for (place, entry) in [(1, 40), (79, 40), (81, 45), (169, 45), (1, 0x0100), (169, 0xFFFF)] {
        refused(&|key| key[place..place + 2].copy_from_slice(&u16::to_be_bytes(entry)));
    }
    // An entry twice.
    refused(&|key| key.copy_within(1..3, 3));
    refused(&|key| key.copy_within(81..83, 169));
    // A zero among the inverses: the first, the last.
    for inverse in [10, 49] {
        refused(&|key| edit_private(set6(), key, |elements| elements[inverse] = 0));
    }
    for spare in 0..4 {
        refused(&|key| key[858] |= 1 << spare);
    }
}

#[test]
fn number_8_singular_matrix() {
    let Example { private, cipher, .. } = example(109);
    assert_eq!(open(&with_zero_ge(&private), &cipher).0, 8);
    assert_eq!(unwrap(&with_zero_ge(&private), &cipher, 16).0, 8);
    // Two equal rows in GE, both with numbers in I.
    let key = PrivateKey::from_bytes(set6(), &private).unwrap();
    let p2 = key.inverse_p2.inverse();
    let mixed: Vec<usize> = (0..20).filter(|&i| p2.image(i) >= 35).collect();
    assert!(mixed.len() >= 2);
    let mut singular = private;
    edit_private(set6(), &mut singular, |elements| {
        let row = |i: usize| 50 + 25 * mixed[i];
        elements.copy_within(row(0)..row(0) + 25, row(1));
    });
    assert_eq!(open(&singular, &cipher).0, 8);
}

#[test]
fn the_matrix_has_the_rows_i_and_the_first_columns_t() {
    let Example { private, cipher, .. } = example(120);
    let p2 = PrivateKey::from_bytes(set6(), &private).unwrap().inverse_p2.inverse();
    let (rows, _): (Vec<usize>, Vec<usize>) = (0..20).partition(|&i| p2.image(i) >= 35);
    let unmixed: Vec<usize> = (20..45).filter(|&i| p2.image(i) < 35).collect();
    let columns: Vec<usize> = unmixed[..rows.len()].iter().map(|place| place - 20).collect();
    assert!(!rows.is_empty() && columns.len() < unmixed.len());
    // The key with zeros in GE where the row and the column say so.
    let answer = |is_zero: &dyn Fn(usize, usize) -> bool| {
        let mut key = private.clone();
        edit_private(set6(), &mut key, |elements| {
            for (i, element) in elements[50..550].iter_mut().enumerate() {
                if is_zero(i / 25, i % 25) {
                    *element = 0;
                }
            }
        });
        open(&key, &cipher).0
    };
    assert_eq!(answer(&|_, _| false), 0);
    assert_eq!(
        answer(&|row, column| !rows.contains(&row) || !columns.contains(&column)),
        10
    );
    for &zero in &rows {
        assert_eq!(answer(&|row, _| row == zero), 8);
    }
    for &zero in &columns {
        assert_eq!(answer(&|_, column| column == zero), 8);
    }
}

#[test]
fn without_mixed_places_there_is_nothing_to_solve() {
    // Identity lists: I is empty, so W is not singular, whatever GE holds. u0 does not matter either.
    let Example { private, cipher, .. } = example(110);
    let mut key = with_zero_ge(&private);
    for i in 0..45 {
        key[81 + 2 * i..83 + 2 * i].copy_from_slice(&[0, i as u8]);
    }
    assert_eq!(open(&key, &cipher).0, 10);
    // The reverse list: all ten mixed places are among the first k, more than u0.
    for i in 0..45 {
        key[81 + 2 * i..83 + 2 * i].copy_from_slice(&[0, 44 - i as u8]);
    }
    assert_eq!(open(&key, &cipher).0, 8);
    let mut noise = Noise(110);
    edit_private(set6(), &mut key, |elements| {
        elements[50..550].copy_from_slice(&noise.elements(500));
    });
    assert_eq!(open(&key, &cipher).0, 10);
}

#[test]
fn number_9_only_zero_error_values() {
    let mut noise = Noise(111);
    let Example { public, message, .. } = example(111);
    let zero = zero_block(set6(), &message, &mut noise);
    for blocks in [1, 2, 16] {
        assert_eq!(seal(&public, &zero.repeat(blocks), &message).0, 9);
    }
    let mut padded = noise.bytes(20);
    padded.resize(30, 0);
    let zero = zero_block(set6(), &padded, &mut noise);
    assert_eq!(wrap(&public, &zero.repeat(16), &padded[..20]).0, 9);
}

#[test]
fn blocks_with_zero_error_values_are_passed_over() {
    let mut noise = Noise(112);
    let Example {
        public,
        private,
        message,
        random,
        cipher,
    } = example(112);
    for passed_over in 0..16 {
        let mut blocks: Vec<u8> = (0..passed_over)
            .flat_map(|_| zero_block(set6(), &message, &mut noise))
            .collect();
        blocks.extend(&random);
        // Blocks after the one used count only for the length.
        let further = noise.below(16 - passed_over);
        blocks.extend(noise.bytes(24 * further));
        let (answer, sealed) = seal(&public, &blocks, &message);
        assert_eq!(answer, 256 * passed_over as u16);
        assert_eq!(sealed, cipher);
        assert_eq!(open(&private, &sealed), (0, message.clone()));
        assert_eq!(wrap(&public, &blocks, &message), (answer, cipher.clone()));
    }
}

#[test]
fn number_10_not_opened() {
    let Example {
        private, mut cipher, ..
    } = example(113);
    cipher[0] ^= 1;
    assert_eq!(open(&private, &cipher).0, 10);
    assert_eq!(unwrap(&private, &cipher, 16).0, 10);
    // Another key.
    let other = example(114);
    assert_eq!(open(&other.private, &cipher).0, 10);
}

#[test]
fn number_11_secret_lengths() {
    let Example {
        public,
        private,
        random,
        cipher,
        ..
    } = example(115);
    for length in [0, 31, 57, 1000] {
        assert_eq!(wrap(&public, &random, &vec![0; length]).0, 11);
        assert_eq!(unwrap(&private, &cipher, length).0, 11);
    }
}

#[test]
fn order_in_setup() {
    // Set byte before lengths.
    assert_eq!(setup_with(0x26, &[], [0, 0], 0).0, 1);
    // Lengths before everything inside.
    assert_eq!(setup_with(0x16, &[0; 402], [PUBLIC, PRIVATE], 0).0, 2);
    // Then the steps, whatever comes later: 3 before 4 before 5 before 6.
    let mut random = no_window_fits(&mut Noise(116));
    edit_elements(set6(), &mut random, |elements| elements[85..].fill(0));
    assert_eq!(setup(0x16, &random).0, 5);
    edit_elements(set6(), &mut random, |elements| elements[45..85].fill(1));
    assert_eq!(setup(0x16, &random).0, 4);
    edit_elements(set6(), &mut random, |elements| elements[..6].fill(0));
    assert_eq!(setup(0x16, &random).0, 3);
}

#[test]
fn order_in_sealing() {
    let mut noise = Noise(117);
    let Example { public, .. } = example(117);
    // An empty key before the secret's length; the set byte before lengths; lengths before the secret's.
    assert_eq!(wrap_with(&[], &[], &[], 0, 0).0, 2);
    assert_eq!(wrap_with(&[0x26], &[], &[], 0, 0).0, 1);
    assert_eq!(seal_with(&[0x00], &[], &[], 0, 0).0, 1);
    assert_eq!(wrap_with(&[0x16], &[], &[], 0, 0).0, 2);
    assert_eq!(wrap(&public, &[0; 25], &[]).0, 2);
    assert_eq!(wrap_with(&public, &[0; 24], &[0; 31], CIPHER, WORK + 1).0, 2);
    assert_eq!(wrap_with(&public, &[0; 24], &[0; 31], CIPHER + 1, WORK).0, 2);
    // The secret's length before 9: with 31 bytes nothing is sealed at all.
    let zero = zero_block(set6(), &[0; 30], &mut noise);
    assert_eq!(wrap(&public, &zero, &[0; 30]).0, 9);
    assert_eq!(wrap(&public, &zero, &[0; 31]).0, 11);
    assert_eq!(wrap(&public, &zero, &[]).0, 11);
    assert_eq!(seal_with(&public, &zero, &[0; 30], CIPHER, 0).0, 2);
}

#[test]
fn order_in_opening() {
    let Example {
        private, mut cipher, ..
    } = example(118);
    assert_eq!(unwrap_with(&[], &[], 0, 0).0, 2);
    assert_eq!(unwrap_with(&[0x26], &[], 0, 0).0, 1);
    assert_eq!(open_with(&[0xFF; 859], &[], 0, 0).0, 1);
    assert_eq!(unwrap_with(&private, &cipher[..56], 0, WORK).0, 2);
    assert_eq!(unwrap_with(&private, &cipher, 31, 0).0, 2);

    // Malformed, singular, and a ciphertext with spare bits, all at once; then one after the other is mended.
    let mut key = with_zero_ge(&private);
    let spare = key[858];
    key[858] |= 1;
    cipher[56] |= 1;
    assert_eq!(open_with(&key, &cipher, 29, WORK).0, 2);
    assert_eq!(unwrap(&key, &cipher, 0).0, 11);
    assert_eq!(unwrap(&key, &cipher, 31).0, 11);
    assert_eq!(open(&key, &cipher).0, 7);
    assert_eq!(unwrap(&key, &cipher, 1).0, 7);
    key[858] = spare;
    assert_eq!(open(&key, &cipher).0, 8);
    assert_eq!(unwrap(&key, &cipher, 1).0, 8);
    assert_eq!(open(&private, &cipher).0, 10);
    assert_eq!(unwrap(&private, &cipher, 1).0, 10);
    cipher[56] &= 0xFE;
    assert_eq!(open(&private, &cipher).0, 0);
}

#[test]
fn set_1_refuses_alike() {
    let mut noise = Noise(119);
    let [public, mut private] = keys(set1(), &mut noise);
    let random = noise.bytes(16 * 188);
    let message = noise.bytes(504);
    assert_eq!(seal(&public, &random[..187], &message).0, 2);
    assert_eq!(wrap(&public, &random, &[]).0, 11);
    assert_eq!(wrap(&public, &random, &[0; 505]).0, 11);
    let (answer, mut cipher) = seal(&public, &random, &message);
    assert_eq!(answer % 256, 0);
    cipher[3] ^= 0x10;
    assert_eq!(open(&private, &cipher).0, 10);
    edit_private(set1(), &mut private, |elements| elements[192 + 532..].fill(0));
    assert_eq!(open(&private, &cipher).0, 8);
    private[1] = 0xFF;
    assert_eq!(open(&private, &cipher).0, 7);
}
