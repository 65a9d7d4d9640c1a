//! Stated values of every call, computed by hand from the specification.

mod common;

use common::{edit_elements, keys, open, seal, set6, setup, unwrap, wrap, Noise};
use peer::field::product;
use peer::keys::{encode, PublicKey};
use peer::setup::find_blocks;

/// Puts zeros among the first multipliers of set 6 and gives the answer of setup.
fn answer_with_zero_multipliers(zeros: &[usize], random: &[u8]) -> u16 {
    let mut random = random.to_vec();
    edit_elements(set6(), &mut random, |elements| {
        for element in &mut elements[..45] {
            *element |= 1;
        }
        for &zero in zeros {
            elements[zero] = 0;
        }
    });
    setup(0x16, &random).0
}

#[test]
fn products() {
    assert_eq!(product(512, 2), Some(9));
    assert_eq!(product(3, 3), Some(5));
    assert_eq!(product(2, 516), Some(1));
    assert_eq!(product(512, 512), Some(274));
    assert_eq!(product(0, 7), Some(0));
}

#[test]
fn packing() {
    let mut elements = [7; 2];
    assert_eq!(peer::unpack(&[0xFF, 0xC0, 0x01], &mut elements), 0);
    assert_eq!(elements, [1023, 0]);
    let mut bytes = [7; 3];
    assert_eq!(peer::pack(&elements, &mut bytes), 0);
    assert_eq!(bytes, [0xFF, 0xC0, 0x00]);
    assert_eq!(peer::pack(&[1, 2], &mut bytes), 0);
    assert_eq!(bytes, [0x00, 0x40, 0x20]);
    assert_eq!(peer::unpack(&[], &mut []), 0);
    assert_eq!(peer::unpack(&[0xFF], &mut []), 0);
}

#[test]
fn shuffling_and_inverting() {
    let mut list = [9; 5];
    assert_eq!(peer::shuffle(&[0x00, 0x03, 0x00, 0x02], &mut list), 0);
    assert_eq!(list, [3, 0, 2, 1, 4]);
    let mut inverse = [9; 5];
    assert_eq!(peer::invert(&list, &mut inverse), 0);
    assert_eq!(inverse, [1, 3, 2, 0, 4]);
    assert_eq!(peer::shuffle(&[0x00, 0x07], &mut list), 0);
    assert_eq!(list[0], 2);
}

#[test]
fn block_search() {
    assert_eq!(find_blocks(&[1, 1, 1, 1, 2], 1), Some(vec![[[1, 1], [1, 2]]]));
}

#[test]
fn setup_lengths() {
    let random = Noise(1).bytes(403);
    assert_eq!(setup(0x16, &random[..401]).0, 2);
    assert_eq!(setup(0x16, &random).0, 2);
    assert_eq!(setup(0x16, &random[..402]).0 % 256, 0);
}

#[test]
fn zero_multipliers() {
    let random = Noise(1).bytes(402);
    assert_eq!(answer_with_zero_multipliers(&[0, 11, 22, 33, 44], &random) % 256, 0);
    assert_eq!(answer_with_zero_multipliers(&[0, 1, 2, 3, 4], &random) % 256, 0);
    assert_eq!(answer_with_zero_multipliers(&[40, 41, 42, 43, 44], &random) % 256, 0);
    assert_eq!(answer_with_zero_multipliers(&[0, 11, 22, 33, 43, 44], &random), 3);
    assert_eq!(answer_with_zero_multipliers(&[39, 40, 41, 42, 43, 44], &random), 3);
    assert_eq!(setup(0x16, &[0; 402]).0, 3);
}

#[test]
fn sealing_random_lengths() {
    let mut noise = Noise(2);
    let [public, _] = keys(set6(), &mut noise);
    let message = noise.bytes(30);
    let random = noise.bytes(408);
    for refused in [0, 1, 23, 25, 47, 383, 385, 408] {
        assert_eq!(seal(&public, &random[..refused], &message).0, 2, "{refused} bytes");
    }
    for passed in [24, 48, 384] {
        assert_eq!(seal(&public, &random[..passed], &message).0, 0, "{passed} bytes");
    }
}

#[test]
fn secret_lengths() {
    let mut noise = Noise(3);
    let [public, private] = keys(set6(), &mut noise);
    let random = noise.bytes(24);
    let secret = noise.bytes(31);
    for refused in [0, 31] {
        assert_eq!(wrap(&public, &random, &secret[..refused]).0, 11);
        assert_eq!(unwrap(&private, &[0; 57], refused).0, 11);
    }
    for passed in [1, 30] {
        let (answer, cipher) = wrap(&public, &random, &secret[..passed]);
        assert_eq!(answer, 0);
        assert_eq!(unwrap(&private, &cipher, passed), (0, secret[..passed].to_vec()));
    }
}

#[test]
fn list_entry_out_of_range() {
    let [_, mut private] = keys(set6(), &mut Noise(4));
    private[1..3].copy_from_slice(&[0, 40]);
    assert_eq!(open(&private, &[0; 57]).0, 7);
}

#[test]
fn words_that_do_not_open() {
    let mut noise = Noise(5);
    let [public, private] = keys(set6(), &mut noise);
    assert_eq!(open(&private, &[0; 57]).0, 10);

    let key = PublicKey::from_bytes(set6(), &public);
    let mut word = encode(&key.ge, &noise.elements(20));
    for place in noise.places(9, 45) {
        word[usize::from(place)] ^= noise.unit();
    }
    assert_eq!(open(&private, &peer::bits::pack(&word)).0, 10);

    let message = noise.bytes(30);
    let (answer, mut cipher) = seal(&public, &noise.bytes(24), &message);
    assert_eq!(answer, 0);
    for spare in 0..6 {
        cipher[56] ^= 1 << spare;
        assert_eq!(open(&private, &cipher).0, 10);
        cipher[56] ^= 1 << spare;
    }
    assert_eq!(open(&private, &cipher), (0, message));
}
