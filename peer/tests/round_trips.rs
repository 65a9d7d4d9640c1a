//! What is sealed opens, in both sets, and what finding gives is what sealing put in.

mod common;

use common::{keys, open, seal, set1, set6, unwrap, wrap, Noise};
use peer::bits::unpack;
use peer::keys::{PrivateKey, PublicKey};
use peer::open::Opener;
use peer::pad::pad;
use peer::reed_solomon::is_code_word;
use peer::seal::{part_block, seal_triple};
use peer::Set;

fn messages_come_back(set: &'static Set, key_pairs: usize, messages: usize, mut noise: Noise) {
    for _ in 0..key_pairs {
        let [public, private] = keys(set, &mut noise);
        for _ in 0..messages {
            let message = noise.bytes(set.k1);
            let (answer, cipher) = seal(&public, &noise.bytes(16 * set.block_bytes()), &message);
            assert_eq!(answer % 256, 0);
            assert_eq!(open(&private, &cipher), (0, message));
        }
    }
}

#[test]
fn messages_of_set_6_come_back() {
    messages_come_back(set6(), 60, 20, Noise(10));
}

#[test]
fn messages_of_set_1_come_back() {
    messages_come_back(set1(), 2, 5, Noise(11));
}

#[test]
fn secrets_of_every_length_come_back() {
    let mut noise = Noise(12);
    for (set, step) in [(set6(), 1), (set1(), 101)] {
        let [public, private] = keys(set, &mut noise);
        let lengths = (1..set.k1).step_by(step).chain([set.k1]);
        for length in lengths {
            let secret = noise.bytes(length);
            let (answer, cipher) = wrap(&public, &noise.bytes(16 * set.block_bytes()), &secret);
            assert_eq!(answer % 256, 0);
            assert_eq!(unwrap(&private, &cipher, length), (0, secret.clone()));
            // The rest of the message is zero bytes, and unwrapping ignores what it does not return.
            let mut message = secret;
            message.resize(set.k1, 0);
            assert_eq!(open(&private, &cipher), (0, message.clone()));
            let shorter = 1 + noise.below(length);
            assert_eq!(unwrap(&private, &cipher, shorter), (0, message[..shorter].to_vec()));
        }
    }
}

#[test]
fn finding_gives_vector_places_and_error_values() {
    let mut noise = Noise(13);
    for set in [set6(), set1()] {
        let [public, private] = keys(set, &mut noise);
        let public = PublicKey::from_bytes(set, &public);
        let opener = Opener::new(PrivateKey::from_bytes(set, &private).unwrap()).unwrap();
        for _ in 0..5 {
            let message = noise.bytes(set.k1);
            let block = noise.bytes(set.block_bytes());
            let (seed, places) = part_block(set, &block);
            let Some(cipher) = seal_triple(&public, &message, seed, &places) else {
                continue;
            };
            let elements = unpack(&pad(set, &message, seed, &places));
            let found = opener.find(&cipher).unwrap();
            assert_eq!(found.places, places);
            assert_eq!([found.vector, found.error_values].concat(), elements);
            assert_eq!(opener.open(&cipher), Some(message));
        }
    }
}

#[test]
fn rows_of_the_public_matrix_are_code_words_once_undone() {
    let mut noise = Noise(14);
    let set = set6();
    let [public, private] = keys(set, &mut noise);
    let public = PublicKey::from_bytes(set, &public);
    let opener = Opener::new(PrivateKey::from_bytes(set, &private).unwrap()).unwrap();
    for i in 0..set.k {
        let unit: Vec<u16> = (0..set.k).map(|j| (i == j).into()).collect();
        let row = peer::keys::encode(&public.ge, &unit);
        assert!(is_code_word(&opener.undo(&row), set.t));
    }
}

#[test]
fn key_strings_are_read_and_written_back() {
    let mut noise = Noise(15);
    for set in [set6(), set1()] {
        let [public, private] = keys(set, &mut noise);
        assert_eq!(PublicKey::from_bytes(set, &public).to_bytes(), public);
        let key = PrivateKey::from_bytes(set, &private).unwrap();
        assert_eq!(key.to_bytes(), private);
        assert_eq!(key.ge, PublicKey::from_bytes(set, &public).ge);
        assert_eq!((public[0], private[0]), (set.byte, set.byte));
    }
}
