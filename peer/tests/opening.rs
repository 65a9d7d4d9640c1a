//! Ciphertexts with changed places: exactly t differing places, and a code word within t of the undone word.

mod common;

use common::{keys, open, set6, Noise};
use peer::bits::{pack, unpack};
use peer::field::{div, mul};
use peer::keys::{encode, PrivateKey, PublicKey};
use peer::open::Opener;
use peer::perm::Permutation;
use peer::seal::seal_triple;

struct Example {
    private: Vec<u8>,
    public_key: PublicKey,
    private_key: PrivateKey,
    p2: Permutation,
    message: Vec<u8>,
    noise: Noise,
}

fn example(seed: u64) -> Example {
    let mut noise = Noise(seed);
    let [public, private] = keys(set6(), &mut noise);
    let private_key = PrivateKey::from_bytes(set6(), &private).unwrap();
    Example {
        public_key: PublicKey::from_bytes(set6(), &public),
        p2: private_key.inverse_p2.inverse(),
        private_key,
        private,
        message: noise.bytes(30),
        noise,
    }
}

impl Example {
    /// A ciphertext of the message with these error places.
    fn seal_at(&mut self, places: &[u16]) -> Vec<u8> {
        loop {
            let seed = self.noise.bytes(4);
            if let Some(cipher) = seal_triple(&self.public_key, &self.message, &seed, places) {
                return cipher;
            }
        }
    }

    /// The two places of the scrambled word that hold pair i.
    fn pair(&self, i: usize) -> [u16; 2] {
        [0, 1].map(|side| self.private_key.inverse_p2.list()[35 + 2 * i + side])
    }

    fn opens(&self, word: &[u16]) -> u16 {
        open(&self.private, &pack(word)).0
    }
}

#[test]
fn code_words_with_0_to_2t_plus_2_changed_places_do_not_open() {
    let mut example = example(200);
    let opener = Opener::new(example.private_key.clone()).unwrap();
    for changes in 0..=22 {
        for _ in 0..20 {
            let vector = example.noise.elements(20);
            let mut word = encode(&example.public_key.ge, &vector);
            let places = example.noise.places(changes, 45);
            for &place in &places {
                word[usize::from(place)] ^= example.noise.unit();
            }
            // Exactly t places: vector and places are found, and only the check bytes say no.
            let found = opener.find(&pack(&word));
            assert_eq!(found.is_some(), changes == 10, "{changes} changes");
            if let Some(found) = found {
                assert_eq!((found.vector, found.places), (vector, places));
            }
            assert_eq!(example.opens(&word), 10);
        }
    }
}

#[test]
fn ciphertexts_with_0_to_2t_plus_2_further_changes() {
    let mut example = example(201);
    for changes in 0..=22 {
        for _ in 0..20 {
            let places = example.noise.places(10, 45);
            let mut word = unpack(&example.seal_at(&places));
            for place in example.noise.places(changes, 45) {
                word[usize::from(place)] ^= example.noise.unit();
            }
            assert_eq!(example.opens(&word), if changes == 0 { 0 } else { 10 });
        }
    }
}

#[test]
fn a_ciphertext_with_one_error_taken_back_does_not_open() {
    // t - 1 differing places: decoding succeeds, and the count is refused.
    let mut example = example(202);
    let places = example.noise.places(10, 45);
    let cipher = example.seal_at(&places);
    let opener = Opener::new(example.private_key.clone()).unwrap();
    let found = opener.find(&cipher).unwrap();
    for (place, value) in found.places.iter().zip(&found.error_values) {
        let mut word = unpack(&cipher);
        word[usize::from(*place)] ^= value;
        assert_eq!(example.opens(&word), 10);
    }
}

#[test]
fn errors_in_both_halves_of_a_pair_open() {
    let mut example = example(203);
    for i in 0..5 {
        let mut places = example.pair(i).to_vec();
        places.extend((0..45).filter(|place| !example.pair(i).contains(place)).take(8));
        places.sort_unstable();
        let cipher = example.seal_at(&places);
        assert_eq!(open(&example.private, &cipher), (0, example.message.clone()));
    }
}

#[test]
fn t_plus_1_places_do_not_open_even_if_only_t_elements_are_wrong() {
    // The eleventh error shares its pair with another one, so the undone word is within t of the code all the same.
    let mut example = example(204);
    let [one, other] = example.pair(2);
    let mut places: Vec<u16> = (0..45).filter(|place| ![one, other].contains(place)).take(9).collect();
    places.push(one);
    places.sort_unstable();
    let mut word = unpack(&example.seal_at(&places));
    assert_eq!(example.opens(&word), 0);
    word[usize::from(other)] ^= 1;
    assert_eq!(example.opens(&word), 10);
}

#[test]
fn an_error_that_undoing_hides_is_still_counted() {
    // Errors x, y in a pair with x·upper + y·lower = 0 vanish from the undone word but not from the ciphertext.
    let mut example = example(205);
    let pair = example.pair(3);
    let [upper, lower] = example.private_key.columns[3];
    let places: Vec<u16> = (0..45).filter(|place| !pair.contains(place)).take(10).collect();
    let mut word = unpack(&example.seal_at(&places));
    let (x, y) = (lower, upper);
    assert_eq!(mul(x, upper) ^ mul(y, lower), 0);
    word[usize::from(pair[0])] ^= x;
    word[usize::from(pair[1])] ^= y;
    assert_eq!(example.opens(&word), 10);

    // Eight visible errors and such a pair: ten places, so all is found.
    let vector = example.noise.elements(20);
    let mut word = encode(&example.public_key.ge, &vector);
    for &place in &places[..8] {
        word[usize::from(place)] ^= example.noise.unit();
    }
    word[usize::from(pair[0])] ^= x;
    word[usize::from(pair[1])] ^= y;
    let opener = Opener::new(example.private_key.clone()).unwrap();
    let found = opener.find(&pack(&word)).unwrap();
    assert_eq!(found.vector, vector);
    assert!(pair.iter().all(|place| found.places.contains(place)));
}

#[test]
fn errors_at_solved_and_at_helping_places_open() {
    // All errors at the places of I and T, as far as they go: neither may be taken from the ciphertext.
    let mut example = example(206);
    let mixed: Vec<u16> = (0..20).filter(|&i| example.p2.image(i.into()) >= 35).collect();
    let helping = (20..45).filter(|&i| example.p2.image(i.into()) < 35).take(mixed.len());
    let mut places: Vec<u16> = mixed.iter().copied().chain(helping).collect();
    places.truncate(10);
    let fill: Vec<u16> = (0..45).filter(|place| !places.contains(place)).collect();
    places.extend(&fill[..10 - places.len()]);
    places.sort_unstable();
    let cipher = example.seal_at(&places);
    assert_eq!(open(&example.private, &cipher), (0, example.message.clone()));
}

#[test]
fn a_multiple_of_the_inverses_gives_the_same_code() {
    // All inverses times one factor: the undone word is a multiple, the code the same, and so is the answer.
    let mut example = example(207);
    let places = example.noise.places(10, 45);
    let cipher = example.seal_at(&places);
    let mut key = example.private_key.clone();
    for inverse in &mut key.inverses {
        *inverse = div(*inverse, 7);
    }
    assert_eq!(open(&key.to_bytes(), &cipher), (0, example.message.clone()));
    key.inverses[0] = div(key.inverses[0], 7);
    let (answer, _) = open(&key.to_bytes(), &cipher);
    assert_eq!(answer, 10);
}

#[test]
fn zeros_in_block_columns_are_well_formed() {
    // The undone word then has five wrong elements where the pairs were, and decoding mends them as long as they and
    // the errors elsewhere are at most t.
    let mut example = example(208);
    let mut key = example.private_key.clone();
    key.columns.fill([0, 0]);
    let (unmixed, mixed): (Vec<u16>, Vec<u16>) = (0..45).partition(|&place| example.p2.image(place.into()) < 35);
    for (in_pairs, answer) in [(5, 0), (4, 10), (0, 10), (10, 0)] {
        let mut places = [&mixed[..in_pairs], &unmixed[..10 - in_pairs]].concat();
        places.sort_unstable();
        let cipher = example.seal_at(&places);
        assert_eq!(open(&example.private, &cipher).0, 0);
        assert_eq!(open(&key.to_bytes(), &cipher).0, answer);
    }
}

#[test]
fn any_two_permutations_and_any_ge_are_well_formed() {
    let mut example = example(209);
    for _ in 0..200 {
        let places = example.noise.places(10, 45);
        let cipher = example.seal_at(&places);
        let mut key = example.private_key.clone();
        let mut numbers = |count: usize| (0..count).map(|_| example.noise.number() as u16).collect::<Vec<u16>>();
        key.inverse_p1 = Permutation::shuffle(40, &numbers(39));
        key.inverse_p2 = Permutation::shuffle(45, &numbers(44));
        let (answer, _) = open(&key.to_bytes(), &cipher);
        assert!(answer == 8 || answer == 10, "answer {answer}");
    }
}
