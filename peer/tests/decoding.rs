//! Decoding to the code word within t places, compared with exhaustive search on small codes and with the distance on
//! the codes of the sets.

mod common;

use common::Noise;
use peer::field::mul;
use peer::reed_solomon::{decode, generator_matrix, is_code_word};

fn distance(a: &[u16], b: &[u16]) -> usize {
    a.iter().zip(b).filter(|(a, b)| a != b).count()
}

/// The code words within t places of a word of a code of dimension 1, by trying all 1024.
fn nearest_by_search(word: &[u16], t: usize) -> Vec<Vec<u16>> {
    let generator = generator_matrix(word.len(), 1);
    (0..1024)
        .map(|factor| {
            generator.rows()[0]
                .iter()
                .map(|&g| mul(g, factor))
                .collect::<Vec<u16>>()
        })
        .filter(|code_word| distance(code_word, word) <= t)
        .collect()
}

#[test]
fn exhaustive_search_finds_the_same() {
    let mut noise = Noise(40);
    for t in 1..=4 {
        let n = 2 * t + 1;
        let generator = generator_matrix(n, 1);
        for changes in 0..=n {
            for _ in 0..60 {
                let mut word = generator.times_from_left(&[noise.element()]);
                for place in noise.places(changes, n) {
                    word[usize::from(place)] ^= noise.unit();
                }
                let found = nearest_by_search(&word, t);
                assert!(found.len() <= 1);
                assert_eq!(decode(&word, t).as_ref(), found.first());
            }
        }
    }
}

fn decodes_up_to_t(n: usize, k: usize, rounds: usize, mut noise: Noise) {
    let t = (n - k) / 2;
    let generator = generator_matrix(n, k);
    for errors in 0..=2 * t + 2 {
        for _ in 0..rounds {
            let code_word = generator.times_from_left(&noise.elements(k));
            let mut word = code_word.clone();
            for place in noise.places(errors, n) {
                word[usize::from(place)] ^= noise.unit();
            }
            assert_eq!(distance(&word, &code_word), errors);
            let decoded = decode(&word, t);
            if errors <= t {
                assert_eq!(decoded, Some(code_word));
            } else if let Some(other) = decoded {
                assert!(distance(&other, &word) <= t && is_code_word(&other, t));
            }
        }
    }
}

#[test]
fn code_of_set_6() {
    decodes_up_to_t(40, 20, 50, Noise(41));
}

#[test]
fn code_of_set_1() {
    decodes_up_to_t(532, 376, 2, Noise(42));
}

#[test]
fn the_full_length_decodes_too() {
    decodes_up_to_t(1023, 1003, 3, Noise(43));
}

#[test]
fn a_word_near_another_code_word_decodes_to_that_one() {
    // t + 1 changes towards another code word at distance 2t + 1.
    let generator = generator_matrix(40, 20);
    let other = &generator.rows()[3];
    let places: Vec<usize> = (0..40).filter(|&i| other[i] != 0).collect();
    assert_eq!(places.len(), 21);
    let mut word = vec![0; 40];
    for &place in &places[..11] {
        word[place] = other[place];
    }
    assert_eq!(decode(&word, 10).as_ref(), Some(other));
    word[places[10]] = 0;
    assert_eq!(decode(&word, 10), Some(vec![0; 40]));
}

#[test]
fn without_redundancy_every_word_is_a_code_word() {
    assert_eq!(decode(&[5, 6, 7], 0), Some(vec![5, 6, 7]));
}
