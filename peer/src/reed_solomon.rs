//! The Reed-Solomon code (specification, 6.1.3 steps 7 and 8, and 7.14).
//!
//! A code word is a list c_0, .., c_{n-1} whose sums Σ c_i · α^(ij) are 0 for j = 1..2t: read as a polynomial it is a
//! multiple of g(x) = (x - α)(x - α²)..(x - α^2t).
//!
//! Decoding is the classical chain: syndromes, Berlekamp-Massey for the error locator, Chien search for the error
//! places, Forney's formula for the error values. The specification decodes a word with a prefix of 1023 - n zeros; here the
//! word has its n elements only, and a locator with roots elsewhere means that no code word is near.

use crate::field::{add_multiple, alpha, div, evaluate, inv, mul, UNITS};
use crate::matrix::Matrix;

/// g(x) = product of (x - α^i) for i = 1..=degree, lowest coefficient first (specification, 6.1.3 step 7).
pub fn generator_polynomial(degree: usize) -> Vec<u16> {
    let mut polynomial = vec![1];
    for i in 1..=degree {
        let mut product = [&[0], &polynomial[..]].concat();
        add_multiple(&mut product[..i], alpha(i), &polynomial);
        polynomial = product;
    }
    polynomial
}

/// The k by n matrix G0 whose rows are shifts of g (specification, 6.1.3 step 8).
pub fn generator_matrix(n: usize, k: usize) -> Matrix {
    let g = generator_polynomial(n - k);
    Matrix::from_fn(k, n, |i, j| {
        let coefficient = j.checked_sub(i).and_then(|degree| g.get(degree));
        coefficient.copied().unwrap_or(0)
    })
}

/// S_j = Σ c_i · α^(ij) for j = 1..=count.
pub fn syndromes(word: &[u16], count: usize) -> Vec<u16> {
    (1..=count).map(|j| evaluate(word, alpha(j))).collect()
}

/// The code word that differs from `word` in at most t places, for the code of the word's length with 2t syndromes;
/// `None` if there is none. There is never more than one.
///
/// # Panics
/// If the word is longer than 1023: the powers of α that name its places would repeat.
pub fn decode(word: &[u16], t: usize) -> Option<Vec<u16>> {
    assert!(word.len() <= UNITS);
    let syndromes = syndromes(word, 2 * t);
    let locator = error_locator(&syndromes);
    let errors = locator.len() - 1;
    if errors > t {
        return None;
    }
    let places = error_places(&locator, word.len());
    if places.len() < errors {
        return None;
    }
    let mut code_word = word.to_vec();
    for (&place, value) in places.iter().zip(error_values(&syndromes, &locator, &places)) {
        code_word[place] ^= value;
    }
    is_code_word(&code_word, t).then_some(code_word)
}

/// Whether all 2t syndromes are zero.
pub fn is_code_word(word: &[u16], t: usize) -> bool {
    syndromes(word, 2 * t).iter().all(|&syndrome| syndrome == 0)
}

/// The shortest linear recurrence of the syndromes (Berlekamp-Massey): Λ with Λ_0 = 1 and Σ Λ_i · S_{j-i} = 0 for all
/// j from its length L up. Answers L + 1 coefficients, of which the last may be 0.
///
/// If the syndromes come from at most t errors, Λ(x) is the product of (1 - X·x) over the error places' X = α^place.
fn error_locator(syndromes: &[u16]) -> Vec<u16> {
    let mut current = vec![1];
    // The recurrence before the last change of length, its discrepancy, and how many steps ago it failed.
    let mut older = vec![1];
    let mut older_discrepancy = 1;
    let mut age = 1;
    for step in 0..syndromes.len() {
        let length = current.len() - 1;
        let terms = current.iter().zip(syndromes[..=step].iter().rev());
        let discrepancy = terms.fold(0, |sum, (&a, &b)| sum ^ mul(a, b));
        if discrepancy != 0 {
            let factor = div(discrepancy, older_discrepancy);
            let before = current.clone();
            if 2 * length <= step {
                current.resize(step + 2 - length, 0);
            }
            add_multiple(&mut current[age..][..older.len()], factor, &older);
            if 2 * length <= step {
                (older, older_discrepancy, age) = (before, discrepancy, 0);
            }
        }
        age += 1;
    }
    current
}

/// The places below n whose X = α^place has Λ(1/X) = 0 (Chien search: each term of the sum steps by its own factor).
fn error_places(locator: &[u16], n: usize) -> Vec<usize> {
    let mut terms = locator.to_vec();
    let mut places = Vec::new();
    for place in 0..n {
        if terms.iter().fold(0, |sum, term| sum ^ term) == 0 {
            places.push(place);
        }
        for (degree, term) in terms.iter_mut().enumerate() {
            *term = mul(*term, alpha(UNITS - degree));
        }
    }
    places
}

/// The error values at the places (Forney): Ω(1/X) / Λ'(1/X) with Ω = S·Λ modulo x^2t, S = S_1 + S_2·x + ...
///
/// There are as many places as Λ has degree, so the roots of Λ are simple and Λ' is not zero at them.
fn error_values(syndromes: &[u16], locator: &[u16], places: &[usize]) -> Vec<u16> {
    let mut evaluator = vec![0; syndromes.len()];
    for (i, &coefficient) in locator.iter().enumerate() {
        let kept = syndromes.len() - i;
        add_multiple(&mut evaluator[i..], coefficient, &syndromes[..kept]);
    }
    // In characteristic 2 the derivative keeps the odd coefficients, one place lower.
    let derivative: Vec<u16> = (1..locator.len())
        .map(|i| if i % 2 == 1 { locator[i] } else { 0 })
        .collect();
    let value = |&place: &usize| {
        let point = inv(alpha(place));
        div(evaluate(&evaluator, point), evaluate(&derivative, point))
    };
    places.iter().map(value).collect()
}

#[cfg(test)]
mod tests {
    use super::*;

    #[test]
    fn generator_polynomial_has_its_roots() {
        assert_eq!(generator_polynomial(0), [1]);
        // (x - 2)(x - 4) = x² + 6x + 8
        assert_eq!(generator_polynomial(2), [8, 6, 1]);
        let g = generator_polynomial(20);
        assert_eq!(g.len(), 21);
        assert_eq!(g[20], 1);
        for i in 0..UNITS {
            assert_eq!(evaluate(&g, alpha(i)) == 0, (1..=20).contains(&i), "α^{i}");
        }
    }

    #[test]
    fn rows_of_the_generator_matrix_are_code_words() {
        let matrix = generator_matrix(40, 20);
        assert_eq!(matrix.rows().len(), 20);
        for (i, row) in matrix.rows().iter().enumerate() {
            assert_eq!(row.len(), 40);
            assert_ne!(row[i], 0);
            assert!(row[..i].iter().all(|&element| element == 0));
            assert!(is_code_word(row, 10));
        }
    }

    #[test]
    fn locator_of_one_and_two_errors() {
        // Error 7 at place 3: S_j = 7 · α^(3j), Λ = 1 + α³ x.
        let mut word = vec![0; 12];
        word[3] = 7;
        assert_eq!(error_locator(&syndromes(&word, 4)), [1, alpha(3)]);
        word[9] = 1;
        let locator = error_locator(&syndromes(&word, 4));
        assert_eq!(locator, [1, alpha(3) ^ alpha(9), alpha(12)]);
        assert_eq!(error_places(&locator, 12), [3, 9]);
        assert_eq!(error_values(&syndromes(&word, 4), &locator, &[3, 9]), [7, 1]);
        assert_eq!(decode(&word, 2), Some(vec![0; 12]));
    }

    #[test]
    fn a_root_outside_the_word_means_no_code_word() {
        // One error at place 500 of the code of length 1023, seen by a word of length 12 through its syndromes.
        let mut long = vec![0; UNITS];
        long[500] = 1;
        let wanted = syndromes(&long, 2);
        // The word of weight two with the same two syndromes: solve a·α^j + b·α^2j = S_j.
        let (x, y) = (alpha(1), alpha(2));
        let determinant = mul(x, mul(y, y)) ^ mul(y, mul(x, x));
        let a = div(mul(wanted[0], mul(y, y)) ^ mul(wanted[1], y), determinant);
        let b = div(mul(wanted[1], x) ^ mul(wanted[0], mul(x, x)), determinant);
        let mut word = vec![0; 12];
        word[1] = a;
        word[2] = b;
        assert_eq!(syndromes(&word, 2), wanted);
        assert_eq!(decode(&word, 1), None);
    }
}
