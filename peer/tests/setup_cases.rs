//! Key setup: windows, multipliers, blocks, dependent columns, and the matrix checked entry by entry.

mod common;

use common::{edit_elements, no_window_fits, open, seal, set1, set6, setup, window_fits_first, Noise};
use peer::bits::{bytes_for, unpack};
use peer::field::{inverse, mul};
use peer::keys::{PrivateKey, PublicKey};
use peer::matrix::Matrix;
use peer::reed_solomon::generator_polynomial;
use peer::setup::{refusing_step, Draw};
use peer::{Refusal, Set};

fn pair_opens(set: &Set, public: &[u8], private: &[u8], noise: &mut Noise) {
    let message = noise.bytes(set.k1);
    let (answer, cipher) = seal(public, &noise.bytes(16 * set.block_bytes()), &message);
    assert_eq!(answer % 256, 0);
    assert_eq!(open(private, &cipher), (0, message));
}

#[test]
fn the_answer_carries_the_first_fitting_window() {
    let mut noise = Noise(20);
    for p in 0..5 {
        let mut passed = 0;
        for _ in 0..10 {
            let random = window_fits_first(set6(), p, &mut noise);
            let counts = Draw::new(set6(), &random).window_counts();
            assert!(counts[..p].iter().all(|&u| u > 7));
            assert!(counts[p] <= 7);
            let (answer, [public, private]) = setup(0x16, &random);
            if answer == 6 {
                continue;
            }
            assert_eq!(answer, 256 * (p as u16 + 1));
            pair_opens(set6(), &public, &private, &mut noise);
            passed += 1;
        }
        assert!(passed > 0, "window {p}");
    }
}

#[test]
fn windows_of_set_1() {
    let mut noise = Noise(21);
    for p in 0..2 {
        let random = loop {
            let random = noise.bytes(set1().setup_random_bytes());
            if Draw::new(set1(), &random).p2().is_some_and(|(window, _)| window == p) {
                break random;
            }
        };
        let (answer, [public, private]) = setup(0x11, &random);
        assert_eq!(answer, 256 * (p as u16 + 1));
        pair_opens(set1(), &public, &private, &mut noise);
    }
}

#[test]
fn a_count_of_exactly_u0_fits() {
    let mut noise = Noise(22);
    let random = loop {
        let random = noise.bytes(402);
        if Draw::new(set6(), &random).window_counts()[0] == 7 && refusing_step(set6(), &random).is_none() {
            break random;
        }
    };
    assert_eq!(setup(0x16, &random).0, 256);
}

#[test]
fn no_fitting_window() {
    let mut noise = Noise(23);
    let random = no_window_fits(&mut noise);
    assert!(Draw::new(set6(), &random).window_counts().iter().all(|&u| u > 7));
    assert_eq!(setup(0x16, &random).0, 5);
    assert_eq!(refusing_step(set6(), &random), Some(Refusal::Windows));
}

#[test]
fn zeros_among_the_multipliers_are_skipped() {
    let mut noise = Noise(24);
    let mut random = noise.bytes(402);
    edit_elements(set6(), &mut random, |elements| {
        for (i, element) in elements[..45].iter_mut().enumerate() {
            *element = if i % 9 == 0 { 0 } else { i as u16 };
        }
    });
    let expected: Vec<u16> = (0..45).filter(|i| i % 9 != 0).collect();
    assert_eq!(Draw::new(set6(), &random).multipliers(), Some(expected.clone()));
    let (answer, [public, private]) = setup(0x16, &random);
    assert_eq!(answer % 256, 0);
    let key = PrivateKey::from_bytes(set6(), &private).unwrap();
    let inverses: Vec<u16> = expected.iter().map(|&v| inverse(v).unwrap()).collect();
    assert_eq!(key.inverses, inverses);
    pair_opens(set6(), &public, &private, &mut noise);
}

#[test]
fn the_block_search_runs_out_in_several_ways() {
    let base = Noise(25).bytes(402);
    let answer = |edit: &dyn Fn(&mut [u16])| {
        let mut random = base.clone();
        edit_elements(set6(), &mut random, |elements| edit(&mut elements[45..85]));
        setup(0x16, &random).0
    };
    assert_eq!(answer(&|elements| elements.fill(0)), 4);
    assert_eq!(answer(&|elements| elements.fill(7)), 4);
    let good = [1, 1, 1, 2];
    // Five good blocks and nothing else, wherever the zeros stand.
    assert_eq!(
        answer(&|elements| {
            elements.fill(0);
            elements[20..].copy_from_slice(&good.repeat(5));
        }) % 256,
        0
    );
    // One element fewer.
    assert_eq!(
        answer(&|elements| {
            elements.fill(0);
            elements[..19].copy_from_slice(&good.repeat(5)[..19]);
        }),
        4
    );
    // A move by one leaves three elements for the last block.
    assert_eq!(
        answer(&|elements| {
            elements.fill(0);
            elements[..16].copy_from_slice(&good.repeat(4));
            elements[16..20].fill(5);
        }),
        4
    );
    // One more element, and the move by one finds the last block at the very end.
    assert_eq!(
        answer(&|elements| {
            elements.fill(0);
            elements[..16].copy_from_slice(&good.repeat(4));
            elements[16..21].copy_from_slice(&[5, 5, 5, 5, 6]);
        }) % 256,
        0
    );
}

#[test]
fn dependent_columns() {
    let mut noise = Noise(26);
    // With R zero both columns of a pair are multiples of one column; P2 brings some pair among the first k columns.
    let random = loop {
        let mut random = noise.bytes(402);
        edit_elements(set6(), &mut random, |elements| elements[85..].fill(0));
        let (_, p2) = Draw::new(set6(), &random).p2().unwrap();
        let first: Vec<usize> = p2.images().take(20).collect();
        if (35..45)
            .step_by(2)
            .any(|c| first.contains(&c) && first.contains(&(c + 1)))
        {
            break random;
        }
    };
    assert_eq!(setup(0x16, &random).0, 6);
    assert_eq!(refusing_step(set6(), &random), Some(Refusal::Dependent));
}

#[test]
fn dependent_columns_also_come_by_chance() {
    let mut noise = Noise(27);
    let refusals = (0..5000)
        .filter_map(|_| refusing_step(set6(), &noise.bytes(402)))
        .filter(|&refusal| refusal == Refusal::Dependent)
        .count();
    assert!((1..30).contains(&refusals), "{refusals} of 5000");
}

/// Entry (i, j) of the scrambled matrix by one formula, without intermediate matrices.
fn scrambled_entry(set: &Set, draw: &Draw, elements: &[u16], i: usize, j: usize) -> u16 {
    let (p1, (_, p2)) = (draw.p1(), draw.p2().unwrap());
    let (v, blocks) = (draw.multipliers().unwrap(), draw.blocks().unwrap());
    let g = generator_polynomial(set.n - set.k);
    let permuted = |c: usize| {
        let old = p1.image(c);
        let coefficient = if old < i {
            0
        } else {
            g.get(old - i).copied().unwrap_or(0)
        };
        mul(coefficient, v[old])
    };
    let c = p2.image(j);
    if c < set.n - set.w {
        return permuted(c);
    }
    let (pair, side) = ((c - (set.n - set.w)) / 2, (c - (set.n - set.w)) % 2);
    let r = elements[set.n + 4 * set.w + 25 + pair * set.k + i];
    mul(permuted(set.n - set.w + pair), blocks[pair][0][side]) ^ mul(r, blocks[pair][1][side])
}

#[test]
fn the_public_matrix_spans_the_rows_of_the_formula() {
    let mut noise = Noise(28);
    let set = set6();
    for _ in 0..5 {
        let random = noise.bytes(402);
        let (answer, [public, _]) = setup(0x16, &random);
        if answer % 256 != 0 {
            continue;
        }
        let draw = Draw::new(set, &random);
        let elements = unpack(&random[..bytes_for(set.setup_elements())]);
        let scrambled = Matrix::from_fn(20, 45, |i, j| scrambled_entry(set, &draw, &elements, i, j));
        // The first k columns of a row say which combination of rows of [I, GE] it is.
        let ge = PublicKey::from_bytes(set, &public).ge;
        for row in scrambled.rows() {
            assert_eq!(ge.times_from_left(&row[..20]), row[20..]);
        }
    }
}

#[test]
fn bits_left_over_after_the_elements_are_ignored() {
    let mut random = Noise(29).bytes(402);
    let expected = setup(0x16, &random);
    assert_eq!(expected.0 % 256, 0);
    for tail in 0..64 {
        random[231] = random[231] & 0xC0 | tail;
        assert_eq!(setup(0x16, &random), expected);
    }
}

#[test]
fn setup_of_set_1_is_a_function_of_its_bytes() {
    let random = Noise(30).bytes(48617);
    assert_eq!(setup(0x11, &random), setup(0x11, &random));
}
