//! Cases of setup: random bytes of every kind.

use crate::call::{Call, Verb};
use crate::lengths::Lengths;
use peer::inputs::{edit_elements, window_fits_first, Noise};
use peer::Set;

/// Zeros among the multipliers, so many that about half of these setups are refused by 3.
fn zero_multipliers(set: &Set, random: &mut [u8], noise: &mut Noise) {
    let count = 3 + noise.below(6);
    let zeros = noise.places(count, set.n + 5);
    edit_elements(set, random, |elements| {
        zeros.iter().for_each(|&i| elements[usize::from(i)] = 0)
    });
}

/// Elements for blocks from a few values, so that many determinants are zero and the search may run out.
fn poor_blocks(set: &Set, random: &mut [u8], noise: &mut Noise) {
    let values = match noise.below(5) {
        0 => vec![0],
        1 => vec![noise.unit()],
        2 => vec![0, 1, 2],
        3 => vec![1, 1, 1, 2],
        _ => vec![1, noise.unit(), noise.unit(), 0],
    };
    let spared = if noise.once_in(2) {
        noise.below(4 * set.w + 20)
    } else {
        0
    };
    edit_elements(set, random, |elements| {
        for element in &mut elements[set.n + 5 + spared..set.n + 4 * set.w + 25] {
            *element = noise.one_of(&values);
        }
    });
}

/// Columns of R that are zero: with P2 that brings a pair among the first k columns these are dependent.
fn poor_columns(set: &Set, random: &mut [u8], noise: &mut Noise) {
    let value = if noise.once_in(2) { 0 } else { noise.element() };
    let first = if noise.once_in(2) { 0 } else { noise.below(set.w) };
    edit_elements(set, random, |elements| {
        elements[set.n + 4 * set.w + 25 + first * set.k..].fill(value)
    });
}

/// Random bytes, and what is special about them.
fn random_bytes(set: &'static Set, noise: &mut Noise) -> (Vec<u8>, String) {
    let length = set.setup_random_bytes();
    let shuffles = length - 4 * set.n - 2 * set.w;
    let mut random = noise.bytes(length);
    match noise.below(10) {
        0..=2 => (random, "random bytes".into()),
        3 | 4 => {
            let p = noise.below(6);
            (
                window_fits_first(set, p, noise),
                format!("first fitting window {p}, none if 5"),
            )
        }
        5 => {
            zero_multipliers(set, &mut random, noise);
            (random, "zeros among the multipliers".into())
        }
        6 => {
            poor_blocks(set, &mut random, noise);
            (random, "few values for blocks".into())
        }
        7 => {
            poor_columns(set, &mut random, noise);
            (random, "columns of R alike".into())
        }
        8 => {
            let value = noise.one_of(&[0x00, 0xFF, 0x01, 0x80, 0x55]);
            let from = noise.one_of(&[0, shuffles, shuffles, shuffles + 2 * set.n - 2]);
            random[from..].fill(value);
            (random, format!("bytes {value:#04x} from {from} on"))
        }
        _ => {
            if noise.once_in(2) {
                random = window_fits_first(set, 5, noise);
            }
            if noise.once_in(2) {
                poor_columns(set, &mut random, noise);
            }
            if noise.once_in(2) {
                poor_blocks(set, &mut random, noise);
            }
            if noise.once_in(2) {
                zero_multipliers(set, &mut random, noise);
            }
            (random, "several faults of the random bytes".into())
        }
    }
}

/// A case of setup with right lengths.
pub fn case(set: &'static Set, noise: &mut Noise) -> Call {
    let (random, kind) = random_bytes(set, noise);
    Call {
        verb: Verb::Setup,
        kind,
        set: set.byte,
        read: vec![random],
        list: vec![],
        written: vec![noise.bytes(set.public_bytes()), noise.bytes(set.private_bytes())],
        numbers: noise.numbers(set.work_numbers()),
    }
}
