//! Key setup from lent random bytes (specification, 6.1.3 and 7.6 to 7.9).

use crate::bits::{bytes_for, to_numbers, unpack};
use crate::field::inv;
use crate::keys::{PrivateKey, PublicKey};
use crate::matrix::{determinant, inverse_block, Block, Matrix};
use crate::perm::Permutation;
use crate::reed_solomon::generator_matrix;
use crate::refusal::Refusal;
use crate::sets::{Set, WINDOWS};

/// What setup makes.
#[derive(Clone, Debug, PartialEq, Eq)]
pub struct KeyPair {
    /// The public key.
    pub public: PublicKey,
    /// The private key.
    pub private: PrivateKey,
    /// p, the window of bytes that gave P2, from 0.
    pub window: usize,
}

/// Makes a key pair from random bytes; the refusals are 3 to 6, in this order.
///
/// # Panics
/// If there are not just as many random bytes as the set needs.
pub fn generate(set: &'static Set, random: &[u8]) -> Result<KeyPair, Refusal> {
    let draw = Draw::new(set, random);
    draw.multipliers().ok_or(Refusal::Multipliers)?;
    draw.blocks().ok_or(Refusal::Blocks)?;
    let (window, _) = draw.p2().ok_or(Refusal::Windows)?;
    draw.pair(window)
}

/// The step of setup that refuses these random bytes, if one does.
///
/// # Panics
/// As [`generate`].
pub fn refusing_step(set: &'static Set, random: &[u8]) -> Option<Refusal> {
    generate(set, random).err()
}

fn first_column([[upper, _], [lower, _]]: Block) -> [u16; 2] {
    [upper, lower]
}

/// The random bytes of setup, parted (specification, 6.1.3 steps 11 to 18 and 23): elements first, then bytes for permutations.
#[derive(Clone, Debug)]
pub struct Draw<'a> {
    set: &'static Set,
    elements: Vec<u16>,
    shuffles: &'a [u8],
}

impl<'a> Draw<'a> {
    /// Parts the random bytes of a set.
    ///
    /// # Panics
    /// If there are not just as many random bytes as the set needs.
    pub fn new(set: &'static Set, random: &'a [u8]) -> Self {
        assert_eq!(random.len(), set.setup_random_bytes());
        let (packed, shuffles) = random.split_at(bytes_for(set.setup_elements()));
        Draw {
            set,
            elements: unpack(packed),
            shuffles,
        }
    }

    /// v, the first n non-zero of elements 0 to n+4; `None` if there are fewer.
    pub fn multipliers(&self) -> Option<Vec<u16>> {
        let Set { n, .. } = *self.set;
        let mut multipliers = non_zero(&self.elements[..n + 5]);
        multipliers.truncate(n);
        (multipliers.len() == n).then_some(multipliers)
    }

    /// w blocks from the elements n+5 to n+4w+24; `None` if the search runs out of elements.
    pub fn blocks(&self) -> Option<Vec<Block>> {
        let Set { n, w, .. } = *self.set;
        find_blocks(&self.elements[n + 5..n + 4 * w + 25], w)
    }

    /// R, the k by w matrix that takes elements column after column (specification, 7.7).
    pub fn random_columns(&self) -> Matrix {
        let Set { n, k, w, .. } = *self.set;
        let elements = &self.elements[n + 4 * w + 25..];
        Matrix::from_fn(k, w, |i, j| elements[j * k + i])
    }

    /// P1, from the first n-1 numbers after the elements.
    pub fn p1(&self) -> Permutation {
        let Set { n, .. } = *self.set;
        Permutation::shuffle(n, &to_numbers(&self.shuffles[..2 * (n - 1)]))
    }

    /// The P2 of window p: from the n+w-1 numbers that start 2n-2+p *bytes* after the elements.
    ///
    /// # Panics
    /// If p is 5 or more.
    pub fn window(&self, p: usize) -> Permutation {
        let Set { n, .. } = *self.set;
        let scrambled = self.set.scrambled();
        let start = 2 * (n - 1) + p;
        let bytes = &self.shuffles[start..start + 2 * (scrambled - 1)];
        Permutation::shuffle(scrambled, &to_numbers(bytes))
    }

    /// The first window with u at most u0, and its P2; `None` if none of the five has.
    pub fn p2(&self) -> Option<(usize, Permutation)> {
        (0..WINDOWS)
            .map(|p| (p, self.window(p)))
            .find(|(_, p2)| mixed_places(self.set, p2) <= self.set.u0)
    }

    /// The u of each window, for those who look for random bytes of a certain kind.
    pub fn window_counts(&self) -> [usize; WINDOWS] {
        std::array::from_fn(|p| mixed_places(self.set, &self.window(p)))
    }

    /// The key pair that window p gives, whatever its u; the refusals are 3, 4 and 6. Setup takes the first window that
    /// fits; opening also takes keys of others.
    ///
    /// # Panics
    /// If p is 5 or more.
    pub fn pair(&self, p: usize) -> Result<KeyPair, Refusal> {
        let set = self.set;
        let multipliers = self.multipliers().ok_or(Refusal::Multipliers)?;
        let blocks = self.blocks().ok_or(Refusal::Blocks)?;
        let (p1, p2) = (self.p1(), self.window(p));
        let scrambled = generator_matrix(set.n, set.k)
            .scale_columns(&multipliers)
            .permute_columns(&p1)
            .join(&self.random_columns())
            .multiply_pairs(&blocks)
            .permute_columns(&p2);
        let ge = scrambled.systematic().ok_or(Refusal::Dependent)?;
        let private = PrivateKey {
            set,
            inverse_p1: p1.inverse(),
            inverse_p2: p2.inverse(),
            columns: blocks.iter().map(|&block| first_column(inverse_block(block))).collect(),
            inverses: multipliers.iter().map(|&multiplier| inv(multiplier)).collect(),
            ge: ge.clone(),
        };
        Ok(KeyPair {
            public: PublicKey { set, ge },
            private,
            window: p,
        })
    }
}

/// u, the count of i below k with `P2[i]` at least n-w.
pub fn mixed_places(set: &Set, p2: &Permutation) -> usize {
    p2.images().take(set.k).filter(|&image| image >= set.unmixed()).count()
}

fn non_zero(elements: &[u16]) -> Vec<u16> {
    elements.iter().copied().filter(|&element| element != 0).collect()
}

/// Searches blocks among elements (specification, 7.6): drops zeros; takes four as [a, b; c, d]; moves up
/// by one if ad - bc = 0, else by four. `None` if fewer than four are left before there are `wanted` blocks.
pub fn find_blocks(elements: &[u16], wanted: usize) -> Option<Vec<Block>> {
    let elements = non_zero(elements);
    let mut blocks = Vec::new();
    let mut place = 0;
    while blocks.len() < wanted {
        let four = elements.get(place..place + 4)?;
        let block = [[four[0], four[1]], [four[2], four[3]]];
        if determinant(block) == 0 {
            place += 1;
        } else {
            blocks.push(block);
            place += 4;
        }
    }
    Some(blocks)
}

#[cfg(test)]
mod tests {
    use super::*;

    #[test]
    fn the_search_moves_by_one_after_a_zero_determinant() {
        assert_eq!(find_blocks(&[1, 1, 1, 1, 2], 1), Some(vec![[[1, 1], [1, 2]]]));
        assert_eq!(find_blocks(&[1, 0, 1, 1, 0, 1, 2], 1), Some(vec![[[1, 1], [1, 2]]]));
    }

    #[test]
    fn the_search_runs_out() {
        assert_eq!(find_blocks(&[1, 1, 1, 1], 1), None);
        assert_eq!(find_blocks(&[1, 1, 2], 1), None);
        assert_eq!(find_blocks(&[], 1), None);
        assert_eq!(find_blocks(&[1, 1, 1, 2, 3, 3, 3], 2), None);
        assert_eq!(find_blocks(&[], 0), Some(vec![]));
    }

    #[test]
    fn the_search_moves_by_four_after_a_block() {
        let blocks = find_blocks(&[1, 1, 1, 2, 3, 3, 3, 4], 2);
        assert_eq!(blocks, Some(vec![[[1, 1], [1, 2]], [[3, 3], [3, 4]]]));
    }
}
