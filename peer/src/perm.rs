//! Permutations of 0..u (specification, 7.8).

/// The longest list that can be a permutation: its entries are 16-bit numbers.
pub const LONGEST: usize = 1 << 16;

/// A list that holds each number below its length exactly once.
#[derive(Clone, Debug, PartialEq, Eq)]
pub struct Permutation(Vec<u16>);

impl Permutation {
    /// The list i ↦ i of length u.
    ///
    /// # Panics
    /// If u is above 65536.
    pub fn identity(u: usize) -> Self {
        assert!(u <= LONGEST);
        Permutation((0..u).map(|i| i as u16).collect())
    }

    /// Shuffles 0..u (specification, 7.8, getPermutation): for each number s in turn, the i-th from 0, swaps places i and
    /// i + (s mod (u - i)).
    ///
    /// # Panics
    /// If u is above 65536 or there are more than u numbers.
    pub fn shuffle(u: usize, numbers: &[u16]) -> Self {
        let mut list = Self::identity(u).0;
        for (i, &number) in numbers.iter().enumerate() {
            list.swap(i, i + usize::from(number) % (u - i));
        }
        Permutation(list)
    }

    /// Takes a list for a permutation if it is one.
    pub fn from_list(list: Vec<u16>) -> Option<Self> {
        // Of more than 65536 16-bit numbers some are equal.
        if list.len() > LONGEST {
            return None;
        }
        let mut seen = vec![false; list.len()];
        for &entry in &list {
            let mark = seen.get_mut(usize::from(entry))?;
            if std::mem::replace(mark, true) {
                return None;
            }
        }
        Some(Permutation(list))
    }

    /// The inverse (specification, 7.8, permu_inv): at place `P[i]` it holds i.
    pub fn inverse(&self) -> Self {
        let mut inverse = vec![0; self.0.len()];
        for (i, &image) in self.0.iter().enumerate() {
            inverse[usize::from(image)] = i as u16;
        }
        Permutation(inverse)
    }

    /// Permutes places as the specification's section 7.9 permutes columns: `new[j] = old[P[j]]`.
    ///
    /// # Panics
    /// If `old` does not have the permutation's length.
    pub fn apply<T: Copy>(&self, old: &[T]) -> Vec<T> {
        assert_eq!(old.len(), self.0.len());
        self.images().map(|image| old[image]).collect()
    }

    /// `P[i]`.
    pub fn image(&self, i: usize) -> usize {
        self.0[i].into()
    }

    /// `P[0]`, `P[1]`, and so on.
    pub fn images(&self) -> impl Iterator<Item = usize> + '_ {
        self.0.iter().map(|&image| image.into())
    }

    /// The list itself.
    pub fn list(&self) -> &[u16] {
        &self.0
    }
}

#[cfg(test)]
mod tests {
    use super::*;

    #[test]
    fn shuffle_of_the_specification() {
        let shuffled = Permutation::shuffle(5, &[3, 2]);
        assert_eq!(shuffled.list(), [3, 0, 2, 1, 4]);
        assert_eq!(shuffled.inverse().list(), [1, 3, 2, 0, 4]);
        assert_eq!(Permutation::shuffle(5, &[7]).image(0), 2);
        assert_eq!(Permutation::shuffle(3, &[]), Permutation::identity(3));
    }

    #[test]
    fn shuffles_are_permutations_and_inverses_undo_them() {
        for u in 1..40u16 {
            let numbers: Vec<u16> = (0..u - 1).map(|i| i.wrapping_mul(40503) ^ u).collect();
            let shuffled = Permutation::shuffle(u.into(), &numbers);
            let inverse = shuffled.inverse();
            assert_eq!(Permutation::from_list(shuffled.list().to_vec()), Some(shuffled.clone()));
            assert_eq!(shuffled.apply(inverse.list()), Permutation::identity(u.into()).list());
            assert_eq!(inverse.apply(shuffled.list()), Permutation::identity(u.into()).list());
        }
    }

    #[test]
    fn other_lists_are_no_permutations() {
        assert_eq!(Permutation::from_list(vec![0, 0]), None);
        assert_eq!(Permutation::from_list(vec![0, 2]), None);
        assert_eq!(Permutation::from_list(vec![1]), None);
        assert!(Permutation::from_list(vec![]).is_some());
        assert!(Permutation::from_list((0..=u16::MAX).rev().collect()).is_some());
        assert_eq!(Permutation::from_list(vec![0; LONGEST + 1]), None);
    }
}
