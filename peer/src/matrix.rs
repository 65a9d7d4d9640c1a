//! Matrices over the field (specification, 7.9): a list of rows, each a list of elements.

use crate::field::{add_multiple, inv, mul, scale};
use crate::perm::Permutation;

/// A two-by-two block [a, b; c, d].
pub type Block = [[u16; 2]; 2];

/// ad - bc.
pub fn determinant([[a, b], [c, d]]: Block) -> u16 {
    mul(a, d) ^ mul(b, c)
}

/// The inverse of a block: [d, -b; -c, a] over the determinant.
///
/// # Panics
/// If the determinant is zero.
pub fn inverse_block(block: Block) -> Block {
    let [[a, b], [c, d]] = block;
    let factor = inv(determinant(block));
    [[mul(d, factor), mul(b, factor)], [mul(c, factor), mul(a, factor)]]
}

/// A matrix with at least one row, or the matrix without rows and columns.
#[derive(Clone, Debug, PartialEq, Eq)]
pub struct Matrix {
    rows: Vec<Vec<u16>>,
}

impl Matrix {
    /// The matrix with `entry(i, j)` in row i and column j.
    pub fn from_fn(rows: usize, columns: usize, entry: impl Fn(usize, usize) -> u16) -> Self {
        let row = |i| (0..columns).map(|j| entry(i, j)).collect();
        Matrix {
            rows: (0..rows).map(row).collect(),
        }
    }

    /// The matrix whose elements, row after row, are given.
    ///
    /// # Panics
    /// If the elements do not fill whole rows.
    pub fn from_elements(columns: usize, elements: &[u16]) -> Self {
        assert_eq!(elements.len() % columns, 0);
        Matrix {
            rows: elements.chunks(columns).map(<[u16]>::to_vec).collect(),
        }
    }

    /// The elements, row after row.
    pub fn elements(&self) -> Vec<u16> {
        self.rows.concat()
    }

    /// The rows.
    pub fn rows(&self) -> &[Vec<u16>] {
        &self.rows
    }

    /// The entry in row i and column j.
    pub fn entry(&self, i: usize, j: usize) -> u16 {
        self.rows[i][j]
    }

    /// The matrix with each row replaced.
    fn map_rows(&self, new: impl Fn(&[u16]) -> Vec<u16>) -> Self {
        Matrix {
            rows: self.rows.iter().map(|row| new(row)).collect(),
        }
    }

    /// Multiplies column j by the j-th factor (specification, 6.1.3 step 15).
    pub fn scale_columns(&self, factors: &[u16]) -> Self {
        self.map_rows(|row| row.iter().zip(factors).map(|(&a, &b)| mul(a, b)).collect())
    }

    /// Permutes columns: new column j is old column `P[j]` (specification, 7.9, matrix_col_permutation).
    pub fn permute_columns(&self, permutation: &Permutation) -> Self {
        self.map_rows(|row| permutation.apply(row))
    }

    /// Puts column j of `random` after column n - w + j of this matrix, where n and w are the numbers of columns
    /// (specification, 7.9, matrix_join, with `R[i][j]` where it writes `R[i][d+j]`).
    pub fn join(&self, random: &Matrix) -> Self {
        let join_rows = |row: &[u16], random: &[u16]| {
            let (unmixed, first_halves) = row.split_at(row.len() - random.len());
            let pairs = first_halves.iter().zip(random);
            let mut joined = unmixed.to_vec();
            joined.extend(pairs.flat_map(|(&left, &right)| [left, right]));
            joined
        };
        let rows = self.rows.iter().zip(&random.rows);
        Matrix {
            rows: rows.map(|(row, random)| join_rows(row, random)).collect(),
        }
    }

    /// Multiplies the last columns, pair by pair, by the blocks from the right (specification, 7.9, matrix_mul_A).
    pub fn multiply_pairs(&self, blocks: &[Block]) -> Self {
        self.map_rows(|row| {
            let (unmixed, pairs) = row.split_at(row.len() - 2 * blocks.len());
            let mut product = unmixed.to_vec();
            for (pair, [[a, b], [c, d]]) in pairs.chunks_exact(2).zip(blocks) {
                product.push(mul(pair[0], *a) ^ mul(pair[1], *c));
                product.push(mul(pair[0], *b) ^ mul(pair[1], *d));
            }
            product
        })
    }

    /// The row vector times this matrix.
    ///
    /// # Panics
    /// If the vector has not as many elements as the matrix has rows.
    pub fn times_from_left(&self, vector: &[u16]) -> Vec<u16> {
        assert_eq!(vector.len(), self.rows.len());
        let columns = self.rows.first().map_or(0, Vec::len);
        let mut product = vec![0; columns];
        for (&element, row) in vector.iter().zip(&self.rows) {
            add_multiple(&mut product, element, row);
        }
        product
    }

    /// Reduces a matrix of k rows to [I, E] by row operations and answers E; `None` if its first k columns are
    /// dependent.
    ///
    /// [I, E] does not depend on the order of operations. This is forward elimination, which leaves ones on the
    /// diagonal and zeros below it, then back substitution, which needs to touch only E.
    pub fn systematic(mut self) -> Option<Self> {
        let k = self.rows.len();
        for column in 0..k {
            let pivot = (column..k).find(|&row| self.rows[row][column] != 0)?;
            self.rows.swap(column, pivot);
            let (done, below) = self.rows.split_at_mut(column + 1);
            let pivot_row = &mut done[column][column..];
            scale(pivot_row, inv(pivot_row[0]));
            for row in below {
                let factor = row[column];
                add_multiple(&mut row[column..], factor, pivot_row);
            }
        }
        for column in (0..k).rev() {
            let (above, rest) = self.rows.split_at_mut(column);
            let pivot_row = &rest[0][k..];
            for row in above {
                let factor = row[column];
                add_multiple(&mut row[k..], factor, pivot_row);
            }
        }
        Some(self.map_rows(|row| row[k..].to_vec()))
    }

    /// The inverse of a square matrix, or `None` if it is singular. The empty matrix is its own inverse.
    pub fn inverse(&self) -> Option<Self> {
        let size = self.rows.len();
        let beside_identity = Matrix::from_fn(size, 2 * size, |i, j| {
            if j < size {
                self.rows[i][j]
            } else {
                (j - size == i).into()
            }
        });
        beside_identity.systematic()
    }
}

#[cfg(test)]
mod tests {
    use super::*;
    use crate::field::alpha;

    /// A square matrix with (α^i)^j in row i and column j: not singular, as its points differ.
    fn vandermonde(size: usize) -> Matrix {
        Matrix::from_fn(size, size, |i, j| alpha(i * j))
    }

    fn identity(size: usize) -> Matrix {
        Matrix::from_fn(size, size, |i, j| (i == j).into())
    }

    fn product(a: &Matrix, b: &Matrix) -> Matrix {
        a.map_rows(|row| b.times_from_left(row))
    }

    #[test]
    fn blocks_have_inverses() {
        let block = [[1, 1], [1, 2]];
        assert_eq!(determinant(block), 3);
        let as_matrix = |[a, b]: Block| Matrix {
            rows: vec![a.to_vec(), b.to_vec()],
        };
        let undone = product(&as_matrix(block), &as_matrix(inverse_block(block)));
        assert_eq!(undone, identity(2));
    }

    #[test]
    fn inverse_times_matrix_is_identity() {
        for size in 0..30 {
            let matrix = vandermonde(size);
            let inverse = matrix.inverse().unwrap();
            assert_eq!(product(&matrix, &inverse), identity(size));
            assert_eq!(product(&inverse, &matrix), identity(size));
        }
    }

    #[test]
    fn singular_matrices_have_no_inverse() {
        assert_eq!(Matrix::from_fn(3, 3, |_, _| 0).inverse(), None);
        let mut equal_rows = vandermonde(5);
        equal_rows.rows[4] = equal_rows.rows[1].clone();
        assert_eq!(equal_rows.inverse(), None);
        assert_eq!(equal_rows.systematic(), None);
    }

    #[test]
    fn systematic_form_keeps_the_row_space() {
        // [A, B] becomes [I, E] with A · E = B, also where a pivot has to be fetched from below.
        let mut a = vandermonde(6);
        a.rows[0][0] = 0;
        let b = Matrix::from_fn(6, 4, |i, j| alpha(17 * i + 5 * j * j + 3));
        let both = Matrix::from_fn(6, 10, |i, j| if j < 6 { a.entry(i, j) } else { b.entry(i, j - 6) });
        let e = both.systematic().unwrap();
        assert_eq!(product(&a, &e), b);
    }

    #[test]
    fn joining_and_pairs() {
        let matrix = Matrix::from_elements(3, &[1, 2, 3, 4, 5, 6]);
        let random = Matrix::from_elements(2, &[7, 8, 9, 10]);
        let joined = matrix.join(&random);
        assert_eq!(joined.elements(), [1, 2, 7, 3, 8, 4, 5, 9, 6, 10]);
        let blocks = [[[1, 0], [0, 1]], [[0, 1], [1, 1]]];
        let multiplied = joined.multiply_pairs(&blocks);
        assert_eq!(multiplied.elements(), [1, 2, 7, 8, 3 ^ 8, 4, 5, 9, 10, 6 ^ 10]);
        let undone = multiplied.multiply_pairs(&blocks.map(inverse_block));
        assert_eq!(undone, joined);
    }

    #[test]
    fn columns_are_scaled_and_permuted() {
        let matrix = Matrix::from_elements(3, &[1, 2, 3, 4, 5, 6]);
        let scaled = matrix.scale_columns(&[1, 2, 0]);
        assert_eq!(scaled.elements(), [1, 4, 0, 4, 10, 0]);
        let permutation = Permutation::from_list(vec![2, 0, 1]).unwrap();
        assert_eq!(matrix.permute_columns(&permutation).elements(), [3, 1, 2, 6, 4, 5]);
    }
}
