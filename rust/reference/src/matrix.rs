//! 1024 by 1024 matrices over GF(2), acting on the bits of a block.

use crate::block::{sum, xor, Block, ZERO};

/// Bits of a block, and so rows and columns of a matrix.
pub const BITS: usize = 1024;

/// A matrix by columns: column `n` is the image of the block in which only bit `n` is set.
#[derive(Clone, Debug, PartialEq, Eq)]
pub struct Matrix {
    columns: Vec<Block>,
}

impl Matrix {
    /// The matrix with column `n` made of the bits that `ones(n)` lists.
    pub fn from_ones(ones: impl Fn(usize) -> Vec<usize>) -> Self {
        let columns = (0..BITS)
            .map(|n| sum(ones(n).into_iter().map(unit)))
            .collect();
        Self { columns }
    }

    /// The matrix that changes nothing.
    pub fn identity() -> Self {
        Self::from_ones(|n| vec![n])
    }

    /// Sum of two matrices.
    pub fn add(&self, other: &Self) -> Self {
        let pairs = self.columns.iter().zip(&other.columns);
        Self {
            columns: pairs.map(|(a, b)| xor(a, b)).collect(),
        }
    }

    /// The matrix that applies `other` and then `self`.
    pub fn mul(&self, other: &Self) -> Self {
        Self {
            columns: other
                .columns
                .iter()
                .map(|column| self.apply(column))
                .collect(),
        }
    }

    /// The image of `block`.
    pub fn apply(&self, block: &Block) -> Block {
        let mut image = ZERO;
        for (word, columns) in block.iter().zip(self.columns.chunks_exact(64)) {
            let mut rest = *word;
            while rest != 0 {
                image = xor(&image, &columns[rest.trailing_zeros() as usize]);
                rest &= rest - 1;
            }
        }
        image
    }

    /// The inverse, by Gauss-Jordan elimination over the columns.
    ///
    /// # Panics
    ///
    /// If the matrix has none.
    pub fn inverse(&self) -> Self {
        let mut left = self.columns.clone();
        let mut right = Self::identity().columns;
        for n in 0..BITS {
            let pivot = (n..BITS)
                .find(|&c| bit(&left[c], n))
                .expect("singular matrix");
            left.swap(n, pivot);
            right.swap(n, pivot);
            let (left_pivot, right_pivot) = (left[n], right[n]);
            for c in (0..BITS).filter(|&c| c != n) {
                if bit(&left[c], n) {
                    left[c] = xor(&left[c], &left_pivot);
                    right[c] = xor(&right[c], &right_pivot);
                }
            }
        }
        Self { columns: right }
    }
}

fn unit(n: usize) -> Block {
    let mut block = ZERO;
    block[n / 64] = 1 << (n % 64);
    block
}

fn bit(block: &Block, n: usize) -> bool {
    block[n / 64] >> (n % 64) & 1 == 1
}

#[cfg(test)]
mod tests {
    use super::*;

    #[test]
    fn inverse_of_a_cycle_with_a_chord() {
        let m = Matrix::from_ones(|n| match n {
            7 => vec![8, 500],
            _ => vec![(n + 1) % BITS],
        });
        assert_eq!(m.mul(&m.inverse()), Matrix::identity());
        assert_eq!(m.inverse().mul(&m), Matrix::identity());
    }

    #[test]
    fn a_product_applies_its_right_factor_first() {
        let a = Matrix::from_ones(|n| vec![(n + 3) % BITS, 9]);
        let b = Matrix::from_ones(|n| vec![BITS - 1 - n]);
        let block: Block = std::array::from_fn(|i| 0x1234_5678_9abc_def1_u64.rotate_left(i as u32));
        assert_eq!(a.mul(&b).apply(&block), a.apply(&b.apply(&block)));
        assert_eq!(
            a.add(&b).apply(&block),
            xor(&a.apply(&block), &b.apply(&block))
        );
    }
}
