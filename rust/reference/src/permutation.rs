//! The BLAKE2b permutation, four lanes at a time.
//!
//! The sixteen words stand as four rows of four. `G` runs over the four columns at once; rotating
//! the rows turns the diagonals into columns.

use crate::block::Block;

type Row = [u64; 4];
type Rows = [Row; 4];

/// `rounds` rounds.
pub fn permute(rounds: u32, block: &Block) -> Block {
    join((0..rounds).fold(split(block), |rows, _| round(rows)))
}

/// The block that `rounds` rounds take to `block`.
pub fn unpermute(rounds: u32, block: &Block) -> Block {
    join((0..rounds).fold(split(block), |rows, _| unround(rows)))
}

fn round(rows: Rows) -> Rows {
    shift(mix(shift(mix(rows), [0, 1, 2, 3])), [0, 3, 2, 1])
}

fn unround(rows: Rows) -> Rows {
    unmix(shift(unmix(shift(rows, [0, 1, 2, 3])), [0, 3, 2, 1]))
}

/// `G` in each lane.
fn mix(rows: Rows) -> Rows {
    half(half(rows, 32, 24), 16, 63)
}

fn unmix(rows: Rows) -> Rows {
    unhalf(unhalf(rows, 16, 63), 32, 24)
}

/// Four of `G`'s eight lines.
fn half([a, b, c, d]: Rows, d_bits: u32, b_bits: u32) -> Rows {
    let a = lanes(a, b, u64::wrapping_add);
    let d = lanes(d, a, |d, a| (d ^ a).rotate_right(d_bits));
    let c = lanes(c, d, u64::wrapping_add);
    let b = lanes(b, c, |b, c| (b ^ c).rotate_right(b_bits));
    [a, b, c, d]
}

/// The same four lines undone, the last one first.
fn unhalf([a, b, c, d]: Rows, d_bits: u32, b_bits: u32) -> Rows {
    let b = lanes(b, c, |b, c| b.rotate_left(b_bits) ^ c);
    let c = lanes(c, d, u64::wrapping_sub);
    let d = lanes(d, a, |d, a| d.rotate_left(d_bits) ^ a);
    let a = lanes(a, b, u64::wrapping_sub);
    [a, b, c, d]
}

fn lanes(x: Row, y: Row, f: impl Fn(u64, u64) -> u64) -> Row {
    std::array::from_fn(|i| f(x[i], y[i]))
}

/// Each row moved left by its number of lanes.
fn shift(rows: Rows, by: [usize; 4]) -> Rows {
    std::array::from_fn(|r| std::array::from_fn(|i| rows[r][(i + by[r]) % 4]))
}

fn split(block: &Block) -> Rows {
    std::array::from_fn(|r| std::array::from_fn(|i| block[4 * r + i]))
}

fn join(rows: Rows) -> Block {
    std::array::from_fn(|i| rows[i / 4][i % 4])
}

#[cfg(test)]
mod tests {
    use super::*;
    use crate::block::ZERO;

    #[test]
    fn p1_g_of_one() {
        let rows = mix([[1, 0, 0, 0], [0; 4], [0; 4], [0; 4]]);
        assert_eq!(rows[0][0], 0x101);
        assert_eq!(rows[1][0], 0x0202_0002_0002_0200);
        assert_eq!(rows[2][0], 0x0101_0001_0001_0000);
        assert_eq!(rows[3][0], 0x0101_0000_0001_0000);
    }

    #[test]
    fn p2_a_round_of_zero_is_zero() {
        assert_eq!(permute(1, &ZERO), ZERO);
    }

    #[test]
    fn groups_are_columns_then_diagonals() {
        // Group by group, as section 8 of the paper lists them.
        let groups = [
            [0, 4, 8, 12],
            [1, 5, 9, 13],
            [2, 6, 10, 14],
            [3, 7, 11, 15],
            [0, 5, 10, 15],
            [1, 6, 11, 12],
            [2, 7, 8, 13],
            [3, 4, 9, 14],
        ];
        let block: Block = std::array::from_fn(|i| 0x9e37_79b9_7f4a_7c15_u64.rotate_left(i as u32));
        let mut expected = block;
        for group in groups {
            let lane = mix(group.map(|word| [expected[word], 0, 0, 0]));
            for (word, row) in group.into_iter().zip(lane) {
                expected[word] = row[0];
            }
        }
        assert_eq!(permute(1, &block), expected);
    }

    #[test]
    fn undone() {
        let block: Block = std::array::from_fn(|i| 0x0123_4567_89ab_cdef << i);
        for rounds in 1..=12 {
            assert_eq!(unpermute(rounds, &permute(rounds, &block)), block);
            assert_eq!(permute(rounds, &unpermute(rounds, &block)), block);
        }
    }
}
