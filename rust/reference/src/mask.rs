//! The steps alpha, beta and gamma, their back steps, and lists of masks.

use crate::block::Block;
use crate::matrix::Matrix;
use std::sync::{LazyLock, OnceLock};

/// The steps by their step byte less 1: alpha, beta, gamma, then the three back steps.
static STEPS: LazyLock<[Powers; 6]> = LazyLock::new(|| {
    let alpha = alpha();
    let beta = alpha.add(&Matrix::identity());
    let gamma = alpha.mul(&alpha).add(&beta);
    let back = [alpha.inverse(), beta.inverse(), gamma.inverse()];
    let mut steps = [alpha, beta, gamma]
        .into_iter()
        .chain(back)
        .map(Powers::new);
    std::array::from_fn(|_| steps.next().expect("six steps"))
});

/// Words 1 to 15 move down. Word 0 rotated left by 53 and word 5 shifted left by 13 make word 15.
fn alpha() -> Matrix {
    Matrix::from_ones(|n| match (n / 64, n % 64) {
        (0, bit) => vec![15 * 64 + (bit + 53) % 64],
        (5, bit) if bit + 13 < 64 => vec![n - 64, 15 * 64 + bit + 13],
        _ => vec![n - 64],
    })
}

/// A matrix and its powers by repeated squaring, each computed when first asked for.
struct Powers {
    squares: [OnceLock<Matrix>; 17],
}

impl Powers {
    fn new(base: Matrix) -> Self {
        let squares: [OnceLock<Matrix>; 17] = std::array::from_fn(|_| OnceLock::new());
        squares[0].set(base).expect("empty cell");
        Self { squares }
    }

    /// The power 2^`k`.
    fn square(&self, k: usize) -> &Matrix {
        self.squares[k].get_or_init(|| {
            let root = self.square(k - 1);
            root.mul(root)
        })
    }

    /// `count` steps from `block`.
    fn steps(&self, count: u32, block: Block) -> Block {
        let set = (0..self.squares.len()).filter(|k| count >> k & 1 == 1);
        set.fold(block, |block, k| self.square(k).apply(&block))
    }
}

/// The block after the step with step byte `step`, 1 to 6.
pub fn step(step: u8, block: &Block) -> Block {
    STEPS[usize::from(step) - 1].square(0).apply(block)
}

/// The block after `counts` alpha, beta and gamma steps, back steps where negative.
pub fn jump(counts: [i32; 3], block: Block) -> Block {
    counts
        .iter()
        .enumerate()
        .fold(block, |block, (kind, &count)| {
            let powers = &STEPS[if count < 0 { kind + 3 } else { kind }];
            powers.steps(count.unsigned_abs(), block)
        })
}

/// The masks (0, `beta`, `gamma`) to (`last`, `beta`, `gamma`) of `start`.
///
/// All of them are windows of one run of words, since an alpha step adds one word at the end.
pub fn list(start: &Block, last: usize, beta: i32, gamma: i32) -> Vec<Block> {
    let mut run = jump([0, beta, gamma], *start).to_vec();
    for n in 0..last {
        run.push(run[n].rotate_left(53) ^ (run[n + 5] << 13));
    }
    run.windows(16)
        .map(|window| window.try_into().expect("sixteen words"))
        .collect()
}

#[cfg(test)]
mod tests {
    use super::*;
    use crate::block::ZERO;

    fn with_word(word: usize, value: u64) -> Block {
        let mut block = ZERO;
        block[word] = value;
        block
    }

    fn sample() -> Block {
        std::array::from_fn(|i| 0x0123_4567_89ab_cdef_u64.rotate_left(i as u32))
    }

    #[test]
    fn p3_to_p6_alpha() {
        assert_eq!(
            step(1, &with_word(0, 1)),
            with_word(15, 0x0020_0000_0000_0000)
        );
        assert_eq!(step(1, &with_word(0, 0x800)), with_word(15, 1));
        let mut expected = with_word(4, 1);
        expected[15] = 0x2000;
        assert_eq!(step(1, &with_word(5, 1)), expected);
        let lost = 0x0008_0000_0000_0000;
        assert_eq!(step(1, &with_word(5, lost)), with_word(4, lost));
    }

    #[test]
    fn p7_beta() {
        let mut expected = with_word(0, 1);
        expected[15] = 0x0020_0000_0000_0000;
        assert_eq!(step(2, &with_word(0, 1)), expected);
    }

    #[test]
    fn p8_back_alpha() {
        assert_eq!(step(4, &with_word(15, 1)), with_word(0, 0x800));
    }

    #[test]
    fn back_steps_undo() {
        let block = sample();
        for kind in 1..=3 {
            assert_eq!(step(kind + 3, &step(kind, &block)), block);
            assert_eq!(step(kind, &step(kind + 3, &block)), block);
        }
    }

    #[test]
    fn jumps_are_steps() {
        let block = sample();
        let walked = [4, 4, 4, 2, 2, 6]
            .iter()
            .fold(block, |block, &s| step(s, &block));
        assert_eq!(jump([-3, 2, -1], block), walked);
        assert_eq!(
            jump(
                [65_536, 65_536, -65_536],
                jump([-65_536, -65_536, 65_536], block)
            ),
            block
        );
    }

    #[test]
    fn lists_are_jumps() {
        let block = sample();
        for (i, mask) in list(&block, 40, 2, 1).into_iter().enumerate() {
            assert_eq!(mask, jump([i as i32, 2, 1], block));
        }
    }
}
