//! Walk and jump over blocks and steps.

use crate::{slices, Refusal, BLOCK_LEN};
use core::slice;

/// A step of a mask.
#[derive(Clone, Copy, Debug, PartialEq, Eq, Hash)]
#[repr(u8)]
pub enum Step {
    /// One alpha step.
    Alpha = 1,
    /// One beta step.
    Beta = 2,
    /// One gamma step.
    Gamma = 3,
    /// One alpha step back.
    AlphaBack = 4,
    /// One beta step back.
    BetaBack = 5,
    /// One gamma step back.
    GammaBack = 6,
}

/// The block reached from `start` by taking each of `steps` in turn.
///
/// # Errors
///
/// [`Ground::TooManySteps`](crate::Ground::TooManySteps) over [`MAX_STEPS`](crate::MAX_STEPS).
///
/// # Examples
///
/// ```
/// use calmbaize::{walk, Refusal, Step};
///
/// let start = [1; 128];
/// let there = walk(&start, &[Step::Alpha, Step::Gamma])?;
/// assert_ne!(there, start);
/// assert_eq!(walk(&there, &[Step::AlphaBack, Step::GammaBack])?, start);
/// # Ok::<(), Refusal>(())
/// ```
pub fn walk(start: &[u8; BLOCK_LEN], steps: &[Step]) -> Result<[u8; BLOCK_LEN], Refusal> {
    let mut reached = [0; BLOCK_LEN];
    slices::walk(start, step_bytes(steps), &mut reached)?;
    Ok(reached)
}

/// The block after `alpha`, then `beta`, then `gamma` steps from `start`, back steps where a count
/// is negative.
///
/// # Errors
///
/// [`Ground::Count`](crate::Ground::Count) where a count is beyond
/// [`MAX_COUNT`](crate::MAX_COUNT) or its negative.
///
/// # Examples
///
/// ```
/// use calmbaize::{jump, walk, Refusal, Step};
///
/// let walked = walk(&[1; 128], &[Step::Alpha, Step::GammaBack, Step::Alpha])?;
/// assert_eq!(jump(&[1; 128], 2, 0, -1)?, walked);
/// # Ok::<(), Refusal>(())
/// ```
pub fn jump(
    start: &[u8; BLOCK_LEN],
    alpha: i32,
    beta: i32,
    gamma: i32,
) -> Result<[u8; BLOCK_LEN], Refusal> {
    let mut reached = [0; BLOCK_LEN];
    slices::jump(start, alpha, beta, gamma, &mut reached)?;
    Ok(reached)
}

fn step_bytes(steps: &[Step]) -> &[u8] {
    // SAFETY: a step is laid out as the byte that it stands for.
    unsafe { slice::from_raw_parts(steps.as_ptr().cast(), steps.len()) }
}
