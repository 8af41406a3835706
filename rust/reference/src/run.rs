//! The run of words that seal_run and open_run leave in a lent buffer.
//!
//! The masks that this implementation seals with are not taken from it, so that a wrong run and a
//! wrong mask are two faults.

use crate::block::{Block, BLOCK_LEN};

/// Words of the run behind the count of whole blocks.
const MORE: usize = 21;

/// Words of the run of a call: the whole blocks of header or message, the larger count, and 21.
pub fn run_len(header_len: usize, message_len: usize) -> usize {
    header_len.max(message_len) / BLOCK_LEN + MORE
}

/// The first `len` words of the run of `start`. In a ring of sixteen, each word gives its place to
/// the one that stands sixteen further on.
pub fn words(start: &Block, len: usize) -> Vec<u64> {
    let mut ring = *start;
    let word = |n: usize| {
        let fifth = ring[(n + 5) % 16];
        let place = &mut ring[n % 16];
        std::mem::replace(place, place.rotate_left(53) ^ (fifth << 13))
    };
    (0..len).map(word).collect()
}

#[cfg(test)]
mod tests {
    use super::*;
    use crate::mask::jump;

    fn sample() -> Block {
        std::array::from_fn(|i| 0x9e37_79b9_7f4a_7c15_u64.wrapping_mul(i as u64 + 1))
    }

    #[test]
    fn the_rule() {
        let run = words(&sample(), 533);
        assert_eq!(run[..16], sample());
        for n in 0..533 - 16 {
            assert_eq!(run[n + 16], run[n].rotate_left(53) ^ (run[n + 5] << 13));
        }
    }

    /// The mask after `n` alpha steps, and the beta and gamma masks there.
    #[test]
    fn masks_of_a_run() {
        let run = words(&sample(), 533);
        for n in 0..=533 - 18 {
            let mask: Block = std::array::from_fn(|t| run[n + t]);
            let beta: Block = std::array::from_fn(|t| run[n + t + 1] ^ run[n + t]);
            let gamma: Block =
                std::array::from_fn(|t| run[n + t + 2] ^ run[n + t + 1] ^ run[n + t]);
            let alphas = n as i32;
            assert_eq!(mask, jump([alphas, 0, 0], sample()));
            assert_eq!(beta, jump([alphas, 1, 0], sample()));
            assert_eq!(gamma, jump([alphas, 0, 1], sample()));
        }
    }

    #[test]
    fn lengths() {
        for (header_len, message_len, len) in [
            (0, 0, 21),
            (127, 127, 21),
            (128, 0, 22),
            (0, 128, 22),
            (255, 256, 23),
            (4096, 0, 53),
            (4096, 65_407, 531),
            (4096, 65_408, 532),
            (0, 65_536, 533),
        ] {
            assert_eq!(run_len(header_len, message_len), len);
        }
    }
}
