//! Blocks of sixteen 64-bit words, and the 128 bytes each stands for, low byte first.

/// Bytes in a block.
pub const BLOCK_LEN: usize = 128;

/// Sixteen words.
pub type Block = [u64; 16];

/// The block of zeros.
pub const ZERO: Block = [0; 16];

/// The block whose bytes are `bytes` and then zeros.
pub fn from_bytes(bytes: &[u8]) -> Block {
    assert!(bytes.len() <= BLOCK_LEN);
    let mut padded = [0; BLOCK_LEN];
    padded[..bytes.len()].copy_from_slice(bytes);
    let mut words = padded
        .chunks_exact(8)
        .map(|word| u64::from_le_bytes(word.try_into().expect("eight bytes")));
    std::array::from_fn(|_| words.next().expect("sixteen words"))
}

/// The bytes of `block`.
pub fn to_bytes(block: &Block) -> [u8; BLOCK_LEN] {
    let mut bytes = [0; BLOCK_LEN];
    for (place, word) in bytes.chunks_exact_mut(8).zip(block) {
        place.copy_from_slice(&word.to_le_bytes());
    }
    bytes
}

/// Exclusive or, word by word.
pub fn xor(a: &Block, b: &Block) -> Block {
    std::array::from_fn(|i| a[i] ^ b[i])
}

/// Exclusive or of all `blocks`; of none, zero.
pub fn sum(blocks: impl IntoIterator<Item = Block>) -> Block {
    blocks
        .into_iter()
        .fold(ZERO, |total, block| xor(&total, &block))
}

/// The whole blocks of `bytes`, and the 0 to 127 bytes left over.
pub fn split(bytes: &[u8]) -> (Vec<Block>, &[u8]) {
    let chunks = bytes.chunks_exact(BLOCK_LEN);
    let leftover = chunks.remainder();
    (chunks.map(from_bytes).collect(), leftover)
}

/// A leftover padded as OPP pads it: the byte 0x01, then zeros.
pub fn pad_one(leftover: &[u8]) -> Block {
    from_bytes(&[leftover, &[1]].concat())
}

#[cfg(test)]
mod tests {
    use super::*;

    #[test]
    fn bytes_and_words() {
        let bytes: Vec<u8> = (0..128).collect();
        let block = from_bytes(&bytes);
        assert_eq!(block[1], 0x0f0e_0d0c_0b0a_0908);
        assert_eq!(to_bytes(&block)[..], bytes);
    }

    #[test]
    fn p9_a_leftover_of_127_bytes_ends_in_one() {
        let padded = to_bytes(&pad_one(&[0xff; 127]));
        assert_eq!(padded[126], 0xff);
        assert_eq!(padded[127], 0x01);
    }

    #[test]
    fn no_leftover_no_extra_block() {
        assert_eq!(split(&[0; 256]), (vec![ZERO; 2], &[][..]));
        assert_eq!(split(&[]), (vec![], &[][..]));
    }
}
