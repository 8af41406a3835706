//! OPP and MRO, each a function of whole messages.

use crate::block::{from_bytes, pad_one, split, sum, to_bytes, xor, Block, BLOCK_LEN, ZERO};
use crate::mask;
use crate::permutation::{permute, unpermute};
use crate::run;

/// Bytes of a tag.
pub const TAG_LEN: usize = 32;

/// What stands in words 10 and 11 of the block that the start is made of.
#[derive(Clone, Copy, Debug, PartialEq, Eq)]
pub enum Start {
    /// The round count and the tag's bits, as section 8 has it: the start of all sealing.
    New,
    /// Zeros, as section 4 has it: only opened.
    Old,
}

/// A key and a nonce under one start and round count.
pub struct Cipher {
    rounds: u32,
    start: Block,
}

impl Cipher {
    /// Nonce in words 0 and 1, key in words 12 to 15.
    pub fn new(start: Start, rounds: u32, key: &[u8], nonce: &[u8]) -> Self {
        let words = match start {
            Start::New => [u64::from(rounds), 8 * TAG_LEN as u64],
            Start::Old => [0; 2],
        };
        let words = words.map(u64::to_le_bytes).concat();
        let block = from_bytes(&[nonce, &[0; 64], &words, key].concat());
        Self {
            rounds,
            start: permute(rounds, &block),
        }
    }

    /// The first `len` words of the start's run.
    pub fn run(&self, len: usize) -> Vec<u64> {
        run::words(&self.start, len)
    }

    fn masks(&self, last: usize, beta: i32, gamma: i32) -> Vec<Block> {
        mask::list(&self.start, last, beta, gamma)
    }

    fn mask(&self, alpha: usize, beta: i32, gamma: i32) -> Block {
        self.masks(alpha, beta, gamma)[alpha]
    }

    /// E under `mask`.
    fn encrypt(&self, mask: &Block, block: &Block) -> Block {
        xor(&permute(self.rounds, &xor(block, mask)), mask)
    }

    /// D under `mask`.
    fn decrypt(&self, mask: &Block, block: &Block) -> Block {
        xor(&unpermute(self.rounds, &xor(block, mask)), mask)
    }

    /// The sum of E(i, `beta`, 0) over `blocks`.
    fn absorb(&self, blocks: &[Block], beta: i32) -> Block {
        let masks = self.masks(blocks.len(), beta, 0);
        sum(blocks
            .iter()
            .zip(&masks)
            .map(|(block, mask)| self.encrypt(mask, block)))
    }

    /// OPP's ciphertext of `message`.
    pub fn opp_encrypt(&self, message: &[u8]) -> Vec<u8> {
        self.opp_transform(message, Self::encrypt)
    }

    /// OPP's message of `ciphertext`.
    pub fn opp_decrypt(&self, ciphertext: &[u8]) -> Vec<u8> {
        self.opp_transform(ciphertext, Self::decrypt)
    }

    fn opp_transform(&self, text: &[u8], cipher: fn(&Self, &Block, &Block) -> Block) -> Vec<u8> {
        let (blocks, leftover) = split(text);
        let masks = self.masks(blocks.len(), 0, 1);
        let whole = blocks
            .iter()
            .zip(&masks)
            .map(|(block, mask)| cipher(self, mask, block));
        let mut result: Vec<u8> = whole.flat_map(|block| to_bytes(&block)).collect();
        let pad = to_bytes(&self.encrypt(&self.mask(blocks.len(), 1, 1), &ZERO));
        result.extend(leftover.iter().zip(&pad).map(|(byte, pad)| byte ^ pad));
        result
    }

    /// OPP's tag of a header and a message.
    pub fn opp_tag(&self, header: &[u8], message: &[u8]) -> Vec<u8> {
        let (header_blocks, header_leftover) = split(header);
        let mut total = self.absorb(&header_blocks, 0);
        if !header_leftover.is_empty() {
            let mask = self.mask(header_blocks.len(), 1, 0);
            total = xor(&total, &self.encrypt(&mask, &pad_one(header_leftover)));
        }
        let (mut blocks, leftover) = split(message);
        let count = blocks.len();
        let mut beta = 2;
        if !leftover.is_empty() {
            blocks.push(pad_one(leftover));
            beta = 3;
        }
        let check = self.encrypt(&self.mask(count, beta, 1), &sum(blocks));
        first_bytes(&xor(&total, &check))
    }

    /// MRO's tag of a header and a message.
    pub fn mro_tag(&self, header: &[u8], message: &[u8]) -> Vec<u8> {
        let mut total = xor(
            &self.absorb(&zero_padded(header), 0),
            &self.absorb(&zero_padded(message), 1),
        );
        total[14] ^= header.len() as u64;
        total[15] ^= message.len() as u64;
        first_bytes(&self.encrypt(&self.mask(0, 2, 0), &total))
    }

    /// MRO's ciphertext of a message, and its message of a ciphertext, under `tag`.
    pub fn mro_transform(&self, tag: &[u8], text: &[u8]) -> Vec<u8> {
        let mask = self.mask(0, 0, 1);
        let stream = (0..text.len().div_ceil(BLOCK_LEN)).flat_map(|i| {
            let mut counter = from_bytes(tag);
            counter[15] = i as u64;
            to_bytes(&self.encrypt(&mask, &counter))
        });
        text.iter()
            .zip(stream)
            .map(|(byte, pad)| byte ^ pad)
            .collect()
    }
}

/// The blocks of `bytes`, a leftover padded with zeros.
fn zero_padded(bytes: &[u8]) -> Vec<Block> {
    bytes.chunks(BLOCK_LEN).map(from_bytes).collect()
}

fn first_bytes(block: &Block) -> Vec<u8> {
    to_bytes(block)[..TAG_LEN].to_vec()
}
