//! The permutation within BLAKE2b. A block of zeros adds no message word anywhere, so that twelve
//! rounds of the permutation are the whole compression of it.

use reference::permute;

const IV: [u64; 8] = [
    0x6a09_e667_f3bc_c908,
    0xbb67_ae85_84ca_a73b,
    0x3c6e_f372_fe94_f82b,
    0xa54f_f53a_5f1d_36f1,
    0x510e_527f_ade6_82d1,
    0x9b05_688c_2b3e_6c1f,
    0x1f83_d9ab_fb41_bd6b,
    0x5be0_cd19_137e_2179,
];

/// BLAKE2b-512 of `len` zero bytes, at most a block of them.
fn digest_of_zeros(len: u64) -> String {
    let mut h = IV;
    h[0] ^= 0x0101_0040;
    let mut v = [0; 16];
    v[..8].copy_from_slice(&h);
    v[8..].copy_from_slice(&IV);
    v[12] ^= len;
    v[14] = !v[14];
    let v = permute(12, &v);
    let words = (0..8).map(|i| h[i] ^ v[i] ^ v[i + 8]);
    words
        .flat_map(u64::to_le_bytes)
        .map(|byte| format!("{byte:02x}"))
        .collect()
}

#[test]
fn empty_message() {
    assert_eq!(
        digest_of_zeros(0),
        "786a02f742015903c6c6fd852552d272912f4740e15847618a86e217f71f5419\
         d25e1031afee585313896444934eb04b903a685b1448b755d56f701afe9be2ce"
    );
}

#[test]
fn a_block_of_zeros() {
    assert_eq!(
        digest_of_zeros(128),
        "865939e120e6805438478841afb739ae4250cf372653078a065cdcfffca4caf7\
         98e6d462b65d658fc165782640eded70963449ae1500fb0f24981d7727e22c41"
    );
}
