//! The figures of the paper's section 3.6.3: the polynomial and the two logarithms for 1,024 bits.

use reference::{walk, Block};

/// The exponents of the polynomial whose root alpha is.
const EXPONENTS: [usize; 9] = [1024, 901, 695, 572, 409, 366, 203, 163, 0];

/// The logarithm of t^2 + t + 1 in base t. The fifth line of the copy at hand has lost a digit: it
/// reads "...2335528..." where "...23355528..." is the one insertion that makes the figure right.
const LOG_GAMMA: &str = "\
    1610056439189028793452144461315558447020117376432642\
    5524859486238161374654279717800300706136749607630601\
    4967362673777547140089938700144112424081388711871290\
    7973319251629628361398267351880948069161459793052257\
    1907117948291164323355528169854354396482029507781947\
    2534171313076937775797909159788879361876099888834";

/// The logarithm of t + 1 as the copy at hand has it. Its leading digits fit the distance of
/// 2^1020.58 in the paper's lemma 4, but the figure is wrong further on, by more than four digits
/// exchanged for others or two digits moved elsewhere.
const LOG_BETA_AS_PRINTED: &str = "\
    3560313810702380168941895068061768846768652879916524\
    2796753456565509842707655755413753100620979021885720\
    1966785351480307697311709456831372018598499174441196\
    1470332602216161583378362583657570756631024935927984\
    2498272238699528576230685242805763938951155448167387\
    149681903876406067502645471152193264955124750148";

fn block_from(bytes: &[u8]) -> Block {
    let mut words = bytes
        .chunks_exact(8)
        .map(|word| u64::from_le_bytes(word.try_into().unwrap()));
    std::array::from_fn(|_| words.next().unwrap())
}

fn bytes_from(block: &Block) -> Vec<u8> {
    block.iter().flat_map(|word| word.to_le_bytes()).collect()
}

fn samples() -> Vec<Block> {
    let mut samples: Vec<Block> = (0..4)
        .map(|n| std::array::from_fn(|i| 0x9e37_79b9_7f4a_7c15_u64.rotate_left(i as u32 * 5 + n)))
        .collect();
    samples.push(std::array::from_fn(|i| u64::from(i == 0)));
    samples
}

/// The polynomial in `alpha`, applied to `block`.
fn evaluate(alpha: impl Fn(&Block) -> Block, block: Block) -> Block {
    let mut total = [0; 16];
    let mut power = block;
    for exponent in 0..=1024 {
        if EXPONENTS.contains(&exponent) {
            total = std::array::from_fn(|i| total[i] ^ power[i]);
        }
        power = alpha(&power);
    }
    total
}

fn walked(block: &Block) -> Block {
    let mut output = [0; 128];
    walk(&bytes_from(block), &[1], &mut output).unwrap();
    block_from(&output)
}

fn with_two_rotations(block: &Block) -> Block {
    let mut result: Block = std::array::from_fn(|i| block[(i + 1) % 16]);
    result[15] = block[0].rotate_left(53) ^ block[5].rotate_left(13);
    result
}

#[test]
fn the_polynomial_takes_every_block_to_zero_under_alpha() {
    for block in samples() {
        assert_eq!(evaluate(walked, block), [0; 16]);
    }
}

#[test]
fn and_not_under_the_form_with_two_rotations() {
    for block in samples() {
        assert_ne!(evaluate(with_two_rotations, block), [0; 16]);
    }
}

/// The bits of a decimal number below 2^1024, the highest first.
fn bits(decimal: &str) -> Vec<bool> {
    let mut value = [0u64; 16];
    for digit in decimal.bytes() {
        let mut carry = u128::from(digit - b'0');
        for limb in &mut value {
            carry += u128::from(*limb) * 10;
            *limb = carry as u64;
            carry >>= 64;
        }
        assert_eq!(carry, 0);
    }
    (0..1024)
        .rev()
        .map(|n| value[n / 64] >> (n % 64) & 1 == 1)
        .collect()
}

/// t to the power `exponent`, a polynomial in t below degree 1,024, by its coefficients.
fn power_of_t(exponent: &[bool]) -> Vec<bool> {
    let mut power = vec![false; 1024];
    power[0] = true;
    for &bit in exponent {
        let mut product = vec![false; 2049];
        for (n, &coefficient) in power.iter().enumerate() {
            product[2 * n + usize::from(bit)] = coefficient;
        }
        for top in (1024..product.len()).rev() {
            if product[top] {
                for exponent in EXPONENTS {
                    product[top - 1024 + exponent] ^= true;
                }
            }
        }
        product.truncate(1024);
        power = product;
    }
    power
}

/// The exponents of t to the power `decimal`.
fn exponents_of_power(decimal: &str) -> Vec<usize> {
    let power = power_of_t(&bits(decimal));
    (0..1024).filter(|&n| power[n]).collect()
}

#[test]
fn the_logarithm_of_gamma() {
    assert_eq!(exponents_of_power(LOG_GAMMA), [0, 1, 2]);
}

#[test]
fn the_logarithm_of_beta_can_not_be_matched() {
    assert_ne!(exponents_of_power(LOG_BETA_AS_PRINTED), [0, 1]);
}
