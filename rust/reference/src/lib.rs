//! OPP and MRO over a masked BLAKE2b permutation, written to be compared with.
//!
//! This is the second implementation: it shares no code and no table with the proved one and is
//! written in another style. Whole messages are handled at once, masks are windows of one run of
//! words, the steps and their back steps are bit matrices, and powers of those give jumps.
//!
//! Each entry point takes the arguments of the C call of the same name and returns its value, or the
//! number and the place of a refusal.

mod block;
mod mask;
mod maskwalk;
mod matrix;
mod mode;
mod permutation;
mod run;
pub mod store;

pub use block::{Block, BLOCK_LEN};
pub use maskwalk::maskwalk;
pub use mode::{Start, TAG_LEN};
pub use permutation::{permute, unpermute};
pub use run::run_len;

use mode::Cipher;

/// The mode OPP.
pub const OPP: u32 = 1;
/// The mode MRO.
pub const MRO: u32 = 2;
/// The round counts that seal and open take.
pub const ROUNDS: &[u32] = &[4, 6, 8, 12];
/// Bytes of a key.
pub const KEY_LEN: usize = 32;
/// Bytes of a nonce.
pub const NONCE_LEN: usize = 16;
/// The longest header.
pub const MAX_HEADER_LEN: usize = 4096;
/// The longest message.
pub const MAX_MESSAGE_LEN: usize = 65_536;
/// The longest list of steps.
pub const MAX_STEPS: usize = 4096;
/// The largest net count, and with a minus sign the smallest.
pub const MAX_COUNT: u32 = 65_536;

/// The number of a refusal and its place.
pub type Refusal = (u32, u32);

/// Every mode with every round count.
pub fn settings() -> impl Iterator<Item = (u32, u32)> {
    [OPP, MRO]
        .into_iter()
        .flat_map(|mode| ROUNDS.iter().map(move |&rounds| (mode, rounds)))
}

/// These under either start: the sixteen settings, in the order in which a diagnosis tries them.
pub fn all_settings() -> Vec<(Start, (u32, u32))> {
    let under = |start| settings().map(move |setting| (start, setting));
    [Start::New, Start::Old]
        .into_iter()
        .flat_map(under)
        .collect()
}

/// Seals `message` into `output`.
pub fn seal(
    mode: u32,
    rounds: u32,
    key: &[u8],
    nonce: &[u8],
    header: &[u8],
    message: &[u8],
    output: &mut [u8],
) -> Result<usize, Refusal> {
    let inputs = [key, nonce, header, message];
    seal_under(Start::New, mode, rounds, inputs, output)
}

/// Opens `parcel` into `output`.
pub fn open(
    mode: u32,
    rounds: u32,
    key: &[u8],
    nonce: &[u8],
    header: &[u8],
    parcel: &[u8],
    output: &mut [u8],
) -> Result<usize, Refusal> {
    let inputs = [key, nonce, header, parcel];
    open_under(Start::New, mode, rounds, inputs, output)
}

/// Seals under either start. No call seals under the old one: that is here to have parcels to open.
pub fn seal_under(
    start: Start,
    mode: u32,
    rounds: u32,
    [key, nonce, header, message]: [&[u8]; 4],
    output: &mut [u8],
) -> Result<usize, Refusal> {
    check_settings(mode, rounds, key, nonce, header)?;
    check_message(message, output.len() < message.len() + TAG_LEN)?;
    let cipher = Cipher::new(start, rounds, key, nonce);
    Ok(write(&parcel_of(&cipher, mode, header, message), output))
}

/// Opens under either start: `open`, and under the old one `open_old`.
pub fn open_under(
    start: Start,
    mode: u32,
    rounds: u32,
    [key, nonce, header, parcel]: [&[u8]; 4],
    output: &mut [u8],
) -> Result<usize, Refusal> {
    let message_len = parcel.len().saturating_sub(TAG_LEN);
    check_settings(mode, rounds, key, nonce, header)?;
    check_parcel(parcel, output.len() < message_len)?;
    let cipher = Cipher::new(start, rounds, key, nonce);
    match message_of(&cipher, mode, header, parcel) {
        Some(message) => Ok(write(&message, output)),
        None => {
            output[..message_len].fill(0);
            Err((9, 0))
        }
    }
}

/// Seals as [`seal`] does, with the run of the masks left in `words`.
pub fn seal_run(
    mode: u32,
    rounds: u32,
    inputs: [&[u8]; 4],
    output: &mut [u8],
    words: &mut [u64],
) -> Result<usize, Refusal> {
    let [key, nonce, header, message] = inputs;
    let len = run_len(header.len(), message.len());
    let short = output.len() < message.len() + TAG_LEN;
    check_settings(mode, rounds, key, nonce, header)?;
    check_message(message, short || words.len() < len)?;
    let run = Cipher::new(Start::New, rounds, key, nonce).run(len);
    words[..len].copy_from_slice(&run);
    seal_under(Start::New, mode, rounds, inputs, output)
}

/// Opens as [`open`] does, with the run of the masks left in `words`, where the tag differs too.
pub fn open_run(
    mode: u32,
    rounds: u32,
    inputs: [&[u8]; 4],
    output: &mut [u8],
    words: &mut [u64],
) -> Result<usize, Refusal> {
    let [key, nonce, header, parcel] = inputs;
    let message_len = parcel.len().saturating_sub(TAG_LEN);
    let len = run_len(header.len(), message_len);
    let short = output.len() < message_len;
    check_settings(mode, rounds, key, nonce, header)?;
    check_parcel(parcel, short || words.len() < len)?;
    let run = Cipher::new(Start::New, rounds, key, nonce).run(len);
    words[..len].copy_from_slice(&run);
    open_under(Start::New, mode, rounds, inputs, output)
}

/// Seals the message of a parcel of the old start under the new one. A refusal changes no output.
pub fn convert(
    mode: u32,
    rounds: u32,
    [key, nonce, header, parcel]: [&[u8]; 4],
    output: &mut [u8],
) -> Result<usize, Refusal> {
    check_settings(mode, rounds, key, nonce, header)?;
    check_parcel(parcel, output.len() < parcel.len())?;
    let [old, new] = [Start::Old, Start::New].map(|start| Cipher::new(start, rounds, key, nonce));
    match message_of(&old, mode, header, parcel) {
        Some(message) => Ok(write(&parcel_of(&new, mode, header, &message), output)),
        None if message_of(&new, mode, header, parcel).is_some() => Err((17, 0)),
        None => Err((9, 0)),
    }
}

/// Tells why a parcel won't open: 0 where it opens as asked, 255 where it opens under none of the sixteen
/// settings, else the first that opens it and what differs there, as one number.
pub fn diagnose(
    old_start: bool,
    mode: u32,
    rounds: u32,
    [key, nonce, header, parcel]: [&[u8]; 4],
) -> Result<usize, Refusal> {
    check_settings(mode, rounds, key, nonce, header)?;
    check_parcel(parcel, false)?;
    let start = if old_start { Start::Old } else { Start::New };
    let opens = |&(start, (mode, rounds)): &(Start, (u32, u32))| {
        let cipher = Cipher::new(start, rounds, key, nonce);
        message_of(&cipher, mode, header, parcel).is_some()
    };
    if opens(&(start, (mode, rounds))) {
        return Ok(0);
    }
    let all = all_settings();
    Ok(all.iter().position(opens).map_or(255, |n| {
        let (found, setting) = all[n];
        let differs = [found != start, setting.0 != mode, setting.1 != rounds];
        let words = differs.into_iter().zip([32, 64, 128]);
        let words = words.map(|(differs, word)| usize::from(differs) * word);
        1 + n + words.sum::<usize>()
    }))
}

/// The ciphertext and then the tag.
fn parcel_of(cipher: &Cipher, mode: u32, header: &[u8], message: &[u8]) -> Vec<u8> {
    if mode == OPP {
        [cipher.opp_encrypt(message), cipher.opp_tag(header, message)].concat()
    } else {
        let tag = cipher.mro_tag(header, message);
        [cipher.mro_transform(&tag, message), tag].concat()
    }
}

/// The message, where the tag is the one that it has to be.
fn message_of(cipher: &Cipher, mode: u32, header: &[u8], parcel: &[u8]) -> Option<Vec<u8>> {
    let (ciphertext, tag) = parcel.split_at(parcel.len() - TAG_LEN);
    let (message, expected) = if mode == OPP {
        let message = cipher.opp_decrypt(ciphertext);
        let expected = cipher.opp_tag(header, &message);
        (message, expected)
    } else {
        let message = cipher.mro_transform(tag, ciphertext);
        let expected = cipher.mro_tag(header, &message);
        (message, expected)
    };
    (tag == expected).then_some(message)
}

/// Writes the block reached from `start` by `steps`.
pub fn walk(start: &[u8], steps: &[u8], output: &mut [u8]) -> Result<usize, Refusal> {
    check(&[
        (start.len() != BLOCK_LEN, 10),
        (steps.len() > MAX_STEPS, 13),
    ])?;
    if let Some(place) = steps.iter().position(|step| !(1..=6).contains(step)) {
        return Err((12, place as u32));
    }
    check(&[(output.len() < BLOCK_LEN, 7)])?;
    let first = block::from_bytes(start);
    let reached = steps
        .iter()
        .fold(first, |block, &step| mask::step(step, &block));
    Ok(write(&block::to_bytes(&reached), output))
}

/// Writes the block after `counts` alpha, beta and gamma steps from `start`.
pub fn jump(start: &[u8], counts: [i32; 3], output: &mut [u8]) -> Result<usize, Refusal> {
    check(&[
        (start.len() != BLOCK_LEN, 10),
        (
            counts.iter().any(|count| count.unsigned_abs() > MAX_COUNT),
            11,
        ),
        (output.len() < BLOCK_LEN, 7),
    ])?;
    let reached = mask::jump(counts, block::from_bytes(start));
    Ok(write(&block::to_bytes(&reached), output))
}

/// The first five checks of the calls that seal or take a parcel.
fn check_settings(
    mode: u32,
    rounds: u32,
    key: &[u8],
    nonce: &[u8],
    header: &[u8],
) -> Result<(), Refusal> {
    check(&[
        (!matches!(mode, OPP | MRO), 1),
        (!ROUNDS.contains(&rounds), 2),
        key_ground(key),
        (nonce.len() != NONCE_LEN, 4),
        (header.len() > MAX_HEADER_LEN, 5),
    ])
}

/// The next two of seal and seal_run, which differ in when what is lent is too `short`.
fn check_message(message: &[u8], short: bool) -> Result<(), Refusal> {
    check(&[(message.len() > MAX_MESSAGE_LEN, 6), (short, 7)])
}

/// The next three of the calls that take a parcel, which differ in the same; diagnose lends nothing.
fn check_parcel(parcel: &[u8], short: bool) -> Result<(), Refusal> {
    check(&[
        (parcel.len() < TAG_LEN, 8),
        (parcel.len() > MAX_MESSAGE_LEN + TAG_LEN, 6),
        (short, 7),
    ])
}

/// The ground that every call with a key has.
fn key_ground(key: &[u8]) -> (bool, u32) {
    (key.len() != KEY_LEN, 3)
}

/// Refuses with the number of the first ground that holds.
fn check(grounds: &[(bool, u32)]) -> Result<(), Refusal> {
    match grounds.iter().find(|(holds, _)| *holds) {
        Some(&(_, number)) => Err((number, 0)),
        None => Ok(()),
    }
}

fn write(bytes: &[u8], output: &mut [u8]) -> usize {
    output[..bytes.len()].copy_from_slice(bytes);
    bytes.len()
}
