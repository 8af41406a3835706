//! What the program `maskwalk` prints for an input.

use crate::block::{from_bytes, BLOCK_LEN};
use crate::{walk, MAX_STEPS};
use std::fmt::Write;

/// The letters of the steps 1 to 6.
const LETTERS: &[u8; 6] = b"abgABG";

/// The standard output of `maskwalk` for the standard input `input`.
pub fn maskwalk(input: &[u8]) -> Vec<u8> {
    run(input)
        .unwrap_or_else(|word| format!("{word}\n"))
        .into_bytes()
}

fn run(input: &[u8]) -> Result<String, &'static str> {
    let (start, rest) = input.split_at_checked(BLOCK_LEN).ok_or("short")?;
    let letters = rest.split(|&byte| byte == b'\n').next().unwrap_or_default();
    let steps: Option<Vec<u8>> = letters.iter().map(|&letter| step(letter)).collect();
    let steps = steps.ok_or("letter")?;
    if steps.len() > MAX_STEPS {
        return Err("long");
    }
    let mut reached = [0; BLOCK_LEN];
    walk(start, &steps, &mut reached).expect("a walk that nothing refuses");
    Ok(print(&reached))
}

fn step(letter: u8) -> Option<u8> {
    (1..)
        .zip(LETTERS)
        .find(|(_, &l)| l == letter)
        .map(|(step, _)| step)
}

fn print(bytes: &[u8]) -> String {
    let mut lines = String::new();
    for (number, word) in from_bytes(bytes).iter().enumerate() {
        writeln!(lines, "{number:02} {word:016x}").expect("a string takes every line");
    }
    lines
}

#[cfg(test)]
mod tests {
    use super::*;

    fn input(letters: &[u8]) -> Vec<u8> {
        let mut start = vec![0; BLOCK_LEN];
        start[0] = 1;
        [&start, letters].concat()
    }

    #[test]
    fn gamma_of_one() {
        let mut expected = String::from("00 0000000000000001\n");
        for number in 1..14 {
            expected += &format!("{number:02} 0000000000000000\n");
        }
        expected += "14 0020000000000000\n15 0020000000000000\n";
        assert_eq!(maskwalk(&input(b"g")), expected.as_bytes());
        assert_eq!(maskwalk(&input(b"g\n\xffb")), expected.as_bytes());
        assert_eq!(maskwalk(&input(b"gaAbBGg\n")), expected.as_bytes());
    }

    #[test]
    fn refusals_in_order() {
        assert_eq!(maskwalk(&input(b"")[..127]), b"short\n");
        assert_eq!(maskwalk(&input(b"ax\n")), b"letter\n");
        assert_eq!(maskwalk(&input(b"a \n")), b"letter\n");
        let long = [b'a'; 4097];
        assert_eq!(maskwalk(&input(&long)), b"long\n");
        assert_eq!(maskwalk(&input(&[&long[..], b"x"].concat())), b"letter\n");
        assert_ne!(maskwalk(&input(&long[..4096])), b"long\n");
    }
}
