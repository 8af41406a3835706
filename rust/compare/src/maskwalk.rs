//! The program maskwalk on hundreds of inputs.

use crate::prng::Prng;
use crate::report::Tally;
use std::io::{self, Write};
use std::path::Path;
use std::process::{Command, Output, Stdio};

/// Compares what `program` prints with the second implementation.
pub fn run(program: &Path, seed: u64) -> Tally {
    let mut prng = Prng::new(seed);
    let mut tally = Tally::default();
    for input in fixed(&mut prng)
        .into_iter()
        .chain((0..400).map(|_| random(&mut prng)))
    {
        let wanted = reference::maskwalk(&input);
        let (passed, found) = match output(program, &input) {
            Ok(output) => (
                output.stdout == wanted && output.status.code().is_some(),
                String::from_utf8_lossy(&output.stdout).into_owned(),
            ),
            Err(error) => (false, error.to_string()),
        };
        tally.record(passed, || {
            let wanted = String::from_utf8_lossy(&wanted);
            format!(
                "an input of {} bytes prints {found:?}, expected {wanted:?}",
                input.len()
            )
        });
    }
    tally
}

fn output(program: &Path, input: &[u8]) -> io::Result<Output> {
    let mut child = Command::new(program)
        .stdin(Stdio::piped())
        .stdout(Stdio::piped())
        .spawn()?;
    let mut stdin = child.stdin.take().expect("a piped standard input");
    std::thread::scope(|scope| {
        // The program may stop reading before the end of its input.
        scope.spawn(move || stdin.write_all(input).ok());
        child.wait_with_output()
    })
}

/// One input for each line of the document, and the edges of its limits.
fn fixed(prng: &mut Prng) -> Vec<Vec<u8>> {
    let mut one = vec![0; 128];
    one[0] = 1;
    let mut line_feeds = vec![b'\n'; 128];
    line_feeds.extend(b"ab\nx");
    let mut inputs = vec![vec![], vec![b'a'; 127], vec![b'a'; 128], line_feeds];
    for tail in [
        "g",
        "g\n",
        "",
        "\n",
        "\na",
        "ag\nxyz",
        "a b",
        "\r\n",
        "x",
        "abgABG\n\n",
        "G\0",
    ] {
        inputs.push([&one, tail.as_bytes()].concat());
    }
    for len in [4095, 4096, 4097, 4098, 10_000, 200_000] {
        let letters: Vec<u8> = (0..len).map(|_| prng.pick(b"abgABG")).collect();
        for tail in ["", "\n", "\nxx", "x", "x\n"] {
            inputs.push([&prng.bytes(128)[..], &letters, tail.as_bytes()].concat());
        }
        inputs.push([&one, &b"?"[..], &letters].concat());
    }
    inputs
}

fn random(prng: &mut Prng) -> Vec<u8> {
    let mut len = 128;
    if prng.once_in(20) {
        len = prng.below(128);
    }
    let mut input = prng.bytes(len);
    let bound = if prng.once_in(10) { 4200 } else { 30 };
    input.extend((0..prng.below(bound)).map(|_| prng.pick(b"abgABG")));
    if prng.once_in(8) && input.len() > 128 {
        let at = 128 + prng.below(input.len() - 128);
        input[at] = prng.next() as u8;
    }
    if prng.once_in(2) {
        input.push(b'\n');
        let more = prng.below(40);
        input.extend(prng.bytes(more));
    }
    input
}
