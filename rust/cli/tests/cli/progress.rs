//! What a long run says of how far it has come.

use crate::convert::{damaged, new, nonce, old, Card};
use crate::files::make_pipe;
use crate::{run, NONCE, TOOL};
use std::ffi::{c_int, c_void};
use std::fs::File;
use std::io::{Read, Write};
use std::os::fd::FromRawFd;
use std::path::PathBuf;
use std::process::{Command, Output, Stdio};
use std::ptr::null;
use std::thread;
use std::time::{Duration, Instant};

#[test]
fn a_line_for_every_hundred_without_a_terminal() {
    for (count, expected) in [
        (99, ""),
        (100, "100 of 100 parcels\n"),
        (250, "100 of 250 parcels\n200 of 250 parcels\n"),
    ] {
        let card = Card::new("progress-lines");
        for at in 0..count {
            card.put(at.to_string(), new(b"tea"));
        }
        let output = run(&card.args(&["--nonce", NONCE]), b"");
        assert_eq!(String::from_utf8(output.stderr).unwrap(), expected);
        let counts = format!("converted 0, done already {count}, refused 0\n");
        assert_eq!(String::from_utf8(output.stdout).unwrap(), counts);
    }
}

extern "C" {
    fn openpty(
        here: *mut c_int,
        there: *mut c_int,
        name: *const c_void,
        settings: *const c_void,
        size: *const c_void,
    ) -> c_int;
}

/// A terminal, and what shows on it as bytes to read.
fn terminal() -> (File, File) {
    let (mut here, mut there) = (-1, -1);
    // SAFETY: both numbers outlive the call, and what may be null is.
    let status = unsafe { openpty(&mut here, &mut there, null(), null(), null()) };
    assert_eq!(status, 0);
    // SAFETY: the call has opened both, and nothing else has them.
    unsafe { (File::from_raw_fd(there), File::from_raw_fd(here)) }
}

/// What is left on the lines of a terminal.
fn lines_left(written: &str) -> Vec<String> {
    let line_left = |line: &str| {
        let mut left = Vec::new();
        for part in line.split('\r').map(str::as_bytes) {
            left.resize(left.len().max(part.len()), b' ');
            left[..part.len()].copy_from_slice(part);
        }
        String::from_utf8(left).unwrap().trim_end().to_string()
    };
    written.split('\n').map(line_left).collect()
}

/// Hands each pipe the nonce, some time after the tool has begun to read from it.
fn hand_in_late(pipes: [PathBuf; 2]) {
    for pipe in pipes {
        // This waits for a reader.
        let mut pipe = File::options().write(true).open(pipe).unwrap();
        thread::sleep(Duration::from_millis(150));
        pipe.write_all(&nonce()).unwrap();
    }
}

/// Exit status, standard output, what was written to a terminal as standard error, and the time.
fn run_on_terminal(args: &[&str]) -> (Output, String, Duration) {
    let (terminal, mut shown) = terminal();
    let began = Instant::now();
    let mut tool = Command::new(TOOL);
    tool.args(args).stdout(Stdio::piped()).stderr(terminal);
    let child = tool.spawn().unwrap();
    // The terminal too, which is read from until no one has it open.
    drop(tool);
    let reader = thread::spawn(move || {
        let mut written = Vec::new();
        shown.read_to_end(&mut written).ok();
        String::from_utf8(written).unwrap()
    });
    let output = child.wait_with_output().unwrap();
    let time = began.elapsed();
    (output, reader.join().unwrap(), time)
}

/// Two nonces come late, so that a line is due once their parcels are done.
#[test]
fn a_line_in_its_place_on_a_terminal() {
    let card = Card::new("progress-terminal");
    for at in 10..60 {
        card.put(format!("a{at}"), new(b"tea"));
    }
    card.put("b", old(b"tea"));
    card.put("c", damaged(old(b"tea")));
    card.put("d", old(b"tea"));
    let pipes = ["b.nonce", "d.nonce"].map(|name| card.path(name));
    pipes.iter().for_each(|pipe| make_pipe(pipe));
    thread::spawn(|| hand_in_late(pipes));
    let (output, written, time) = run_on_terminal(&card.args(&["--nonce", NONCE]));
    assert_eq!(output.status.code(), Some(1));
    let counts = "converted 2, done already 50, refused 1\n";
    assert_eq!(String::from_utf8(output.stdout).unwrap(), counts);

    let refused = "c: refused with 9: tag differs";
    assert_eq!(lines_left(&written), [refused, ""], "{written:?}");
    for line in ["\r51 of 53 parcels", "\r53 of 53 parcels"] {
        assert!(written.contains(line), "{written:?}");
    }
    let lines = written.matches(" of 53 parcels").count();
    assert!(lines as u128 <= time.as_millis() / 100, "{written:?}");
}
