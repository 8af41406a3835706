//! The tool as a user runs it.

mod check;
mod convert;
mod engine;
mod files;
mod price;
mod progress;
mod store;
mod thousand;
mod usage;
mod why;

use calmbaize::Rounds;
use std::ffi::OsStr;
use std::fs;
use std::io::Write;
use std::os::unix::fs::symlink;
use std::path::{Path, PathBuf};
use std::process::{Command, Output, Stdio};

const TOOL: &str = env!("CARGO_BIN_EXE_calmbaize");
const KEY: &str = "000102030405060708090a0b0c0d0e0f101112131415161718191a1b1c1d1e1f";
const NONCE: &str = "202122232425262728292a2b2c2d2e2f";

/// An empty folder for one test.
fn folder(name: &str) -> PathBuf {
    let folder = Path::new(env!("CARGO_TARGET_TMPDIR")).join(name);
    fs::remove_dir_all(&folder).ok();
    fs::create_dir_all(&folder).unwrap();
    folder
}

/// A symbolic link, which goes when the test ends: `rt ci` refuses every link in the checkout.
struct Link(PathBuf);

impl Link {
    fn new(to: impl AsRef<Path>, at: PathBuf) -> Self {
        symlink(to, &at).unwrap();
        Self(at)
    }
}

impl Drop for Link {
    fn drop(&mut self) {
        fs::remove_file(&self.0).ok();
    }
}

fn run(args: &[impl AsRef<OsStr>], input: &[u8]) -> Output {
    run_after("", args, input)
}

/// Runs the tool in a shell after some commands of the shell.
fn run_after(before: &str, args: &[impl AsRef<OsStr>], input: &[u8]) -> Output {
    let mut child = Command::new("sh")
        .arg("-c")
        .arg(format!("{before}\nexec \"$0\" \"$@\""))
        .arg(TOOL)
        .args(args)
        .stdin(Stdio::piped())
        .stdout(Stdio::piped())
        .stderr(Stdio::piped())
        .spawn()
        .unwrap();
    child.stdin.take().unwrap().write_all(input).ok();
    child.wait_with_output().unwrap()
}

fn sealing<'a>(command: &'a str, more: &[&'a str]) -> Vec<&'a str> {
    [&[command, "--key", KEY, "--nonce", NONCE], more].concat()
}

/// Runs a command that succeeds, and gives back its standard output.
fn succeeds(args: &[impl AsRef<OsStr>], input: &[u8]) -> Vec<u8> {
    let output = run(args, input);
    let error = String::from_utf8_lossy(&output.stderr);
    assert_eq!((output.status.code(), error.as_ref()), (Some(0), ""));
    output.stdout
}

/// Runs a command that is refused or misused: one line of error, nothing on standard output.
fn fails(args: &[&str], input: &[u8], status: i32) -> String {
    let output = run(args, input);
    assert_eq!(output.status.code(), Some(status), "{args:?}");
    assert_eq!(output.stdout, b"", "{args:?}");
    let error = String::from_utf8(output.stderr).unwrap();
    assert!(
        error.starts_with("calmbaize: ") && error.lines().count() == 1,
        "{error}"
    );
    error
}

#[test]
fn seals_and_opens_with_every_mode_and_count() {
    for mode in ["opp", "mro"] {
        for rounds in Rounds::ALL {
            let rounds = rounds.count().to_string();
            let settings = ["--mode", mode, "-r", &rounds];
            let parcel = succeeds(&sealing("seal", &settings), b"150 cents");
            assert_eq!(parcel.len(), 9 + 32);
            assert_eq!(succeeds(&sealing("open", &settings), &parcel), b"150 cents");
        }
    }
    let asked = sealing("seal", &["--mode", "mro", "--rounds", "6"]);
    assert_eq!(
        succeeds(&sealing("seal", &[]), b"tea"),
        succeeds(&asked, b"tea")
    );
}

/// Parcels of version 0.3.0: "sale" under the settings below, by mode.
const OF_0_3_0: [(&str, &[u8]); 2] = [
    (
        "opp",
        b"\xbc\x65\xe2\xd4\x72\xae\xc0\x71\x4c\x3b\xfb\xc3\x25\xe9\xd4\x9f\x89\xd2\x63\x67\x61\x78\x57\x0a\xe6\xa8\x14\xb7\xd0\x03\xf9\x40\xf8\xdf\xf3\xd2",
    ),
    (
        "mro",
        b"\x1c\xc0\xd5\x4a\x06\x4b\xc8\xcb\xd4\x84\xb4\xfc\xa8\x87\x2e\xbc\x35\x84\x34\x3b\x36\x4d\xc5\x82\x23\x84\x63\x3d\x62\xdf\x96\x26\xae\x79\x29\xfa",
    ),
];

/// A command with the settings of those parcels; the header is "post".
fn as_of_0_3_0<'a>(command: &'a str, mode: &'a str) -> Vec<&'a str> {
    let nonce = ["--nonce", "000102030405060708090a0b0c0d0e0f"];
    let header = ["--header", "706f7374", "--mode", mode];
    [&[command, "--key", KEY], &nonce[..], &header].concat()
}

#[test]
fn old_parcels_open_where_the_old_start_is_asked_for() {
    for (mode, parcel) in OF_0_3_0 {
        let open = as_of_0_3_0("open", mode);
        let old = [&open[..], &["--old-start"]].concat();
        assert_eq!(succeeds(&old, parcel), b"sale");
        assert!(fails(&open, parcel, 1).contains("refused with 9"));
        let new = succeeds(&as_of_0_3_0("seal", mode), b"sale");
        assert_eq!(succeeds(&open, &new), b"sale");
        assert!(fails(&old, &new, 1).contains("refused with 9"));
    }
}

#[test]
fn refusals_name_their_number() {
    let long = vec![0; 70_000];
    let short_key = ["seal", "--key", "00", "--nonce", "00"];
    let short_nonce = ["seal", "--key", KEY, "--nonce", "00"];
    let header = "00".repeat(4097);
    let start = "00".repeat(128);
    let cases: [(&[&str], &[u8], u32); 10] = [
        (&[&short_key[..], &["-r", "5"]].concat(), b"", 2),
        (&short_key, b"", 3),
        (&short_nonce, b"", 4),
        (&sealing("seal", &["--header", &header]), b"", 5),
        (&sealing("seal", &[]), &long, 6),
        (&sealing("open", &[]), &long, 6),
        (&sealing("open", &[]), &long[..31], 8),
        (&sealing("open", &[]), &long[..40], 9),
        (&["walk", "--steps", "a"], &long[..127], 10),
        (&["jump", "--start", &start, "--beta", "65537"], b"", 11),
    ];
    for (args, input, number) in cases {
        let error = fails(args, input, 1);
        assert!(
            error.starts_with(&format!("calmbaize: refused with {number}: ")),
            "{error}"
        );
    }
    let error = fails(&["walk", "--steps", "a?b"], &[0; 128], 1);
    assert_eq!(
        error,
        "calmbaize: refused with 12: step at 1 is not 1 to 6\n"
    );
    let error = fails(&["walk", "--steps", &"a".repeat(5000)], &[0; 128], 1);
    assert!(error.starts_with("calmbaize: refused with 13: "), "{error}");
}

#[test]
fn walks_and_jumps() {
    let start: String = (0..128).map(|byte| format!("{byte:02x}")).collect();
    let walked = succeeds(&["walk", "--start", &start, "-s", "abGab", "--hex"], b"");
    let counts = ["-a", "2", "--beta=2", "--gamma", "-1"];
    let jump = [&["jump", "--start", &start, "-x"], &counts[..]].concat();
    assert_eq!(walked, succeeds(&jump, b""));
    assert_eq!(walked.len(), 257);
    assert_eq!(succeeds(&["walk"], &[5; 128]), [5; 128]);
}
