//! Files, standard input and standard output: names, permissions, and what is left where writing
//! fails.

use crate::{fails, folder, run, run_after, sealing, succeeds, KEY, NONCE};
use std::ffi::{OsStr, OsString};
use std::fs::{self, File, Permissions};
use std::io::Read;
use std::os::unix::ffi::OsStrExt;
use std::os::unix::fs::PermissionsExt;
use std::path::{Path, PathBuf};
use std::process::Command;

/// In a shell: no file gets over 512 bytes, and a write past them fails.
pub const FILES_OF_ONE_BLOCK: &str = "trap '' XFSZ; ulimit -f 1";
/// In a shell: a process is killed at its first byte to a file.
pub const NO_FILES: &str = "ulimit -c 0; ulimit -f 0";

pub fn mode(path: &Path) -> u32 {
    fs::metadata(path).unwrap().permissions().mode() & 0o7777
}

pub fn set_mode(path: &Path, mode: u32) {
    fs::set_permissions(path, Permissions::from_mode(mode)).unwrap();
}

/// The commands that write a secret, with their options and an input that they accept.
fn secret_commands() -> [(Vec<&'static str>, Vec<u8>); 3] {
    let parcel = succeeds(&sealing("seal", &[]), &[9; 1000]);
    [
        (sealing("open", &[]), parcel),
        (vec!["walk", "--steps", "abG"], vec![1; 128]),
        (vec!["jump", "--alpha", "7"], vec![1; 128]),
    ]
}

fn with_output(args: &[&str], output: &Path) -> Vec<OsString> {
    let args = args.iter().map(OsString::from);
    args.chain(["-o".into(), output.into()]).collect()
}

pub fn make_pipe(path: &Path) {
    let made = Command::new("mkfifo").arg(path).status().unwrap();
    assert!(made.success());
}

pub fn names(folder: &Path) -> Vec<OsString> {
    let entries = fs::read_dir(folder).unwrap();
    entries.map(|entry| entry.unwrap().file_name()).collect()
}

#[test]
fn seals_and_opens_over_files() {
    let folder = folder("files");
    let path = |name: &str| folder.join(name).to_str().unwrap().to_string();
    fs::write(path("key"), [7; 32]).unwrap();
    fs::write(path("nonce"), [8; 16]).unwrap();
    fs::write(path("header"), b"machine 11").unwrap();
    fs::write(path("message"), vec![9; 65_536]).unwrap();
    let files = ["key", "nonce", "header"].map(path);
    let settings = [
        "--key-file",
        &files[0],
        "--nonce-file",
        &files[1],
        "--header-file",
        &files[2],
    ];
    let (message, parcel, opened) = (path("message"), path("parcel"), path("opened"));
    let seal = [&["seal"], &settings[..], &["-i", &message, "-o", &parcel]].concat();
    assert_eq!(succeeds(&seal, b""), b"");
    assert_eq!(fs::read(&parcel).unwrap().len(), 65_568);
    let open = [&["open"], &settings[..], &["-i", &parcel, "-o", &opened]].concat();
    assert_eq!(succeeds(&open, b""), b"");
    assert_eq!(fs::read(&opened).unwrap(), vec![9; 65_536]);
    assert_eq!(names(&folder).len(), 6);
}

/// Every option with a value keeps the bytes of a path that is no text.
#[test]
fn paths_keep_their_bytes() {
    let folder = folder("bytes");
    let path = |name: &[u8]| -> PathBuf { folder.join(OsStr::from_bytes(name)) };
    let attached = |option: &str, path: &Path| -> OsString {
        let mut arg = OsString::from(option);
        arg.push("=");
        arg.push(path);
        arg
    };
    let (key, nonce, header) = (path(b"key\xff"), path(b"\xc3nonce"), path(b"he=\x80ader"));
    let (message, parcel) = (path(b"message\xfe="), path(b"par\xf0cel"));
    fs::write(&key, [7; 32]).unwrap();
    fs::write(&nonce, [8; 16]).unwrap();
    fs::write(&header, b"machine 11").unwrap();
    fs::write(&message, b"150 cents").unwrap();
    let args = [
        "seal".into(),
        attached("--key-file", &key),
        attached("--nonce-file", &nonce),
        attached("--header-file", &header),
        attached("--input", &message),
        attached("--output", &parcel),
    ];
    succeeds(&args, b"");
    assert_eq!(fs::read(&parcel).unwrap().len(), 9 + 32);
    assert_eq!(names(&folder).len(), 5);
}

#[test]
fn a_dash_is_standard_input_or_output() {
    let folder = folder("dash");
    let here = format!("cd '{}'", folder.display());
    for dashes in [&["-i", "-", "-o", "-"][..], &["--input=-", "--output=-"]] {
        let output = run_after(&here, &sealing("seal", dashes), b"150 cents");
        assert_eq!(output.status.code(), Some(0));
        assert_eq!(output.stdout, succeeds(&sealing("seal", &[]), b"150 cents"));
    }
    assert_eq!(names(&folder).len(), 0);
    let key: Vec<u8> = (0..32).collect();
    fs::write(folder.join("message"), b"150 cents").unwrap();
    let args = ["seal", "--key-file", "-", "--nonce", NONCE, "-i", "message"];
    let output = run_after(&here, &args, &key);
    assert_eq!(output.stdout, succeeds(&sealing("seal", &[]), b"150 cents"));
}

#[test]
fn standard_input_is_read_once() {
    let twice: [&[&str]; 3] = [
        &["seal", "--key-file", "-", "--nonce", NONCE],
        &["seal", "--key-file", "-", "--nonce", NONCE, "-i", "-"],
        &[
            "seal",
            "--key",
            KEY,
            "--nonce-file=-",
            "--header-file=-",
            "-i",
            "x",
        ],
    ];
    for args in twice {
        let error = fails(args, &[0; 64], 2);
        assert!(error.contains("can be standard input"), "{error}");
    }
}

/// Neither the umask nor the permissions of a file that is there let others read a secret.
#[test]
fn secrets_are_for_their_owner() {
    let folder = folder("secrets");
    let (new, old) = (folder.join("new"), folder.join("old"));
    for (args, input) in secret_commands() {
        fs::write(&old, "before").unwrap();
        set_mode(&old, 0o666);
        let mut reader = File::open(&old).unwrap();
        for output in [&new, &old] {
            let run = run_after("umask 0", &with_output(&args, output), &input);
            assert_eq!(run.status.code(), Some(0), "{args:?}");
            assert_eq!(mode(output), 0o600, "{args:?}");
            assert_eq!(fs::read(output).unwrap(), succeeds(&args, &input));
            set_mode(output, 0o644);
        }
        // Who had the old file open before sees nothing of the new one.
        let mut seen = String::new();
        reader.read_to_string(&mut seen).unwrap();
        assert_eq!(seen, "before");
    }
}

/// The tool is killed at its first byte, so that its temporary file stays as it was made.
#[test]
fn temporary_files_are_never_open_to_others() {
    let parcel = succeeds(&sealing("seal", &[]), b"x");
    let cases = [
        (sealing("open", &[]), &parcel[..], None, 0o600),
        (sealing("open", &[]), &parcel[..], Some(0o666), 0o600),
        (sealing("seal", &[]), b"x", Some(0o640), 0o600),
    ];
    for (args, input, before, expected) in cases {
        let folder = folder("temporary");
        let output = folder.join("output");
        if let Some(before) = before {
            fs::write(&output, "").unwrap();
            set_mode(&output, before);
        }
        let limits = format!("umask 0; {NO_FILES}");
        let killed = run_after(&limits, &with_output(&args, &output), input);
        assert_eq!(killed.status.code(), None, "killed");
        let left: Vec<OsString> = names(&folder);
        let temporary = left.iter().find(|name| *name != "output").unwrap();
        assert_eq!(mode(&folder.join(temporary)), expected, "{args:?}");
    }
}

#[test]
fn parcels_have_ordinary_permissions() {
    let folder = folder("parcels");
    let (new, old) = (folder.join("new"), folder.join("old"));
    fs::write(&old, "").unwrap();
    set_mode(&old, 0o664);
    for output in [&new, &old] {
        run_after(
            "umask 027",
            &with_output(&sealing("seal", &[]), output),
            b"x",
        );
    }
    assert_eq!((mode(&new), mode(&old)), (0o640, 0o664));
}

#[test]
fn a_refusal_writes_nothing() {
    let folder = folder("refused");
    let output = folder.join("output");
    let refused = |output: &Path| {
        let args = with_output(&sealing("open", &[]), output);
        let args: Vec<&str> = args.iter().map(|arg| arg.to_str().unwrap()).collect();
        let error = fails(&args, &[1; 40], 1);
        assert_eq!(error, "calmbaize: refused with 9: tag differs\n");
    };
    refused(&output);
    assert!(!output.exists());
    fs::write(&output, "before").unwrap();
    refused(&output);
    assert_eq!(fs::read(&output).unwrap(), b"before");
    assert_eq!(names(&folder), ["output"]);
    // A pipe that no one reads would hold up a tool that opens it.
    let pipe = folder.join("pipe");
    make_pipe(&pipe);
    refused(&pipe);
}

#[test]
fn a_file_stays_as_it_was_where_writing_fails() {
    let folder = folder("failed");
    let output = folder.join("output");
    let (args, input) = &secret_commands()[0];
    for before in [None, Some("before")] {
        if let Some(before) = before {
            fs::write(&output, before).unwrap();
        }
        let failed = run_after(FILES_OF_ONE_BLOCK, &with_output(args, &output), input);
        let error = String::from_utf8(failed.stderr).unwrap();
        assert_eq!(failed.status.code(), Some(2), "{error}");
        assert!(error.contains("can't write"), "{error}");
        assert_eq!(fs::read_to_string(&output).ok().as_deref(), before);
        assert_eq!(names(&folder).len(), usize::from(before.is_some()));
    }
    let error = fails(&sealing("seal", &["-i", "no/such/file"]), b"", 2);
    assert!(error.contains("can't read no/such/file"), "{error}");
    let error = fails(&sealing("seal", &["-o", "no/such/file"]), b"", 2);
    assert!(error.contains("can't write no/such/file"), "{error}");
}

/// What the help says of standard output: it may have got a part.
#[test]
fn standard_output_may_have_a_part_where_writing_fails() {
    let output = folder("part").join("output");
    let (args, input) = &secret_commands()[0];
    let before = format!("{FILES_OF_ONE_BLOCK}; exec >'{}'", output.display());
    let failed = run_after(&before, args, input);
    assert_eq!(failed.status.code(), Some(2));
    assert_eq!(fs::read(&output).unwrap(), [9; 512]);
}

#[test]
fn what_is_no_file_is_written_to_and_not_replaced() {
    let output = run(&sealing("seal", &["-o", "/dev/null"]), b"x");
    assert_eq!(output.status.code(), Some(0));
    assert!(!fs::metadata("/dev/null").unwrap().is_file());
}

/// A file with the temporary file's name that is another's is neither written to nor removed.
#[test]
fn the_temporary_file_of_another_is_left_alone() {
    let folder = folder("another");
    let output = folder.join("output");
    let before = format!("echo other >'{}'/.calmbaize.$$.tmp", folder.display());
    let failed = run_after(&before, &with_output(&sealing("seal", &[]), &output), b"x");
    assert_eq!(failed.status.code(), Some(2));
    let left = names(&folder);
    assert_eq!(left.len(), 1);
    assert_eq!(fs::read(folder.join(&left[0])).unwrap(), b"other\n");
}
