//! Copies the library's archive for x86-64-v3 under names of its own, so that one program links both
//! archives. Where there is none, the benchmarks do without. Tells the program the compilers' versions.

use std::path::{Path, PathBuf};
use std::process::Command;
use std::{env, fs};

fn main() {
    let root = Path::new(env!("CARGO_MANIFEST_DIR")).join("../..");
    let folder = env::var_os("CALMBAIZE_LIB_DIR").map_or_else(|| root.join("dist"), PathBuf::from);
    let archive = folder.join("x86-64-v3/libcalmbaize.a");
    let header = root.join("include/calmbaize.h");
    println!("cargo::rustc-check-cfg=cfg(wide)");
    println!("cargo::rerun-if-env-changed=CALMBAIZE_LIB_DIR");
    println!("cargo::rerun-if-changed={}", header.display());
    // A file that is missing counts as changed each time, so then its folder is watched.
    let found = archive.is_file();
    let watched = if found { &archive } else { &folder };
    println!("cargo::rerun-if-changed={}", watched.display());
    versions();
    let wanted = env::var_os("CARGO_FEATURE_ARCHIVE").is_some();
    if wanted && found && variable("CARGO_CFG_TARGET_ARCH") == "x86_64" {
        link(&archive, &header);
    }
}

/// Links the archive with `wide_` in the place of `calmbaize_`.
fn link(archive: &Path, header: &Path) {
    let out = variable("OUT_DIR");
    let text = fs::read_to_string(header).expect("the library's header");
    let mut copy = Command::new("objcopy");
    for call in calls(&text) {
        copy.arg(format!("--redefine-sym=calmbaize_{call}=wide_{call}"));
    }
    copy.arg(archive).arg(Path::new(&out).join("libwide.a"));
    match copy.status() {
        Ok(status) if status.success() => {}
        Ok(status) => println!("cargo::error={copy:?} ended with {status}"),
        Err(error) => println!("cargo::error={copy:?} did not start: {error}"),
    }
    println!("cargo::rustc-link-search=native={out}");
    println!("cargo::rustc-link-lib=static=wide");
    println!("cargo::rustc-cfg=wide");
}

/// What the names of the calls that the header declares end in.
fn calls(header: &str) -> impl Iterator<Item = &str> {
    let declared = header.lines();
    let declared = declared.filter_map(|line| line.strip_prefix("uint64_t calmbaize_"));
    declared.filter_map(|call| call.split_once('(').map(|(name, _)| name))
}

/// Tells the versions of the compilers that rust/baseline and cargo take; nothing for one that is missing.
fn versions() {
    println!("cargo::rerun-if-env-changed=CC");
    println!("cargo::rerun-if-env-changed=PATH");
    let compiler = env::var("CC").unwrap_or_else(|_| "cc".into());
    // Asked by -v, a C compiler gives its own name and not the one that it was called by.
    for (name, program, word) in [
        ("CC", compiler.as_str(), "-v"),
        ("CLANG", "clang", "-v"),
        ("RUSTC", &variable("RUSTC"), "--version"),
    ] {
        let output = Command::new(program).arg(word).output();
        let printed = output.map_or(Vec::new(), |output| [output.stdout, output.stderr].concat());
        let printed = String::from_utf8_lossy(&printed);
        let mut lines = printed.lines().filter(|line| names_version(line));
        let version = lines.next().unwrap_or_default().trim();
        println!("cargo::rustc-env=BENCH_{name}={version}");
    }
}

fn names_version(line: &str) -> bool {
    line.contains(" version ") || line.starts_with("rustc ")
}

fn variable(name: &str) -> String {
    env::var(name).unwrap_or_else(|_| panic!("cargo sets {name}"))
}
