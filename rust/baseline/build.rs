//! Compiles the C versions with the system's C compiler, and once more with clang where it is there, so
//! that each is measured by the better of two compilers. What is no first build has names of its own.

use std::env;
use std::ffi::OsString;
use std::fs;
use std::path::{Path, PathBuf};
use std::process::{Command, Stdio};

/// The sources, each with what is put before the names of the store's calls. The store is compiled a
/// second time, to look at every store by marks.
const SOURCES: [(&str, &str); 5] = [
    ("avx2.c", ""),
    ("baseline.c", ""),
    ("run.c", ""),
    ("store.c", ""),
    ("store.c", MARKS),
];
const MARKS: &str = "marks_";
/// What is put before the names of all that clang compiles.
const CLANG: &str = "clang_";
/// The headers that declare what one source has of another.
const HEADERS: [&str; 3] = ["avx2.h", "baseline.h", "internal.h"];

fn main() {
    let folder = Path::new(&variable("CARGO_MANIFEST_DIR")).join("../../c");
    let out = PathBuf::from(variable("OUT_DIR"));
    println!("cargo::rustc-check-cfg=cfg(clang)");
    println!("cargo::rerun-if-changed={}", folder.display());
    println!("cargo::rerun-if-env-changed=CC");
    // Whether there is a clang; one that comes later to a folder of the PATH is seen after a clean.
    println!("cargo::rerun-if-env-changed=PATH");
    let mut archive = Command::new("ar");
    archive.arg("crs").arg(out.join("libbaseline.a"));
    let compiler = Command::new(env::var_os("CC").unwrap_or_else(|| "cc".into()));
    let mut builds = vec![("", compiler)];
    if is_x86_64() && starts("clang") {
        let mut clang = Command::new("clang");
        // By itself clang compiles for the machine that it runs on.
        clang.arg("-target").arg(variable("TARGET"));
        builds.push((CLANG, clang));
        println!("cargo::rustc-cfg=clang");
    }
    let names = names(&folder);
    for (build, compiler) in &builds {
        for (source, store) in SOURCES {
            let object = out.join(format!("{build}{store}{source}.o"));
            let mut compile = Command::new(compiler.get_program());
            compile.args(compiler.get_args());
            compile.args(["-std=c99", "-O3", "-fPIC", "-c", "-o"]);
            compile.arg(&object).arg(folder.join(source));
            compile.args(options(source, store));
            compile.args(names.iter().map(|name| renamed(name, build, store)));
            run(&mut compile);
            archive.arg(object);
        }
    }
    run(&mut archive);
    println!("cargo::rustc-link-search=native={}", out.display());
    println!("cargo::rustc-link-lib=static=baseline");
}

/// What the compiler is told for one source alone.
fn options(source: &str, store: &str) -> &'static [&'static str] {
    if source == "avx2.c" && is_x86_64() {
        &["-mavx2"]
    } else if store == MARKS {
        &["-DMARKS_ALONE=1"]
    } else {
        &[]
    }
}

/// The names that the headers declare.
fn names(folder: &Path) -> Vec<String> {
    let texts = HEADERS.map(|header| fs::read_to_string(folder.join(header)).expect(header));
    let words = texts.iter().flat_map(|text| {
        text.split(|character: char| !character.is_ascii_alphanumeric() && character != '_')
    });
    let ours = |word: &&str| word.starts_with("baseline_") || word.starts_with("avx2_");
    let mut names: Vec<String> = words.filter(ours).map(String::from).collect();
    names.sort();
    names.dedup();
    names
}

/// The option that gives a name its build's, and a call of the store that of its version too.
fn renamed(name: &str, build: &str, store: &str) -> String {
    match name.starts_with("baseline_store_") {
        true => format!("-D{name}={build}{store}{name}"),
        false => format!("-D{name}={build}{name}"),
    }
}

fn is_x86_64() -> bool {
    variable("CARGO_CFG_TARGET_ARCH") == "x86_64"
}

/// Whether there is such a program.
fn starts(program: &str) -> bool {
    let mut version = Command::new(program);
    let status = version.arg("--version").stdout(Stdio::null()).status();
    status.is_ok_and(|status| status.success())
}

fn variable(name: &str) -> OsString {
    env::var_os(name).unwrap_or_else(|| panic!("cargo sets {name}"))
}

fn run(command: &mut Command) {
    match command.status() {
        Ok(status) if status.success() => {}
        Ok(status) => println!("cargo::error={command:?} ended with {status}"),
        Err(error) => println!("cargo::error={command:?} did not start: {error}"),
    }
}
