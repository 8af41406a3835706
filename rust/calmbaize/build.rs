//! Finds the archive of the proved library.

use std::env;
use std::path::PathBuf;

const ARCHIVE: &str = "libcalmbaize.a";

fn main() {
    println!("cargo::rerun-if-env-changed=CALMBAIZE_LIB_DIR");
    let folder = env::var_os("CALMBAIZE_LIB_DIR").map_or_else(dist, PathBuf::from);
    let archive = folder.join(ARCHIVE);
    println!("cargo::rerun-if-changed={}", archive.display());
    if archive.is_file() {
        println!("cargo::rustc-link-search=native={}", folder.display());
        println!("cargo::rustc-link-lib=static=calmbaize");
    } else {
        println!(
            "cargo::error={} is missing: run `make` at the root of the repository, \
             or set CALMBAIZE_LIB_DIR to the folder that holds {ARCHIVE}",
            archive.display(),
        );
    }
}

fn dist() -> PathBuf {
    let manifest = env::var_os("CARGO_MANIFEST_DIR").expect("cargo sets CARGO_MANIFEST_DIR");
    let root = PathBuf::from(manifest).join("../..");
    root.canonicalize().unwrap_or(root).join("dist")
}
