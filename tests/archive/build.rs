//! Links the archive named by the environment variable ARCHIVE, or target/staticlib/libplacement.a of the repository.

use std::env;
use std::path::PathBuf;

fn main() {
    let here = PathBuf::from(env::var_os("CARGO_MANIFEST_DIR").expect("set by cargo"));
    let default = here.join("../../target/staticlib/libplacement.a");
    let archive = env::var_os("ARCHIVE").map_or(default, PathBuf::from);
    println!("cargo:rerun-if-env-changed=ARCHIVE");
    println!("cargo:rerun-if-changed={}", archive.display());
    let archive = archive.canonicalize().unwrap_or_else(|e| panic!("{}: {e}", archive.display()));
    let name = archive.file_stem().and_then(|stem| stem.to_str()).and_then(|stem| stem.strip_prefix("lib"));
    println!("cargo:rustc-link-search=native={}", archive.parent().expect("a file").display());
    println!("cargo:rustc-link-lib=static={}", name.expect("a name as in libplacement.a"));
}
