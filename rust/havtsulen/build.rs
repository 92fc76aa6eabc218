//! Links the proved library, `libhavtsulen.a`.

use std::env;
use std::path::{Path, PathBuf};
use std::process::exit;

const ARCHIVE: &str = "libhavtsulen.a";

fn main() {
    println!("cargo:rerun-if-env-changed=HAVTSULEN_LIB_DIR");
    let folder = folder();
    let archive = folder.join(ARCHIVE);
    println!("cargo:rerun-if-changed={}", archive.display());
    if !archive.is_file() {
        tell_missing(&archive);
        exit(1);
    }
    println!("cargo:rustc-link-search=native={}", folder.display());
    println!("cargo:rustc-link-lib=static=havtsulen");
}

/// The folder that is set, or the one that `c/archive` writes to.
fn folder() -> PathBuf {
    match env::var_os("HAVTSULEN_LIB_DIR") {
        Some(set) => PathBuf::from(set),
        None => Path::new(env!("CARGO_MANIFEST_DIR")).join("../../target/staticlib"),
    }
}

fn tell_missing(archive: &Path) {
    eprintln!("The proved library is not there: {}", archive.display());
    eprintln!("Run `c/archive` in the root folder of the repository,");
    eprintln!("or set HAVTSULEN_LIB_DIR to the full path of the folder that has {ARCHIVE}.");
}
