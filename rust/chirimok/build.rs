//! Links the proved store's static library: the one that `CHIRIMOK_STATION` names, or the one that
//! the repository's build leaves in `target/staticlib`.

use std::env;
use std::path::{Path, PathBuf};

const DEFAULT: &str = "../../target/staticlib/libstation.a";

fn main() {
    println!("cargo:rerun-if-env-changed=CHIRIMOK_STATION");
    let archive = archive();
    println!("cargo:rerun-if-changed={}", archive.display());
    if !archive.is_file() {
        let archive = archive.display();
        println!("cargo:warning=no archive at {archive}: name one in CHIRIMOK_STATION");
    }
    let directory = archive.parent().expect("the archive lies in a directory");
    let name = archive.file_name().expect("the archive has a name").to_string_lossy();
    println!("cargo:rustc-link-search=native={}", directory.display());
    println!("cargo:rustc-link-lib=static:+verbatim={name}");
}

fn archive() -> PathBuf {
    match env::var_os("CHIRIMOK_STATION") {
        Some(path) => path.into(),
        None => Path::new(env!("CARGO_MANIFEST_DIR")).join(DEFAULT),
    }
}
