//! Finds the archive of the proved library, and only where the feature `library` asks for it.

use std::env;
use std::path::PathBuf;

fn main() {
    println!("cargo:rerun-if-env-changed=GATEWAY_ARCHIVE");
    if env::var_os("CARGO_FEATURE_LIBRARY").is_none() {
        return;
    }
    let here = PathBuf::from(env::var_os("CARGO_MANIFEST_DIR").expect("set by cargo"));
    let archive = match env::var_os("GATEWAY_ARCHIVE") {
        Some(file) => here.join(file),
        None => here.join("../target/staticlib/libgateway.a"),
    };
    println!("cargo:rerun-if-changed={}", archive.display());
    if !archive.exists() {
        panic!(
            "no {}: run `c/archive` at the repository's root, or name another by GATEWAY_ARCHIVE",
            archive.display()
        );
    }
    let name = archive.file_stem().and_then(|stem| stem.to_str()?.strip_prefix("lib")).expect("a file named lib*.a");
    println!("cargo:rustc-link-search=native={}", archive.parent().expect("a file's folder").display());
    println!("cargo:rustc-link-lib=static={name}");
}
