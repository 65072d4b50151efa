//! Links the static library that `rt lib` writes in crates/capi: crates/capi/out/libcapi.a of the repository, or what
//! LATEENBAEL_ARCHIVE names.
use std::path::PathBuf;

fn main() {
    println!("cargo::rerun-if-env-changed=LATEENBAEL_ARCHIVE");
    let here = PathBuf::from(std::env::var_os("CARGO_MANIFEST_DIR").unwrap());
    let archive = match std::env::var_os("LATEENBAEL_ARCHIVE") {
        Some(path) => PathBuf::from(path),
        None => here.join("../../crates/capi/out/libcapi.a"),
    };
    println!("cargo::rerun-if-changed={}", archive.display());
    if !archive.is_file() {
        panic!("no static library at {}: make it with `rt lib` in crates/capi", archive.display());
    }
    println!("cargo::rustc-link-search=native={}", archive.parent().unwrap().display());
    println!("cargo::rustc-link-lib=static=capi");
}
