//! With the feature `port`, links the static library that PORT_ARCHIVE names.

use std::env;
use std::path::Path;

fn main() {
    println!("cargo::rerun-if-env-changed=PORT_ARCHIVE");
    if env::var_os("CARGO_FEATURE_PORT").is_none() {
        return;
    }
    let archive = env::var("PORT_ARCHIVE").expect("PORT_ARCHIVE names the static library");
    // The compiler is run in another folder than this or the caller's.
    assert!(Path::new(&archive).is_absolute(), "PORT_ARCHIVE: full path");
    println!("cargo::rerun-if-changed={archive}");
    println!("cargo::rustc-link-arg={archive}");
}
