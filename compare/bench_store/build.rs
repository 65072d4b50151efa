//! With the feature `sqlite`, links the machine's SQLite.

fn main() {
    if std::env::var_os("CARGO_FEATURE_SQLITE").is_some() {
        println!("cargo::rustc-link-lib=sqlite3");
    }
}
