//! With the feature `proved`, links the static library that LEVERETPLATE_LIBRARY names by its path, as in
//! .../libleveretplate.a.

use std::path::PathBuf;

fn main() {
    println!("cargo:rerun-if-env-changed=LEVERETPLATE_LIBRARY");
    if std::env::var_os("CARGO_FEATURE_PROVED").is_none() {
        return;
    }
    let path =
        PathBuf::from(std::env::var_os("LEVERETPLATE_LIBRARY").expect("LEVERETPLATE_LIBRARY names the static library"));
    // The linker gets the archive itself, so that the compiler does not look into it.
    println!("cargo:rerun-if-changed={}", path.display());
    println!("cargo:rustc-link-arg-bins={}", path.display());
}
