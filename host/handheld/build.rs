//! Links the proved library where the feature `proved` asks for it.

use std::path::PathBuf;

/// Names the archive that `rt lib` writes in `<repository>/crates/panelrue_c`, or `<repository>/target/staticlib/lib<PANELRUE_LIB>.a` where that
/// is set, to the linker.
fn main() {
    println!("cargo:rerun-if-env-changed=PANELRUE_LIB");
    if std::env::var_os("CARGO_FEATURE_PROVED").is_none() {
        return;
    }
    let (folder, name) = match std::env::var("PANELRUE_LIB") {
        Ok(name) => ("target/staticlib", name),
        Err(_) => ("crates/panelrue_c/out", "panelrue_c".to_string()),
    };
    let package = PathBuf::from(std::env::var("CARGO_MANIFEST_DIR").unwrap_or_default());
    let directory = package.join("../..").join(folder);
    let archive = directory.join(format!("lib{name}.a"));
    assert!(archive.exists(), "the proved library {} is not there", archive.display());
    println!("cargo:rerun-if-changed={}", archive.display());
    println!("cargo:rustc-link-search=native={}", directory.display());
    println!("cargo:rustc-link-lib=static={name}");
}
