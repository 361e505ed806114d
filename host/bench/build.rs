//! Moves the program's code where PANELRUE_SHIFT asks for it, and links the copies of the proved library that the feature `copies` asks for.

use std::path::PathBuf;

/// Hands the bytes on by which code is moved, and names the archive `<repository>/target/staticlib/libpanelrue_copies.a` to the linker.
fn main() {
    println!("cargo:rerun-if-env-changed=PANELRUE_SHIFT");
    println!("cargo:rerun-if-changed=build.rs");
    let bytes = std::env::var("PANELRUE_SHIFT").unwrap_or_else(|_| "0".to_string());
    println!("cargo:rustc-env=PANELRUE_SHIFT={bytes}");
    if std::env::var_os("CARGO_FEATURE_COPIES").is_none() {
        return;
    }
    let package = PathBuf::from(std::env::var("CARGO_MANIFEST_DIR").unwrap_or_default());
    let directory = package.join("../../target/staticlib");
    let archive = directory.join("libpanelrue_copies.a");
    let shown = archive.display();
    assert!(archive.exists(), "the copies {shown} are not there; `tests/alignments` writes them");
    println!("cargo:rerun-if-changed={shown}");
    println!("cargo:rustc-link-search=native={}", directory.display());
    println!("cargo:rustc-link-lib=static=panelrue_copies");
}
