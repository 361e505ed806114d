//! Links the proved libraries that the features `proved` and `before` ask for.

use std::path::PathBuf;

/// Whether a feature is asked for.
fn asked(feature: &str) -> bool {
    std::env::var_os(format!("CARGO_FEATURE_{feature}")).is_some()
}

/// Names the archive `lib<name>.a` in a folder of the repository to the linker, or says what writes it.
fn link(folder: &str, name: &str, writer: &str) {
    let package = PathBuf::from(std::env::var("CARGO_MANIFEST_DIR").unwrap_or_default());
    let directory = package.join("../..").join(folder);
    let archive = directory.join(format!("lib{name}.a"));
    let shown = archive.display();
    assert!(archive.exists(), "the proved library {shown} is not there; `{writer}` writes it");
    println!("cargo:rerun-if-changed={shown}");
    println!("cargo:rustc-link-search=native={}", directory.display());
    println!("cargo:rustc-link-lib=static={name}");
}

/// Links the library of this tree, or the one that PANELRUE_LIB names, and the earlier release.
fn main() {
    println!("cargo:rerun-if-env-changed=PANELRUE_LIB");
    if asked("PROVED") {
        match std::env::var("PANELRUE_LIB") {
            Ok(name) => link("target/staticlib", &name, "tests/releases"),
            Err(_) => link("crates/panelrue_c/out", "panelrue_c", "c/port x86-64"),
        }
    }
    if asked("BEFORE") {
        link("target/staticlib", "panelrue_before", "tests/releases");
    }
}
