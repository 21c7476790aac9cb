// With the feature `port`: links the static library that CHOWDER_LIBRARY names; with `clibrary` the one that CHOWDER_CLIBRARY names.

use std::env;
use std::path::Path;

fn main() {
    println!("cargo:rerun-if-changed=build.rs");
    link("CARGO_FEATURE_PORT", "CHOWDER_LIBRARY");
    link("CARGO_FEATURE_CLIBRARY", "CHOWDER_CLIBRARY");
}

fn link(feature: &str, variable: &str) {
    println!("cargo:rerun-if-env-changed={variable}");
    if env::var_os(feature).is_none() {
        return;
    }
    let file = env::var(variable).unwrap_or_else(|_| panic!("{variable} names the static library"));
    let path = Path::new(&file);
    let folder = path.parent().expect("a folder");
    let stem = path.file_stem().and_then(|s| s.to_str()).expect("a file name");
    let name = stem.strip_prefix("lib").expect("a file libNAME.a");
    println!("cargo:rerun-if-changed={file}");
    println!("cargo:rustc-link-search=native={}", folder.display());
    println!("cargo:rustc-link-lib=static={name}");
}
