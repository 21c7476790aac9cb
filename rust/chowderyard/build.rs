//! Finds libchowderyard.a: in the folder that CHOWDERYARD_LIB_DIR names, or where `tools/staticlib` puts it.

use std::env;
use std::path::PathBuf;

fn main() {
    println!("cargo:rerun-if-env-changed=CHOWDERYARD_LIB_DIR");
    let folder = match env::var_os("CHOWDERYARD_LIB_DIR") {
        Some(folder) => PathBuf::from(folder),
        None => PathBuf::from(env::var_os("CARGO_MANIFEST_DIR").expect("cargo sets it"))
            .join("../../target/staticlib"),
    };
    let library = folder.join("libchowderyard.a");
    println!("cargo:rerun-if-changed={}", library.display());
    let arch = env::var("CARGO_CFG_TARGET_ARCH").unwrap_or_default();
    let os = env::var("CARGO_CFG_TARGET_OS").unwrap_or_default();
    if arch != "x86_64" || os != "linux" {
        fail(&format!(
            "libchowderyard.a is compiled for x86_64 Linux, and this build is for {arch} {os}"
        ));
    }
    if !library.is_file() {
        fail(&format!(
            "{} is not there. Make it with `tools/staticlib` in the project's root, \
             or set CHOWDERYARD_LIB_DIR to the folder that has libchowderyard.a",
            library.display()
        ));
    }
    // rustc may run in another folder than this script does
    let folder = folder.canonicalize().unwrap_or(folder);
    println!("cargo:rustc-link-search=native={}", folder.display());
    println!("cargo:rustc-link-lib=static=chowderyard");
}

fn fail(why: &str) -> ! {
    eprintln!("chowderyard: {why}");
    std::process::exit(1)
}
