//! For build scripts: finds a static library of the repository and links it.

use std::env;
use std::path::PathBuf;

/// Links `lib{name}.a`, and answers where it is.
pub fn link(name: &str) -> PathBuf {
    println!("cargo:rerun-if-env-changed=LSC_LIB_DIR");
    let package = PathBuf::from(env::var_os("CARGO_MANIFEST_DIR").expect("cargo sets it"));
    let folder = match env::var_os("LSC_LIB_DIR") {
        Some(folder) => package.join(folder),
        None => package.join("../../crates").join(name).join("out"),
    };
    let archive = folder.join(format!("lib{name}.a"));
    println!("cargo:rerun-if-changed={}", archive.display());
    let Ok(archive) = archive.canonicalize() else {
        panic!(
            "{} is missing: run \"rt lib\" in the folder crates/{name} first \
             (or set LSC_LIB_DIR to the folder that has it)",
            archive.display()
        );
    };
    let folder = archive.parent().expect("a file stands in a folder");
    println!("cargo:rustc-link-search=native={}", folder.display());
    println!("cargo:rustc-link-lib=static={name}");
    archive
}
