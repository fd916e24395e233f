//! Links the library that `./build.sh cuerisk` writes; CUE_RISK_LIB names another folder that holds libcuerisk.a.
//! If the folder holds a libother.a, another build with its symbols renamed, this is linked too.

use std::{env, path::PathBuf};

fn main() {
    println!("cargo:rerun-if-env-changed=CUE_RISK_LIB");
    println!("cargo:rustc-check-cfg=cfg(beside)");
    // Seen from the package's folder, where cargo runs this and the compiler, so that a copied repository links its own.
    let usual = || PathBuf::from("../../target/staticlib");
    let folder = env::var_os("CUE_RISK_LIB").map_or_else(usual, PathBuf::from);
    let changed = |library| println!("cargo:rerun-if-changed={}", folder.join(library).display());
    changed("libcuerisk.a");
    println!("cargo:rustc-link-search=native={}", folder.display());
    println!("cargo:rustc-link-lib=static=cuerisk");
    if folder.join("libother.a").exists() {
        changed("libother.a");
        println!("cargo:rustc-link-lib=static=other");
        println!("cargo:rustc-cfg=beside");
    }
}
