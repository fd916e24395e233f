//! Links the static library that `./build.sh cuerisk` writes; CUE_RISK_LIB names another folder that has one.

use std::{env, path::PathBuf};

fn main() {
    // Seen from the package's folder, where cargo runs this and the compiler, so that a copied repository links its own.
    let folder = env::var_os("CUE_RISK_LIB").map_or_else(|| "../../target/staticlib".into(), PathBuf::from);
    let library = folder.join("libcuerisk.a");
    if !library.exists() {
        println!("cargo:warning=no {}: `./build.sh cuerisk` writes it", library.display());
    }
    println!("cargo:rustc-link-search=native={}", folder.display());
    println!("cargo:rustc-link-lib=static=cuerisk");
    println!("cargo:rerun-if-env-changed=CUE_RISK_LIB");
    println!("cargo:rerun-if-changed={}", library.display());
}
