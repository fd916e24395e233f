//! The repository's stored files, as the tests read them.

use std::path::PathBuf;
use std::{env, fs};

/// The root of the repository. Cargo names the folder of the package that it runs, two levels down; it is asked at run
/// time, so that a copied repository reads its own files. Without cargo the root is where the program was started.
fn root() -> PathBuf {
    let package = env::var_os("CARGO_MANIFEST_DIR").map(PathBuf::from);
    package.map_or_else(PathBuf::new, |package| package.join("../.."))
}

/// A file of the repository, named from its root. Panics if it cannot be read.
pub fn stored(name: &str) -> Vec<u8> {
    let file = root().join(name);
    fs::read(&file).unwrap_or_else(|error| panic!("{}: {error}", file.display()))
}

/// A stored text.
pub fn stored_text(name: &str) -> String {
    String::from_utf8(stored(name)).unwrap_or_else(|error| panic!("{name}: {error}"))
}
