//! Writes the expected output of the test program that reports on built-in sheets to the file named:
//! `cargo run --bin sheet_vectors -- STDOUT`.

use std::{env, fs, io};

fn main() -> io::Result<()> {
    let files: Vec<String> = env::args().skip(1).collect();
    let [expected] = &files[..] else {
        return Err(io::Error::other("usage: sheet_vectors STDOUT"));
    };
    fs::write(expected, reference::sheets::sheets())
}
