//! Writes the input and the expected output of the test program that opens tables and
//! refines trees, to the two files named: `cargo run --bin tree_vectors -- STDIN STDOUT`.

use std::{env, fs, io};

fn main() -> io::Result<()> {
    let files: Vec<String> = env::args().skip(1).collect();
    let [input, expected] = &files[..] else {
        return Err(io::Error::other("usage: tree_vectors STDIN STDOUT"));
    };
    let vectors = reference::vectors::vectors();
    fs::write(input, vectors.input)?;
    fs::write(expected, vectors.expected)
}
