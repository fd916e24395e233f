//! Writes the input and the expected output of the writer's test program to the two files named:
//! `cargo run --bin writer_vectors -- STDIN STDOUT`.

use std::{env, fs, io};

fn main() -> io::Result<()> {
    let files: Vec<String> = env::args().skip(1).collect();
    let [input, expected] = &files[..] else {
        return Err(io::Error::other("usage: writer_vectors STDIN STDOUT"));
    };
    let writes = reference::writes::writes();
    fs::write(input, writes.input)?;
    fs::write(expected, writes.expected)
}
