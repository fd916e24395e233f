//! The built programs, run as child processes: each reads standard input or the files that it is handed, and nothing else.

use std::ffi::OsStr;
use std::io::{self, Write};
use std::process::{Command, Output, Stdio};
use std::thread;

/// What a program writes to standard output and to standard error.
#[derive(Debug, Default, PartialEq, Eq)]
pub struct Written {
    pub output: Vec<u8>,
    pub error: Vec<u8>,
}

/// What a program writes that gets an input through a pipe. It may end before it has read all of a long one, and it fails
/// if it does not end well.
pub fn written(program: &str, input: &[u8]) -> io::Result<Written> {
    let mut child = Command::new(program)
        .stdin(Stdio::piped())
        .stdout(Stdio::piped())
        .stderr(Stdio::piped())
        .spawn()?;
    let pipe = child.stdin.take();
    let ended = thread::scope(|scope| {
        // Beside the reading, so that neither side waits for the other.
        let writing = scope.spawn(|| pipe.map_or(Ok(()), |mut pipe| pipe.write_all(input)));
        let ended = child.wait_with_output()?;
        match writing.join() {
            Ok(Err(error)) if error.kind() != io::ErrorKind::BrokenPipe => Err(error),
            _ => Ok(ended),
        }
    })?;
    well(ended)
}

/// What a program writes that is handed words and no input. It fails if it does not end well.
pub fn written_for<W: AsRef<OsStr>>(program: &str, words: &[W]) -> io::Result<Written> {
    let ended = Command::new(program)
        .args(words)
        .stdin(Stdio::null())
        .output()?;
    well(ended)
}

fn well(ended: Output) -> io::Result<Written> {
    match ended.status.success() {
        true => Ok(Written {
            output: ended.stdout,
            error: ended.stderr,
        }),
        false => Err(io::Error::other(ended.status.to_string())),
    }
}
