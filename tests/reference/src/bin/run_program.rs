//! Runs the program on many inputs, each through a pipe, and stops at the first output that is not the reference's own:
//! `cargo run --bin run_program -- PROGRAM COUNT FAILED`. COUNT of the inputs are seeded sheets; the others are always
//! the same. The input that fails is left in the file FAILED.

use reference::child::{written, Written};
use reference::common::repeater;
use reference::csv::import;
use reference::distances;
use reference::files::stored;
use reference::paper::{done_and_full, ring, whole_sheet};
use reference::random::Random;
use reference::report::{enclosing_lines, report};
use reference::shares;
use reference::sheet::{encode, of_one_cue, Sheet};
use reference::{by_distance, by_share, LONGEST_SHEET, SHARE};
use std::{env, fs, io};

/// The program under test, where a failing input goes, how many inputs it was run on, and how many of its lines were
/// set beside the count over all assignments.
struct Program<'a> {
    path: &'a str,
    failed: &'a str,
    runs: usize,
    counted: usize,
}

impl Program<'_> {
    fn check(&mut self, name: &str, bytes: &[u8]) -> io::Result<()> {
        self.runs += 1;
        match self.judged(bytes) {
            Ok(lines) => {
                self.counted += lines;
                Ok(())
            }
            Err(told) => {
                fs::write(self.failed, bytes)?;
                Err(io::Error::other(format!("{name}: {told}")))
            }
        }
    }

    /// How many lines were counted, or in words what is wrong.
    fn judged(&self, bytes: &[u8]) -> Result<usize, String> {
        let expected = report(bytes);
        match written(self.path, bytes) {
            Ok(Written { output, error }) if output == expected.as_bytes() && error.is_empty() => {
                enclosing_lines(bytes, &expected)
            }
            other => {
                let printed = other.map(|said| String::from_utf8_lossy(&said.output).into_owned());
                Err(format!("expected {expected:?}, the program: {printed:?}"))
            }
        }
    }
}

/// The i-th seeded input: two sound sheets to a damaged one, most of the sound ones small, a few of the longest kind.
fn sheet(random: &mut Random, i: usize) -> Vec<u8> {
    match i {
        _ if i % 600 == 599 => encode(&random.longest_sheet()),
        _ if i % 3 == 2 => random.damaged_sheet(),
        _ if i % 10 == 0 => encode(&random.sheet()),
        _ => encode(&random.sheet_within(12, 6, 8)),
    }
}

/// Every beginning of a sheet, the whole included.
fn cut(program: &mut Program, name: &str, bytes: &[u8]) -> io::Result<()> {
    for length in 0..=bytes.len() {
        program.check(&format!("{name}, {length} bytes"), &bytes[..length])?;
    }
    Ok(())
}

/// Every byte of a sheet set to values that are often special.
fn damage(program: &mut Program, name: &str, bytes: &[u8]) -> io::Result<()> {
    for at in 0..bytes.len() {
        for value in [0, 1, 2, 64, 127, 128, 255] {
            let mut damaged = bytes.to_vec();
            damaged[at] = value;
            program.check(&format!("{name}, byte {at} is {value}"), &damaged)?;
        }
    }
    Ok(())
}

/// Inputs of many lengths, up to far above the longest sheet, that are no sheets.
fn noise(program: &mut Program, random: &mut Random) -> io::Result<()> {
    let steps = (1..60).map(|thousands| 1000 * thousands);
    let edges = [4095, 4096, 4097, 49_611, 49_612, 49_613, 49_614, 60_000];
    for length in (0..64).chain(steps).chain(edges) {
        program.check(&format!("{length} zeros"), &vec![0; length])?;
        program.check(&format!("{length} bytes 255"), &vec![255; length])?;
        let mut bytes: Vec<u8> = (0..length).map(|_| random.draw() as u8).collect();
        program.check(&format!("{length} random bytes"), &bytes)?;
        // The same behind a head that is in order: 64 faults, 24 cues.
        for (place, byte) in bytes.iter_mut().zip([64, 0, 24, 0, 0, 0, 0, 0, 9, 0, 0, 0]) {
            *place = byte;
        }
        program.check(&format!("a head, {length} bytes in all"), &bytes)?;
    }
    Ok(())
}

fn main() -> io::Result<()> {
    let words: Vec<String> = env::args().skip(1).collect();
    let [path, count, failed] = &words[..] else {
        return Err(io::Error::other("usage: run_program PROGRAM COUNT FAILED"));
    };
    let count: usize = count.parse().map_err(io::Error::other)?;
    let mut program = Program {
        path,
        failed,
        runs: 0,
        counted: 0,
    };
    let mut random = Random::new(20);
    for i in 0..count {
        program.check(&format!("seeded sheet {i}"), &sheet(&mut random, i))?;
    }
    for limits in [by_distance(0, 255), by_share(0, 255)] {
        let of_one = |table| encode(&of_one_cue(table, limits));
        program.check("full", &of_one(ring()))?;
        program.check("done before full", &of_one(done_and_full()))?;
        program.check("a repeater in 128 ways", &of_one(repeater()))?;
    }
    let paper = whole_sheet(40);
    cut(&mut program, "paper", &encode(&paper))?;
    damage(&mut program, "paper", &encode(&paper))?;
    let share = Sheet {
        mode: SHARE,
        ..paper
    };
    damage(&mut program, "paper by share", &encode(&share))?;
    cut(&mut program, "show", &stored("samples/show.sheet"))?;
    program.check("near", &stored("samples/near.sheet"))?;
    cut(
        &mut program,
        "redundant",
        &stored("samples/redundant.sheet"),
    )?;
    cut(&mut program, "common", &stored("samples/common.sheet"))?;
    cut(&mut program, "kept", &stored("samples/kept.sheet"))?;
    cut(&mut program, "share", &stored("samples/share.sheet"))?;
    program.check("faint", &stored("samples/faint.sheet"))?;
    let distances = distances::cases().into_iter();
    let distances = distances.map(distances::Case::printed);
    let shares = shares::cases().into_iter().map(shares::Case::printed);
    for (name, sheet, text) in distances.chain(shares) {
        let bytes = encode(&sheet);
        assert_eq!(report(&bytes), text, "{name}");
        program.check(name, &bytes)?;
    }
    for (text, printed) in shares::printed() {
        let mut sheet = vec![0; LONGEST_SHEET];
        let length = import(&text, &mut sheet).count as usize;
        sheet.truncate(length);
        assert_eq!(report(&sheet), printed);
        program.check("a sheet from a text", &sheet)?;
    }
    let mut longer = encode(&random.longest_sheet());
    longer.resize(60_000, 0);
    program.check("longest with zeros behind", &longer)?;
    noise(&mut program, &mut random)?;
    println!(
        "{} inputs: the program prints what the reference does; {} lines beside the count",
        program.runs, program.counted
    );
    Ok(())
}
