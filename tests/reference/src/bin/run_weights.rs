//! Runs the program that weighs logs on many lists of files, and stops at the first that it does not answer as the reference
//! does: `cargo run --bin run_weights -- PROGRAM ROUNDS FAILED`. ROUNDS of the lists are seeded; the others are always the
//! same. The logs are files in the folder FAILED, where those of a list that fails are left, numbered in its order.

use reference::captures::figures::{figures, Call};
use reference::captures::{cut, logs, weight, Fraction, UNJUDGED};
use reference::child::written_for;
use reference::random::Random;
use std::path::{Path, PathBuf};
use std::{env, fs, io};

/// The most logs of a list.
const MOST: usize = 6;

/// Lengths of files about those of what is read at once.
const LENGTHS: [usize; 11] = [
    0, 1, 2, 3, 4095, 4096, 4097, 65_535, 65_536, 65_537, 131_073,
];
const LONGEST: usize = 300_000;

/// The program under test, the folder of the logs, on how many lists it was run, and how many of these it refused.
struct Program<'a> {
    path: &'a str,
    folder: &'a Path,
    runs: usize,
    refused: usize,
}

/// The line that the program prints, and whether it is a refusal.
fn expected(list: &[&[u8]]) -> (String, bool) {
    let weighed = logs(list).and_then(|fraction| Ok((fraction, weight(fraction)?)));
    match weighed {
        Ok((Fraction { discarded, judged }, weight)) => {
            (format!("{discarded} {judged} {weight}\n"), false)
        }
        Err(number) => (format!("refused {number}\n"), true),
    }
}

impl Program<'_> {
    fn file(&self, number: usize) -> PathBuf {
        self.folder.join(format!("{number}.log"))
    }

    /// The files of a list, in its order, and no other. A log that the list has twice is one file, named twice.
    fn lay(&self, list: &[&[u8]]) -> io::Result<Vec<PathBuf>> {
        self.clear()?;
        let mut files = Vec::new();
        for (at, log) in list.iter().enumerate() {
            let first = list.iter().position(|other| other == log).unwrap_or(at);
            let file = self.file(first + 1);
            if first == at {
                fs::write(&file, log)?;
            }
            files.push(file);
        }
        Ok(files)
    }

    fn clear(&self) -> io::Result<()> {
        for number in 1..=2 * MOST {
            match fs::remove_file(self.file(number)) {
                Err(error) if error.kind() != io::ErrorKind::NotFound => return Err(error),
                _ => {}
            }
        }
        Ok(())
    }

    /// What the program prints for a list, once that is what the reference says and nothing is on standard error.
    fn check(&mut self, name: &str, list: &[&[u8]]) -> io::Result<String> {
        let files = self.lay(list)?;
        let (line, refused) = expected(list);
        self.runs += 1;
        self.refused += usize::from(refused);
        match written_for(self.path, &files) {
            Ok(said) if said.output == line.as_bytes() && said.error.is_empty() => Ok(line),
            other => {
                let lengths: Vec<usize> = list.iter().map(|log| log.len()).collect();
                let text = |bytes: &[u8]| String::from_utf8_lossy(bytes).into_owned();
                let said = other.map(|said| (text(&said.output), text(&said.error)));
                Err(io::Error::other(format!(
                    "{name}, logs of {lengths:?} bytes: expected {line:?}, the program: {said:?}"
                )))
            }
        }
    }

    /// A list, and it in another order, which prints the same.
    fn both(&mut self, name: &str, list: &[&[u8]], other: &[&[u8]]) -> io::Result<()> {
        let line = self.check(name, list)?;
        match self.check(name, other)? == line {
            true => Ok(()),
            false => Err(io::Error::other(format!("{name}: the order matters"))),
        }
    }
}

/// The typed figures on logs, with what they say of the line.
fn typed(program: &mut Program) -> io::Result<()> {
    for (name, call, answer) in figures() {
        let (bytes, lengths) = match call {
            Call::Log(log) => {
                let length = log.len() as u64;
                (log, vec![length])
            }
            Call::Logs(bytes, lengths) => (bytes, lengths),
            _ => continue,
        };
        let line = program.check(name, &cut(&bytes, &lengths))?;
        let start = match answer[2] {
            0 => format!("refused {UNJUDGED}\n"),
            judged => format!("{} {judged} ", answer[1]),
        };
        if !line.starts_with(&start) {
            return Err(io::Error::other(format!("{name}: {line:?}")));
        }
    }
    Ok(())
}

/// Each length alone, behind and before a log of two packets, and twice.
fn lengths(program: &mut Program, random: &mut Random) -> io::Result<()> {
    for length in LENGTHS.into_iter().chain([LONGEST]) {
        let (log, two) = (random.log(length), random.log(2));
        let name = format!("{length} bytes");
        program.check(&name, &[&log])?;
        program.both(&name, &[&log, &two], &[&two, &log])?;
        program.check(&format!("{name}, twice"), &[&log, &log])?;
    }
    program.check("no file", &[])?;
    Ok(())
}

fn length(random: &mut Random) -> usize {
    match random.below(3) {
        0 => random.one_of(&LENGTHS),
        1 => random.below(300),
        _ => random.below(LONGEST + 1),
    }
}

/// A list of up to 6 logs, some of them empty, in two orders; now and then one of them twice.
fn seeded(program: &mut Program, random: &mut Random, round: usize) -> io::Result<()> {
    let count = random.below(MOST + 1);
    let mut log = |_| {
        let length = length(random);
        random.log(length)
    };
    let owned: Vec<Vec<u8>> = (0..count).map(&mut log).collect();
    let mut list: Vec<&[u8]> = owned.iter().map(|log| &log[..]).collect();
    if count > 0 && random.one_in(4) {
        list.push(list[random.below(count)]);
    }
    let other = random.shuffled(&list);
    program.both(&format!("seeded list {round}"), &list, &other)
}

fn main() -> io::Result<()> {
    let words: Vec<String> = env::args().skip(1).collect();
    let [path, rounds, failed] = &words[..] else {
        let usage = "usage: run_weights PROGRAM ROUNDS FAILED";
        return Err(io::Error::other(usage));
    };
    let rounds: usize = rounds.parse().map_err(io::Error::other)?;
    let folder = Path::new(failed);
    fs::create_dir_all(folder)?;
    let mut program = Program {
        path,
        folder,
        runs: 0,
        refused: 0,
    };
    typed(&mut program)?;
    let mut random = Random::new(37);
    lengths(&mut program, &mut random)?;
    for round in 0..rounds {
        seeded(&mut program, &mut random, round)?;
    }
    program.clear()?;
    fs::remove_dir(folder)?;
    println!(
        "{} lists of logs: the program prints what the reference does; {} are refused",
        program.runs, program.refused
    );
    Ok(())
}
