//! Runs the programs that import and export on many inputs, each through a pipe, and stops at the first that does not write
//! what the reference does: `cargo run --bin run_texts -- IMPORT EXPORT COUNT FAILED`. COUNT of the rounds are seeded; the
//! other inputs are always the same. The input that fails is left in the file FAILED.

use reference::child::{written, Written};
use reference::csv::figures::{figures, longest, taken, typed};
use reference::csv::stored::{accepted, refused};
use reference::csv::{
    export, import, joined, quoted, table, LONGEST_QUOTED, LONGEST_TEXT, MISREAD,
};
use reference::files::stored;
use reference::random::Random;
use reference::sheet::encode;
use reference::sheets::named;
use reference::{Answer, LONGEST_SHEET};
use std::{env, fs, io};

/// The most of a text that import's program reads: one byte more than any that is accepted has.
const MOST_READ: usize = LONGEST_QUOTED + 1;

/// Which of the two programs runs.
#[derive(Clone, Copy, Debug)]
enum Call {
    Import,
    Export,
}

/// The refusals of each program, all of which the inputs meet. 22 never comes: the programs have the space that the longest
/// needs.
const IMPORT_REFUSALS: [usize; 9] = [2, 5, 6, 10, 12, 13, 14, 15, 23];
const EXPORT_REFUSALS: [usize; 13] = [1, 2, 3, 4, 5, 6, 7, 8, 10, 12, 13, 14, 15];

/// The programs under test, where a failing input goes, and how often each program gave each number, 0 for accepted.
struct Programs<'a> {
    import: &'a str,
    export: &'a str,
    failed: &'a str,
    met: [[usize; 24]; 2],
}

/// The number that a call gives in so much space, and what its program writes.
fn made(call: fn(&[u8], &mut [u8]) -> Answer, input: &[u8], space: usize) -> (u64, Written) {
    let mut output = vec![0; space];
    let answer = call(input, &mut output);
    let (length, error) = match answer.number {
        0 => (answer.count as usize, String::new()),
        MISREAD => (0, format!("refused 23 at record {}\n", answer.count)),
        number => (0, format!("refused {number}\n")),
    };
    output.truncate(length);
    let error = error.into_bytes();
    (answer.number, Written { output, error })
}

fn expected(call: Call, input: &[u8]) -> (u64, Written) {
    match call {
        Call::Import => made(import, &input[..input.len().min(MOST_READ)], LONGEST_SHEET),
        Call::Export => made(export, input, LONGEST_TEXT),
    }
}

impl Programs<'_> {
    /// What the program writes to standard output, once all that it writes is what the reference does.
    fn check(&mut self, call: Call, name: &str, input: &[u8]) -> io::Result<Vec<u8>> {
        let path = match call {
            Call::Import => self.import,
            Call::Export => self.export,
        };
        let (number, expected) = expected(call, input);
        match written(path, input) {
            Ok(written) if written == expected => {
                self.met[call as usize][number as usize] += 1;
                Ok(written.output)
            }
            other => {
                let expected = shown(&expected);
                let written = other.as_ref().map_or_else(io::Error::to_string, shown);
                let told = format!("expected {expected}; the program: {written}");
                self.fail(&format!("{call:?} of {name}: {told}"), input)
            }
        }
    }

    /// What import's program makes of a text.
    fn text(&mut self, name: &str, text: &[u8]) -> io::Result<Vec<u8>> {
        self.check(Call::Import, name, text)
    }

    /// What export's program makes of a sheet.
    fn sheet(&mut self, name: &str, sheet: &[u8]) -> io::Result<Vec<u8>> {
        self.check(Call::Export, name, sheet)
    }

    /// A text imports to this sheet.
    fn imports(&mut self, name: &str, text: &[u8], sheet: &[u8]) -> io::Result<()> {
        match self.text(name, text)? == sheet {
            true => Ok(()),
            false => self.fail(&format!("Import of {name}: another sheet"), text),
        }
    }

    /// A sheet exports to this text, which imports to the sheet again.
    fn both_ways(&mut self, name: &str, sheet: &[u8], text: &[u8]) -> io::Result<()> {
        match self.sheet(name, sheet)? == text {
            true => self.imports(name, text, sheet),
            false => self.fail(&format!("Export of {name}: another text"), sheet),
        }
    }

    fn fail<T>(&self, told: &str, input: &[u8]) -> io::Result<T> {
        fs::write(self.failed, input)?;
        Err(io::Error::other(told.to_string()))
    }
}

/// The length and the start of what was written, and all of the error.
fn shown(written: &Written) -> String {
    let start = &written.output[..written.output.len().min(200)];
    format!(
        "{} bytes \"{}\", error \"{}\"",
        written.output.len(),
        start.escape_ascii(),
        written.error.escape_ascii()
    )
}

/// The typed figures, the texts that were made elsewhere, and the named sheets.
fn listed(programs: &mut Programs) -> io::Result<()> {
    for (name, figures) in figures() {
        for figure in figures {
            programs.text(name, &figure.text)?;
        }
    }
    for (name, figure) in refused() {
        programs.text(&name, &figure.text)?;
    }
    let typed = |taken| ("a typed text".to_string(), taken);
    for (name, taken) in taken().into_iter().map(typed).chain(accepted()) {
        programs.imports(&name, &taken.text, &taken.sheet)?;
        programs.both_ways(&name, &taken.sheet, &taken.plain)?;
    }
    for (name, sheet) in named() {
        programs.sheet(name, &sheet)?;
    }
    Ok(())
}

/// The samples both ways, and every beginning of the show as text and as sheet.
fn samples(programs: &mut Programs) -> io::Result<()> {
    let (text, sheet) = (stored("samples/show.csv"), stored("samples/show.sheet"));
    programs.both_ways("show", &sheet, &text)?;
    let share = stored("samples/share.csv");
    programs.both_ways("share", &stored("samples/share.sheet"), &share)?;
    for name in ["paper", "redundant", "near", "common", "kept", "faint"] {
        let sheet = stored(&format!("samples/{name}.sheet"));
        let text = programs.sheet(name, &sheet)?;
        programs.imports(name, &text, &sheet)?;
    }
    for (call, input) in [(Call::Import, text), (Call::Export, sheet)] {
        for length in 0..input.len() {
            programs.check(call, &format!("show, {length} bytes"), &input[..length])?;
        }
    }
    Ok(())
}

/// A seeded round: a sheet both ways and a text of it as a spreadsheet may write it, then two damaged texts and a damaged
/// sheet. A few of the sheets are of the longest kind.
fn seeded(programs: &mut Programs, random: &mut Random, i: usize) -> io::Result<()> {
    let name = format!("seeded round {i}");
    let (sheet, text) = random.text();
    programs.imports(&name, &text, &encode(&sheet))?;
    let sheet = match i % 100 {
        99 => random.longest_sheet(),
        _ => sheet,
    };
    programs.both_ways(&name, &encode(&sheet), &joined(&table(&sheet)))?;
    for _ in 0..2 {
        programs.text(&name, &random.damaged_text())?;
    }
    programs.sheet(&name, &random.damaged_sheet())?;
    Ok(())
}

/// The largest sheet and its longest texts, bare and quoted, and the same with more behind them: no longer input is taken
/// for its front.
fn long(programs: &mut Programs) -> io::Result<()> {
    let sheet = longest();
    let (bytes, bare) = (encode(&sheet), joined(&table(&sheet)));
    let quoted = joined(&quoted(&table(&sheet)));
    let lengths = (bytes.len(), bare.len(), quoted.len());
    assert_eq!(lengths, (LONGEST_SHEET, LONGEST_TEXT, LONGEST_QUOTED));
    programs.both_ways("the largest sheet", &bytes, &bare)?;
    programs.imports("the longest text, quoted", &quoted, &bytes)?;
    programs.imports("without its end", &quoted[..quoted.len() - 2], &bytes)?;
    for more in ["\r", "\r\n", "1", "\"10023\",\"-1\"⏎"] {
        let text = [&quoted[..], &typed(more)].concat();
        programs.text(&format!("the longest and {more:?}"), &text)?;
    }
    let ways = typed(&format!("run,1,2⏎weights,5⏎{}", "7,1⏎".repeat(400_000)));
    for length in [MOST_READ - 1, MOST_READ, MOST_READ + 1, 2_000_000] {
        programs.text(&format!("ways, {length} bytes"), &ways[..length])?;
        programs.text(&format!("{length} zeros"), &vec![0; length])?;
    }
    for length in [LONGEST_SHEET + 1, LONGEST_SHEET + 2, 60_000, 2_000_000] {
        let mut longer = bytes.clone();
        longer.resize(length, 0);
        programs.sheet(&format!("the largest, {length} bytes"), &longer)?;
        programs.sheet(&format!("{length} bytes 255"), &vec![255; length])?;
    }
    Ok(())
}

fn main() -> io::Result<()> {
    let words: Vec<String> = env::args().skip(1).collect();
    let [import, export, count, failed] = &words[..] else {
        return Err(io::Error::other(
            "usage: run_texts IMPORT EXPORT COUNT FAILED",
        ));
    };
    let count: usize = count.parse().map_err(io::Error::other)?;
    let mut programs = Programs {
        import,
        export,
        failed,
        met: [[0; 24]; 2],
    };
    listed(&mut programs)?;
    samples(&mut programs)?;
    let mut random = Random::new(25);
    for i in 0..count {
        seeded(&mut programs, &mut random, i)?;
    }
    long(&mut programs)?;
    let [imports, exports] = programs.met;
    let missed = |met: [usize; 24], refusals: &[usize]| refusals.iter().any(|&n| met[n] == 0);
    if missed(imports, &IMPORT_REFUSALS) || missed(exports, &EXPORT_REFUSALS) {
        let told = format!("a refusal was never met: {imports:?}, {exports:?}");
        return Err(io::Error::other(told));
    }
    println!(
        "{} texts and {} sheets: the programs write what the reference does; {} and {} are accepted",
        imports.iter().sum::<usize>(),
        exports.iter().sum::<usize>(),
        imports[0],
        exports[0]
    );
    Ok(())
}
