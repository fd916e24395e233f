//! Measures the library against the same rules and loops in Rust, on the same sheets: prints tables in markdown.
//! Both sides alternate; a time is the median of the rounds. Every report, answer and tree has to be equal.
//!
//! `bench`: the tables. `bench texts`: the one on comma separated text, with a third side, tuned and not in the library's loops.
//! `bench logs`: the one on logs. `bench stack`: the stack that the largest sheet needs.
//! `bench once SIDE FAMILY` or `bench once SIDE CALL`: one sheet or text, for a profiler. `bench beside`, if another build is linked: the
//! tables for that and this one, without the last two, since another build may have no calls on text or on logs.

use std::array;
use std::hint::black_box;
use std::io::{self, Write};
use std::time::Duration;

use bench::formula::Table;
use bench::run::{self, Answer, Limits};
use bench::sheets::Shape;
use bench::tree::Tree;
use bench::{clock, csv, library, logs, sheet, sheets, texts};

#[cfg(beside)]
mod beside;

/// More than the longest report: 27 bytes and 24 lines of 38.
const ROOM: usize = 1024;
/// The longest text of a sheet.
const TEXT_ROOM: usize = 781_023;
const ROUNDS: usize = 15;
const LEAST: Duration = Duration::from_millis(10);
const SEEDS: u64 = 4;

type Report = fn(&[u8], &mut [u8]) -> usize;

/// What a call writes.
fn text(report: Report, sheet: &[u8]) -> Vec<u8> {
    let mut space = vec![0; TEXT_ROOM];
    let len = report(sheet, &mut space);
    space.truncate(len);
    space
}

/// The refinements that the lines of a report count.
fn steps(text: &[u8]) -> u64 {
    let text = std::str::from_utf8(text).unwrap();
    let count = |line: &str| line.split(' ').nth(3).unwrap().parse::<u64>().unwrap();
    text.lines().skip(1).map(count).sum()
}

/// Refinements a sheet.
fn refinements(report: Report, sheets: &[Vec<u8>]) -> f64 {
    let made: u64 = sheets.iter().map(|sheet| steps(&text(report, sheet))).sum();
    made as f64 / sheets.len() as f64
}

/// The time of so many reports of each sheet.
fn time(report: Report, sheets: &[Vec<u8>], repeat: u32, space: &mut [u8]) -> Duration {
    let start = clock::now();
    for _ in 0..repeat {
        for sheet in sheets {
            black_box(report(black_box(sheet), black_box(space)));
        }
    }
    clock::now() - start
}

fn median(mut times: Vec<f64>) -> f64 {
    times.sort_by(f64::total_cmp);
    times[times.len() / 2]
}

/// Of some sides: microseconds of each, and the first to each.
struct Medians<const N: usize> {
    times: [f64; N],
    ratios: [f64; N],
}

/// Measures the sides in turn.
fn in_turn<S: Copy, const N: usize>(sides: [S; N], mut micros: impl FnMut(S) -> f64) -> Medians<N> {
    let rounds = [(); ROUNDS].map(|()| sides.map(&mut micros));
    let time = |i| rounds.iter().map(|round| round[i]).collect();
    let ratio = |i| rounds.iter().map(|round| round[0] / round[i]).collect();
    Medians {
        times: array::from_fn(|i| median(time(i))),
        ratios: array::from_fn(|i| median(ratio(i))),
    }
}

/// Microseconds a sheet.
fn measure<const N: usize>(sides: [Report; N], sheets: &[Vec<u8>]) -> Medians<N> {
    let mut space = vec![0; TEXT_ROOM];
    let first = sides.map(|report| time(report, sheets, 1, &mut space));
    let once = first
        .into_iter()
        .min()
        .unwrap()
        .max(Duration::from_nanos(1));
    let repeat = (LEAST.as_nanos() / once.as_nanos() + 1) as u32;
    let reports = f64::from(repeat) * sheets.len() as f64;
    in_turn(sides, |report| {
        time(report, sheets, repeat, &mut space).as_secs_f64() * 1e6 / reports
    })
}

fn seeded(shape: &Shape) -> Vec<Vec<u8>> {
    (1..=SEEDS).map(|seed| sheets::sheet(shape, seed)).collect()
}

/// Microseconds a refinement.
fn each(time: f64, steps: f64) -> String {
    if steps == 0.0 {
        return "-".to_string();
    }
    format!("{:.2}", time / steps)
}

/// Compares and measures the two sides on the sheets of a shape.
fn line(name: &str, shape: &Shape) {
    let sheets = seeded(shape);
    let sides: [Report; 2] = [library::report, sheet::report];
    for sheet in &sheets {
        let [ours, theirs] = sides.map(|report| text(report, sheet));
        assert!(ours == theirs, "the reports differ");
    }
    let steps = refinements(library::report, &sheets);
    let Medians { times, ratios } = measure(sides, &sheets);
    let ([library, rust], [_, ratio]) = (times, ratios);
    println!(
        "| {name} | {} | {steps:.0} | {library:.1} | {rust:.1} | {} | {} | {ratio:.2} |",
        sheets[0].len(),
        each(library, steps),
        each(rust, steps)
    );
}

fn heading(first: &str) {
    println!("\n| {first} | bytes | refinements | library, µs a sheet | Rust, µs a sheet | library, µs a refinement | Rust, µs a refinement | ratio |");
    println!("|---|---|---|---|---|---|---|---|");
}

// Runs in pieces: each call builds the tree again for 16

type Open = fn(&mut Tree, &Table) -> Answer;
type Run = fn(&mut Tree, &Table, Limits) -> Answer;
type Calls = (Open, Run);
type Rows = (Vec<u32>, Vec<u64>, Vec<u64>);

/// What each of eight runs is asked for: equal ends, in the shape's mode, with an eighth of its budget.
fn eighth(shape: &Shape) -> Limits {
    Limits {
        allowance: 0,
        budget: shape.budget / 8,
        mode: shape.mode,
    }
}

/// A table opened and run in eight pieces; the tree and the answers of the calls.
fn pieces((open, run): Calls, rows: &Rows, piece: Limits, tree: &mut Tree) -> [Answer; 8] {
    let (weights, present, absent) = rows;
    let table = Table {
        weights,
        present,
        absent,
    };
    open(tree, &table);
    [(); 8].map(|()| run(tree, &table, piece))
}

/// Microseconds of the eight calls.
fn measure_pieces(sides: [Calls; 2], rows: &Rows, piece: Limits) -> Medians<2> {
    let mut tree = Tree::new();
    in_turn(sides, |calls| {
        let start = clock::now();
        for _ in 0..4 {
            black_box(pieces(calls, black_box(rows), piece, &mut tree));
        }
        (clock::now() - start).as_secs_f64() * 1e6 / 4.0
    })
}

/// Compares and measures eight calls on the table of the shape's first cue.
fn pieces_line(name: &str, shape: &Shape) {
    let rows = sheets::first_table(shape, 1);
    let sides: [Calls; 2] = [(library::open, library::run), (run::open, run::run)];
    let mut trees = [Tree::new(), Tree::new()];
    let [a, b] = &mut trees;
    let piece = eighth(shape);
    let ours = pieces(sides[0], &rows, piece, a);
    let theirs = pieces(sides[1], &rows, piece, b);
    assert!(ours == theirs, "the answers differ");
    assert!(a == b, "the trees differ");
    let Medians { times, ratios } = measure_pieces(sides, &rows, piece);
    let ([library, rust], [_, ratio]) = (times, ratios);
    println!("| {name} | {library:.0} | {rust:.0} | {ratio:.2} |");
}

fn pieces_heading(first: &str) {
    println!("\n| {first} | library, µs | Rust, µs | ratio |\n|---|---|---|---|");
}

// Sheets as comma separated text

fn accepted(answer: Answer) -> usize {
    assert_eq!(answer.number, 0);
    answer.count as usize
}

// The library, its loops in Rust, the tuned side
const IMPORTS: [Report; 3] = [
    |text, space| accepted(library::import(text, space)),
    |text, space| accepted(texts::import(text, space)),
    |text, space| accepted(csv::import(text, space)),
];
const EXPORTS: [Report; 3] = [
    |sheet, space| accepted(library::export(sheet, space)),
    |sheet, space| accepted(texts::export(sheet, space)),
    |sheet, space| accepted(csv::export(sheet, space)),
];

/// A call that is measured on some inputs; what it makes of them is known.
struct Call {
    name: &'static str,
    sides: [Report; 3],
    inputs: Vec<Vec<u8>>,
    outputs: Vec<Vec<u8>>,
}

fn text_calls() -> Vec<Call> {
    let import = |name, sheets: &[Vec<u8>], quote| Call {
        name,
        sides: IMPORTS,
        inputs: sheets
            .iter()
            .map(|sheet| sheets::text(sheet, quote))
            .collect(),
        outputs: sheets.to_vec(),
    };
    let export = |name, sheets: &[Vec<u8>]| Call {
        name,
        sides: EXPORTS,
        inputs: sheets.to_vec(),
        outputs: sheets.iter().map(|sheet| sheets::text(sheet, "")).collect(),
    };
    let typical = seeded(&sheets::families()[2].1);
    let largest = [sheets::longest()];
    vec![
        import("import, typical", &typical, ""),
        import("import, largest", &largest, ""),
        import("import, quoted", &largest, "\""),
        export("export, typical", &typical),
        export("export, largest", &largest),
    ]
}

/// Compares and measures the three sides of each call.
fn text_table() {
    println!("\n| call | bytes taken | bytes written | library, µs a call | Rust, µs a call | ratio | tuned Rust, µs a call | ratio to tuned |");
    println!("|---|---|---|---|---|---|---|---|");
    for call in text_calls() {
        for (input, output) in call.inputs.iter().zip(&call.outputs) {
            let made = call.sides.map(|side| text(side, input));
            assert!(
                made.iter().all(|bytes| bytes == output),
                "the outputs differ"
            );
        }
        let Medians { times, ratios } = measure(call.sides, &call.inputs);
        let [library, rust, tuned] = times;
        let [_, ratio, ratio_to_tuned] = ratios;
        println!(
            "| {} | {} | {} | {library:.1} | {rust:.1} | {ratio:.2} | {tuned:.1} | {ratio_to_tuned:.2} |",
            call.name,
            call.inputs[0].len(),
            call.outputs[0].len()
        );
    }
}

/// The packets of a log that is measured.
const PACKETS: usize = 4_000_000;

type Count = fn(&[u8]) -> Option<logs::Fraction>;

/// Compares and measures the two sides on each log.
fn log_table() {
    let sides: [Count; 2] = [library::count, logs::count];
    println!("\n| log of {PACKETS} packets | discarded | library, ns a packet | Rust, ns a packet | ratio |");
    println!("|---|---|---|---|---|");
    for (name, log) in logs::samples(PACKETS) {
        let [ours, theirs] = sides.map(|count| count(&log));
        assert_eq!(ours, theirs, "the fractions differ");
        let Medians { times, ratios } = in_turn(sides, |count| {
            let start = clock::now();
            black_box(count(black_box(&log)));
            (clock::now() - start).as_secs_f64() * 1e9 / PACKETS as f64
        });
        let (discarded, _) = ours.unwrap();
        println!(
            "| {name} | {discarded} | {:.2} | {:.2} | {:.2} |",
            times[0], times[1], ratios[1]
        );
    }
}

type Heading = fn(&str);
type Line = fn(&str, &Shape);

fn tables(heading: Heading, line: Line, pieces_heading: Heading, pieces_line: Line) {
    heading("family");
    for (name, shape) in sheets::families() {
        line(name, &shape);
    }
    heading("one cue of the largest");
    for (name, value, shape) in sheets::growth() {
        line(&format!("{value} {name}"), &shape);
    }
    pieces_heading("one cue, opened and run in eight calls");
    for (name, shape) in sheets::families() {
        if shape.ways > 0 {
            pieces_line(name, &shape);
        }
    }
}

// The stack

fn side(name: &str) -> Report {
    if name == "rust" {
        sheet::report
    } else {
        library::report
    }
}

/// Runs the largest sheet in a thread with so much stack; a stack that is too small ends the process.
fn in_stack(name: &str, bytes: usize) {
    let report = side(name);
    let thread = std::thread::Builder::new()
        .stack_size(bytes)
        .spawn(move || {
            let sheet = sheets::sheet(&sheets::families()[4].1, 1);
            let mut space = [0; ROOM];
            black_box(report(&sheet, &mut space));
        });
    thread.unwrap().join().unwrap();
}

/// The least stack, in KiB, with which the process survives; by halving, to 4 KiB.
fn least_stack(name: &str) -> usize {
    let program = std::env::current_exe().unwrap();
    let survives = |kib: usize| {
        let mut command = std::process::Command::new(&program);
        command.args(["in-stack", name, &(kib * 1024).to_string()]);
        command.stderr(std::process::Stdio::null());
        command.status().unwrap().success()
    };
    let (mut low, mut high) = (16, 8192);
    assert!(survives(high));
    while high - low > 4 {
        let middle = (low + high) / 2;
        if survives(middle) {
            high = middle;
        } else {
            low = middle;
        }
    }
    high
}

/// What one side makes of the first sheet of a family, or of the first input of a call on text.
fn once(name: &str, title: &str) -> Vec<u8> {
    let families = sheets::families();
    if let Some((_, shape)) = families.iter().find(|family| family.0 == title) {
        return text(side(name), &sheets::sheet(shape, 1));
    }
    let calls = text_calls();
    let call = calls.iter().find(|call| call.name == title);
    let call = call.expect("a family or a call");
    let [library, rust, tuned] = call.sides;
    let side = match name {
        "rust" => rust,
        "tuned" => tuned,
        _ => library,
    };
    text(side, &call.inputs[0])
}

fn main() {
    let arguments: Vec<String> = std::env::args().skip(1).collect();
    let words: Vec<&str> = arguments.iter().map(String::as_str).collect();
    match words[..] {
        [] => {
            tables(heading, line, pieces_heading, pieces_line);
            text_table();
            log_table();
        }
        ["texts"] => text_table(),
        ["logs"] => log_table(),
        #[cfg(beside)]
        ["beside"] => tables(
            beside::heading,
            beside::line,
            beside::pieces_heading,
            beside::pieces_line,
        ),
        ["stack"] => {
            for name in ["library", "rust"] {
                println!(
                    "{name}: {} KiB of stack for the largest sheet",
                    least_stack(name)
                );
            }
        }
        ["in-stack", name, bytes] => in_stack(name, bytes.parse().unwrap()),
        ["once", name, title] => io::stdout().write_all(&once(name, title)).unwrap(),
        _ => panic!("usage: bench [texts | logs | stack | once library|rust FAMILY|CALL | once tuned CALL | beside]"),
    }
}
