//! The steps of a case, and a case as text, a step to a line: what a disagreement is written as and `--replay` reads.

use crate::calls::{Node, Tree, FIELDS};
use reference::captures::Fraction;
use reference::sheet::Sheet;
use reference::{Limits, Table};
use std::fmt::{self, Display, Formatter};
use std::str::{FromStr, SplitWhitespace};

#[derive(Clone, Debug, PartialEq)]
pub enum Step {
    // What the next calls are handed.
    /// The table.
    Table(Table),
    /// Which of two trees.
    Tree(usize),
    /// The other tree becomes a copy of this one.
    Copy,
    /// A field of a record, or how many are in use, is overwritten.
    Poke(Field, u64),
    /// The whole tree is overwritten.
    Lend(Box<Tree>),
    /// The bytes of a sheet; its reader starts at the first cue.
    Sheet(Vec<u8>),
    /// A sheet as comma separated text.
    Text(Vec<u8>),
    /// A text of its first bytes, a part so many times, and its last bytes.
    Long(Vec<u8>, Vec<u8>, usize, Vec<u8>),
    /// The bytes of logs.
    Bytes(Vec<u8>),
    /// So many bytes of logs, all 0. What they must give follows from lengths, and is asked of nobody packet by packet.
    Zeros(usize),
    /// From now on each call of the library has no more stack than the header asks for.
    Stack,

    // Calls, made on both sides.
    Version,
    Open,
    /// Place, what to do and the fault.
    Refine(Vec<u8>, u64, u64),
    /// Allowance, budget and mode.
    Run(Limits),
    /// The search of the first so many records of the tree.
    Widest(usize),
    /// The search of so many blank records, and these behind them.
    Records(usize, Vec<Node>),
    Check,
    /// The cue at a position.
    Cue(usize),
    /// The reader's next call.
    Next,
    /// The table of the cue at a position.
    Inside(usize),
    /// The report into a space of this length.
    Report(usize),
    /// Lists for the writer, and the length of the space.
    Write(Sheet, usize),
    /// The text into a space of this length, as a sheet.
    Import(usize),
    /// The sheet into a space of this length, as text.
    Export(usize),
    /// The bytes as one log.
    Log,
    /// The bytes as logs of these lengths.
    Logs(Vec<u64>),
    /// The sum of fractions: numbers of discarded and of judged packets.
    Fractions(Vec<u64>, Vec<u64>),
    /// The weight of a fraction.
    Weight(Fraction),
    /// One fraction beside another.
    Compare(Fraction, Fraction),

    // Claims about the library alone.
    /// Figures that the last answer must have: number, low, high, count, verdict, figure.
    Told([Option<u64>; 6]),
    /// All that the last call on logs or fractions must have answered: the number, and then its figures.
    Answered(Vec<u64>),
    /// What the last call must have written into its space.
    Printed(Vec<u8>),
    /// Both trees have the same places, with what was done there and the intervals, and the same sum of counts.
    Alike,
    /// The last answers on both trees are the same.
    Agree,
    /// Both trees are the same byte for byte, the last answers too but for their counts, whose sums are the same.
    Equal,
}

/// A field that can be overwritten.
#[derive(Clone, Copy, Debug, PartialEq)]
pub enum Field {
    Used,
    Of { record: usize, number: usize },
}

impl Display for Step {
    fn fmt(&self, f: &mut Formatter<'_>) -> fmt::Result {
        match self {
            Step::Table(Table { weights, present, absent }) => {
                write!(f, "table {} {} {}", list(weights), list(present), list(absent))
            }
            Step::Tree(which) => write!(f, "tree {which}"),
            Step::Copy => write!(f, "copy"),
            Step::Poke(Field::Used, value) => write!(f, "used {value}"),
            Step::Poke(Field::Of { record, number }, value) => {
                write!(f, "poke {record} {number} {value}")
            }
            Step::Lend(tree) => write!(f, "lend {} {}", tree.used, fields(without_blank_end(tree))),
            Step::Sheet(bytes) => write!(f, "sheet {}", hex(bytes)),
            Step::Text(text) => write!(f, "text {}", hex(text)),
            Step::Long(first, part, times, last) => {
                write!(f, "long {} {} {times} {}", hex(first), hex(part), hex(last))
            }
            Step::Bytes(bytes) => write!(f, "bytes {}", hex(bytes)),
            Step::Zeros(count) => write!(f, "zeros {count}"),
            Step::Stack => write!(f, "stack"),
            Step::Version => write!(f, "version"),
            Step::Open => write!(f, "open"),
            Step::Refine(place, what, fault) => write!(f, "refine {} {what} {fault}", list(place)),
            Step::Run(Limits { allowance, budget, mode }) => write!(f, "run {allowance} {budget} {mode}"),
            Step::Widest(count) => write!(f, "widest {count}"),
            Step::Records(blank, records) => write!(f, "records {blank} {}", fields(records)),
            Step::Check => write!(f, "check"),
            Step::Cue(position) => write!(f, "cue {position}"),
            Step::Next => write!(f, "next"),
            Step::Inside(position) => write!(f, "inside {position}"),
            Step::Report(space) => write!(f, "report {space}"),
            Step::Write(lists, space) => {
                let Sheet { weights, cues, counts, present, absent, allowance, budget, mode } = lists;
                write!(f, "write {} {} {}", list(weights), list(cues), list(counts))?;
                write!(f, " {} {} {allowance} {budget} {mode} {space}", list(present), list(absent))
            }
            Step::Import(space) => write!(f, "import {space}"),
            Step::Export(space) => write!(f, "export {space}"),
            Step::Log => write!(f, "log"),
            Step::Logs(lengths) => write!(f, "logs {}", list(lengths)),
            Step::Fractions(discarded, judged) => write!(f, "fractions {} {}", list(discarded), list(judged)),
            Step::Weight(fraction) => write!(f, "weight {}", of(fraction)),
            Step::Compare(one, other) => write!(f, "compare {} {}", of(one), of(other)),
            Step::Told(figures) => {
                let figures = figures.map(|figure| figure.map_or("-".into(), |figure| figure.to_string()));
                write!(f, "told {}", figures.join(" "))
            }
            Step::Answered(figures) => write!(f, "answered {}", list(figures)),
            Step::Printed(text) => write!(f, "printed {}", hex(text)),
            Step::Alike => write!(f, "alike"),
            Step::Agree => write!(f, "agree"),
            Step::Equal => write!(f, "equal"),
        }
    }
}

/// Numbers with commas between; a stroke for none.
fn list<T: Display>(numbers: &[T]) -> String {
    if numbers.is_empty() {
        return "-".into();
    }
    numbers.iter().map(T::to_string).collect::<Vec<_>>().join(",")
}

fn of(Fraction { discarded, judged }: &Fraction) -> String {
    format!("{discarded} {judged}")
}

/// The fields of records, one after the other.
fn fields(records: &[Node]) -> String {
    list(&records.iter().flat_map(Node::fields).collect::<Vec<u64>>())
}

/// The records of a tree without the blank ones at its end.
fn without_blank_end(tree: &Tree) -> &[Node] {
    let last = tree.nodes.iter().rposition(|node| *node != Node::default());
    &tree.nodes[..last.map_or(0, |last| last + 1)]
}

fn hex(bytes: &[u8]) -> String {
    if bytes.is_empty() {
        return "-".into();
    }
    let digit = |half: u8| char::from_digit(half.into(), 16).unwrap_or('-');
    bytes.iter().flat_map(|byte| [digit(byte >> 4), digit(byte & 15)]).collect()
}

/// The steps of a case's text; lines that begin with # say nothing.
pub fn parse(text: &str) -> Result<Vec<Step>, String> {
    let lines = text.lines().filter(|line| !line.starts_with('#') && !line.is_empty());
    lines.map(|line| step(line).ok_or_else(|| format!("not a step: {line}"))).collect()
}

fn step(line: &str) -> Option<Step> {
    let mut words = Words(line.split_whitespace());
    let step = match words.word()? {
        "table" => Step::Table(Table { weights: words.list()?, present: words.list()?, absent: words.list()? }),
        "tree" => Step::Tree(words.number()?),
        "copy" => Step::Copy,
        "used" => Step::Poke(Field::Used, words.number()?),
        "poke" => {
            let field = Field::Of { record: words.number()?, number: words.number()? };
            Step::Poke(field, words.number()?)
        }
        "lend" => Step::Lend(words.tree()?),
        "sheet" => Step::Sheet(words.bytes()?),
        "text" => Step::Text(words.bytes()?),
        "long" => Step::Long(words.bytes()?, words.bytes()?, words.number()?, words.bytes()?),
        "bytes" => Step::Bytes(words.bytes()?),
        "zeros" => Step::Zeros(words.number()?),
        "stack" => Step::Stack,
        "version" => Step::Version,
        "open" => Step::Open,
        "refine" => Step::Refine(words.list()?, words.number()?, words.number()?),
        "run" => Step::Run(Limits { allowance: words.number()?, budget: words.number()?, mode: words.number()? }),
        "widest" => Step::Widest(words.number()?),
        "records" => Step::Records(words.number()?, words.records()?),
        "check" => Step::Check,
        "cue" => Step::Cue(words.number()?),
        "next" => Step::Next,
        "inside" => Step::Inside(words.number()?),
        "report" => Step::Report(words.number()?),
        "write" => {
            let lists = Sheet {
                weights: words.list()?,
                cues: words.list()?,
                counts: words.list()?,
                present: words.list()?,
                absent: words.list()?,
                allowance: words.number()?,
                budget: words.number()?,
                mode: words.number()?,
            };
            Step::Write(lists, words.number()?)
        }
        "import" => Step::Import(words.number()?),
        "export" => Step::Export(words.number()?),
        "log" => Step::Log,
        "logs" => Step::Logs(words.list()?),
        "fractions" => Step::Fractions(words.list()?, words.list()?),
        "weight" => Step::Weight(words.fraction()?),
        "compare" => Step::Compare(words.fraction()?, words.fraction()?),
        "told" => {
            let mut figures = [None; 6];
            for figure in &mut figures {
                let word = words.word()?;
                *figure = if word == "-" { None } else { Some(word.parse().ok()?) };
            }
            Step::Told(figures)
        }
        "answered" => Step::Answered(words.list()?),
        "printed" => Step::Printed(words.bytes()?),
        "alike" => Step::Alike,
        "agree" => Step::Agree,
        "equal" => Step::Equal,
        _ => return None,
    };
    words.word().is_none().then_some(step)
}

/// The words of a line that are still to be read.
struct Words<'a>(SplitWhitespace<'a>);

impl<'a> Words<'a> {
    fn word(&mut self) -> Option<&'a str> {
        self.0.next()
    }

    fn number<T: FromStr>(&mut self) -> Option<T> {
        self.word()?.parse().ok()
    }

    fn list<T: FromStr>(&mut self) -> Option<Vec<T>> {
        match self.word()? {
            "-" => Some(Vec::new()),
            numbers => numbers.split(',').map(|number| number.parse().ok()).collect(),
        }
    }

    fn bytes(&mut self) -> Option<Vec<u8>> {
        let digits = match self.word()? {
            "-" => "",
            digits => digits,
        };
        let byte = |at| u8::from_str_radix(digits.get(at..at + 2)?, 16).ok();
        (0..digits.len()).step_by(2).map(byte).collect()
    }

    fn fraction(&mut self) -> Option<Fraction> {
        Some(Fraction::new(self.number()?, self.number()?))
    }

    fn records(&mut self) -> Option<Vec<Node>> {
        let fields: Vec<u64> = self.list()?;
        let record = |fields: &[u64]| Some(Node::of_fields(fields.try_into().ok()?));
        fields.chunks(FIELDS).map(record).collect()
    }

    fn tree(&mut self) -> Option<Box<Tree>> {
        let mut tree = Box::<Tree>::default();
        tree.used = self.number()?;
        let records = self.records()?;
        tree.nodes.get_mut(..records.len())?.copy_from_slice(&records);
        Some(tree)
    }
}
