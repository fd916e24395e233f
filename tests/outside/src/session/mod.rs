//! A case as it goes: each step is made on both sides and every answer, place and byte compared.
//! `trees` has the steps on trees, `bytes` the search and the steps on sheets, `captures` those on logs and fractions.

mod bytes;
mod captures;
mod trees;

use crate::calls;
use crate::exact::Exact;
use crate::stack::Stack;
use crate::step::{parse, Field, Step};
use crate::tally::{Call, Tally};
use captures::Lent;
use reference::{Act, Answer, Limits, Table, Tree, NONE};
use std::fmt::Debug;
use std::fs::File;
use std::io::Write;
use trees::Held;

/// A disagreement, in words.
pub struct Mismatch(pub String);

pub type Outcome = Result<(), Mismatch>;

pub struct Session {
    pub steps: Vec<Step>,
    pub tally: Tally,
    /// Where each step is told before it is made, so that one that never returns is known.
    trace: Option<File>,
    table: Table,
    exact: Option<Exact>,
    held: [Held; 2],
    at: usize,
    sheet: Vec<u8>,
    /// The reader's place in the contents of the sheet.
    place: usize,
    text: Vec<u8>,
    printed: Vec<u8>,
    logs: Lent,
    /// The last answer on logs or fractions.
    figures: Vec<u64>,
    stack: Stack,
}

impl Session {
    pub fn new(trace: Option<File>) -> Session {
        Session {
            steps: Vec::new(),
            tally: Tally::default(),
            trace,
            table: Table::default(),
            exact: None,
            held: [Held::new(), Held::new()],
            at: 0,
            sheet: Vec::new(),
            place: 0,
            text: Vec::new(),
            printed: Vec::new(),
            logs: Lent::default(),
            figures: Vec::new(),
            stack: Stack::Ample,
        }
    }

    // For those who draw the next step.

    pub fn table(&self) -> &Table {
        &self.table
    }

    /// The reference's tree.
    pub fn tree(&self) -> &Tree {
        &self.held[self.at].tree
    }

    /// The library's tree.
    pub fn records(&self) -> &calls::Tree {
        &self.held[self.at].lent.tree
    }

    /// One field of the library's tree.
    pub fn field(&self, field: Field) -> u64 {
        match field {
            Field::Used => self.records().used as u64,
            Field::Of { record, number } => self.records().nodes[record].fields()[number],
        }
    }

    pub fn answer(&self) -> Answer {
        self.held[self.at].answer
    }

    /// What the library wrote last.
    pub fn printed(&self) -> &[u8] {
        &self.printed
    }

    /// All that the library answered last on logs or fractions.
    pub fn figures(&self) -> &[u64] {
        &self.figures
    }

    // Steps, made and kept.

    pub fn opened(&mut self, table: Table) -> Outcome {
        self.make(Step::Table(table))?;
        self.make(Step::Open)
    }

    pub fn refine(&mut self, place: Vec<u8>, act: Act) -> Outcome {
        let (what, fault) = asked(act);
        self.make(Step::Refine(place, what, fault))
    }

    pub fn run(&mut self, limits: Limits) -> Outcome {
        self.make(Step::Run(limits))
    }

    /// What a call other than a run answered: it has neither verdict nor figure.
    pub fn told(&mut self, number: u64, interval: (u64, u64), count: u64) -> Outcome {
        let (low, high) = interval;
        self.make(Step::Told([number, low, high, count, NONE, 0].map(Some)))
    }

    /// What an accepted run answered.
    pub fn ended(&mut self, interval: (u64, u64), count: u64, verdict: u64, figure: u64) -> Outcome {
        let (low, high) = interval;
        self.make(Step::Told([0, low, high, count, verdict, figure].map(Some)))
    }

    pub fn make(&mut self, step: Step) -> Outcome {
        // What a case that fails is written as makes the same steps again.
        must("the step read from its text", &Ok(vec![step.clone()]), &parse(&step.to_string()))?;
        if let Some(trace) = &mut self.trace {
            writeln!(trace, "{step}").expect("a step told");
        }
        self.steps.push(step.clone());
        match step {
            Step::Table(table) => self.lend_table(table),
            Step::Tree(which) => self.at = which.min(1),
            Step::Copy => self.held[1 - self.at] = self.held[self.at].clone(),
            Step::Poke(field, value) => self.poke(field, value),
            Step::Lend(tree) => self.held[self.at].lent.tree = *tree,
            Step::Sheet(bytes) => (self.sheet, self.place) = (bytes, 0),
            Step::Text(text) => self.text = text,
            Step::Long(first, part, times, last) => self.text = [first, part.repeat(times), last].concat(),
            Step::Bytes(bytes) => self.logs = Lent::listed(bytes),
            Step::Zeros(count) => self.logs = Lent::zeros(count),
            Step::Stack => self.stack = Stack::Least,
            Step::Version => self.make_version()?,
            Step::Open => self.make_open()?,
            Step::Refine(place, what, fault) => self.make_refine(&place, what, fault)?,
            Step::Run(limits) => self.make_run(limits)?,
            Step::Widest(count) => {
                let records = self.records().nodes[..count.min(calls::RECORDS)].to_vec();
                self.make_search(&records)?;
            }
            Step::Records(blank, records) => {
                let blank = vec![calls::Node::default(); blank];
                self.make_search(&[blank, records].concat())?;
            }
            Step::Check => self.make_check()?,
            Step::Cue(position) => self.make_cue(position)?,
            Step::Next => self.make_next()?,
            Step::Inside(position) => self.make_inside(position)?,
            Step::Report(space) => self.make_report(space)?,
            Step::Write(lists, space) => self.make_write(&lists, space)?,
            Step::Import(space) => self.make_import(space)?,
            Step::Export(space) => self.make_export(space)?,
            Step::Log => self.make_log()?,
            Step::Logs(lengths) => self.make_logs(&lengths)?,
            Step::Fractions(discarded, judged) => self.make_fractions(&discarded, &judged)?,
            Step::Weight(fraction) => self.make_weight(fraction)?,
            Step::Compare(one, other) => self.make_compare(one, other)?,
            Step::Told(figures) => self.claim_told(figures)?,
            Step::Answered(figures) => self.claim_answered(&figures)?,
            Step::Printed(text) => self.claim_printed(&text)?,
            Step::Alike => self.claim_alike()?,
            Step::Agree => self.claim_agree()?,
            Step::Equal => self.claim_equal()?,
        }
        Ok(())
    }

    fn make_version(&mut self) -> Outcome {
        let got = self.stack.make(Call::Version, calls::version);
        self.same("the version", &calls::VERSION, &got)
    }

    /// One comparison: an answer, a place, or a whole output.
    fn same<T: PartialEq + Debug + ?Sized>(&mut self, what: &str, due: &T, got: &T) -> Outcome {
        self.tally.compared += 1;
        must(what, due, got)
    }

    /// The library's answer, beside the reference's.
    fn same_answer(&mut self, call: Call, due: Answer, got: Answer) -> Outcome {
        self.keep_answer(call, got);
        self.same("the answer", &due, &got)
    }

    fn keep_answer(&mut self, call: Call, answer: Answer) {
        self.held[self.at].answer = answer;
        self.tally.answered(call, answer.number, answer.verdict);
    }

    /// Figures typed from the rules; only all six together are a comparison.
    fn claim_told(&mut self, figures: [Option<u64>; 6]) -> Outcome {
        let Answer { number, low, high, count, verdict, figure } = self.answer();
        let got = [number, low, high, count, verdict, figure];
        let due = [0, 1, 2, 3, 4, 5].map(|i| figures[i].unwrap_or(got[i]));
        self.tally.compared += u64::from(figures.iter().all(Option::is_some));
        must("the figures", &due, &got)
    }
}

/// What cue_refine is asked for, and the fault.
pub fn asked(act: Act) -> (u64, u64) {
    match act {
        Act::Independence => (0, 0),
        Act::Fault(fault) => (1, fault),
        Act::Common => (2, 0),
    }
}

/// What goes with a comparison and is not counted as one.
pub fn must<T: PartialEq + Debug + ?Sized>(what: &str, due: &T, got: &T) -> Outcome {
    if due == got {
        return Ok(());
    }
    Err(Mismatch(format!("{what}: due {due:?}, but got {got:?}")))
}
