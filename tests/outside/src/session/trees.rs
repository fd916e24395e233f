//! The steps on trees. The reference never sees a record: a tree that was overwritten, or that another table grew,
//! is judged by `records`, and the reference then has the tree that its series of refinements gives.

use super::{must, Mismatch, Outcome, Session};
use crate::calls::{self, Node};
use crate::exact::Exact;
use crate::lent::LentTree;
use crate::records::{self, Refinement, Seen};
use crate::step::Field;
use crate::tally::Call;
use reference::run::run;
use reference::tree::{open, refine_by_hand, Entry};
use reference::{Act, Answer, Limits, Table, Tree, MET};

/// A tree on both sides.
#[derive(Clone)]
pub struct Held {
    pub lent: Box<LentTree>,
    pub tree: Tree,
    pub answer: Answer,
    good: Option<Good>,
    /// All counts that the library gave since the opening.
    made: u64,
}

/// A tree that a series of refinements is known to give by a table, as records and as the reference has it.
#[derive(Clone)]
struct Good {
    table: Table,
    series: Vec<Refinement>,
    records: Box<calls::Tree>,
    tree: Tree,
}

impl Held {
    pub fn new() -> Held {
        Held { lent: LentTree::new(), tree: Tree::default(), answer: Answer::refused(0), good: None, made: 0 }
    }

    /// The places of the library's tree, by the links of its records.
    fn places(&self) -> Result<Vec<Seen>, Mismatch> {
        let astray = || Mismatch("the links of the records lead astray".into());
        records::places(&self.lent.tree).ok_or_else(astray)
    }
}

impl Session {
    pub(super) fn lend_table(&mut self, table: Table) {
        self.exact = Exact::of(&table);
        self.table = table;
    }

    pub(super) fn poke(&mut self, field: Field, value: u64) {
        let tree = &mut self.held[self.at].lent.tree;
        match field {
            Field::Used => tree.used = value as usize,
            Field::Of { record, number } => {
                let mut fields = tree.nodes[record].fields();
                fields[number] = value;
                tree.nodes[record] = Node::of_fields(fields);
            }
        }
    }

    pub(super) fn make_open(&mut self) -> Outcome {
        let held = &mut self.held[self.at];
        let got = self.stack.make(Call::Open, || calls::open(&mut held.lent.tree, &self.table)).into();
        let (due, tree) = open(&self.table);
        held.tree = tree;
        held.made = 0;
        self.same_answer(Call::Open, due, got)?;
        self.same_tree()
    }

    pub(super) fn make_refine(&mut self, place: &[u8], what: u64, fault: u64) -> Outcome {
        let act = match what {
            0 => Act::Independence,
            1 => Act::Fault(fault),
            2 => Act::Common,
            _ => Act::Fault(u64::MAX), // as a fault that occurs nowhere
        };
        let stack = self.stack;
        self.make_call(
            Call::Refine,
            |tree, table| stack.make(Call::Refine, || calls::refine(tree, table, place, what, fault)),
            |tree, table| refine_by_hand(table, tree, place, act),
        )?;
        if act == Act::Common {
            self.tally.asked_common(self.answer().number);
        }
        Ok(())
    }

    pub(super) fn make_run(&mut self, limits: Limits) -> Outcome {
        let stack = self.stack;
        self.make_call(
            Call::Run,
            |tree, table| stack.make(Call::Run, || calls::run(tree, table, limits)),
            |tree, table| run(table, tree, limits),
        )?;
        self.tally.aimed(limits, self.answer());
        self.near(limits)
    }

    /// What met says of the library's answer, beside the exact chance of the table's ways: it is within the allowance of the figure;
    /// by share there is a range of numbers, whose first and last are within the share of it.
    fn near(&mut self, limits: Limits) -> Outcome {
        let answer = self.answer();
        let exact = self.exact.as_mut().filter(|_| answer.verdict == MET);
        match exact.and_then(|exact| exact.is_near(&answer, limits, &self.table.ways())) {
            None => Ok(()),
            Some(near) => self.same(&format!("what met says at {answer:?}"), &true, &near),
        }
    }

    /// A hand refinement or a run: refused, the tree stays byte for byte.
    fn make_call(
        &mut self,
        call: Call,
        library: impl Fn(&mut calls::Tree, &Table) -> calls::Answer,
        reference: impl Fn(&mut Tree, &Table) -> Answer,
    ) -> Outcome {
        self.judge_tree();
        let held = &mut self.held[self.at];
        let before = held.lent.tree.clone();
        let got: Answer = library(&mut held.lent.tree, &self.table).into();
        let due = reference(&mut held.tree, &self.table);
        held.made += got.count;
        self.same_answer(call, due, got)?;
        if due.number != 0 {
            return self.same_bytes(&before);
        }
        // No refinement lets the root's low end fall or its high end rise.
        let (was, is) = (&before.nodes[0], &self.records().nodes[0]);
        let within = was.low <= is.low && is.high <= was.high;
        must("the root within what it was", &true, &within)?;
        self.same_tree()
    }

    /// The reference's tree becomes the one that the records are by this table, or the tree without nodes where 16
    /// applies. With the table and the series of the last good tree there is just one such tree.
    fn judge_tree(&mut self) {
        let held = &mut self.held[self.at];
        let tree = &held.lent.tree;
        let judged = match (&held.good, records::history(tree)) {
            (_, None) => None,
            (Some(good), Some(series)) if good.table == self.table && good.series == series => {
                (*good.records == *tree).then(|| good.tree.clone())
            }
            (_, Some(series)) => records::grown_by(&self.table, tree, &series),
        };
        held.tree = judged.unwrap_or_default();
    }

    /// Every place of the library's tree, beside the exact count too, and then all its bytes.
    fn same_tree(&mut self) -> Outcome {
        let held = &self.held[self.at];
        let entries = held.tree.places(&self.table);
        let seen = held.places()?;
        must("the number of places", &entries.len(), &seen.len())?;
        for (entry, seen) in entries.iter().zip(&seen) {
            self.same("a place", &Seen::from(entry), seen)?;
            self.tally.stood(seen.state);
            self.encloses(entry, seen)?;
        }
        if entries.is_empty() {
            return self.same_bytes(&calls::Tree::default());
        }
        // Whatever the order of the refinements: it is free, but some order it has to be.
        let series = records::history(self.records()).unwrap_or_default();
        let records = records::layout(&self.table, &entries, &series);
        self.same_bytes(&records)?;
        let held = &mut self.held[self.at];
        held.good = Some(Good { table: self.table.clone(), series, records, tree: held.tree.clone() });
        Ok(())
    }

    /// The library's interval holds the exact chance of all ways that remained at the place before any was left out.
    fn encloses(&mut self, entry: &Entry, seen: &Seen) -> Outcome {
        let exact = self.exact.as_mut();
        match exact.and_then(|exact| exact.encloses(seen.interval, &entry.before)) {
            None => Ok(()),
            Some(encloses) => self.same(&format!("enclosure at {seen:?}"), &true, &encloses),
        }
    }

    /// One comparison: all records, how many are in use, and the guards.
    fn same_bytes(&mut self, due: &calls::Tree) -> Outcome {
        self.tally.compared += 1;
        let lent = &self.held[self.at].lent;
        for (at, (due, got)) in due.nodes.iter().zip(&lent.tree.nodes).enumerate() {
            must(&format!("record {at}"), due, got)?;
        }
        must("records in use", &due.used, &lent.tree.used)?;
        must("the guards around the tree", &true, &lent.guarded())
    }

    // Claims about both trees

    pub(super) fn claim_alike(&mut self) -> Outcome {
        let (one, other) = (self.held[0].places()?, self.held[1].places()?);
        must("the places of both trees", &one.len(), &other.len())?;
        for (one, other) in one.iter().zip(&other) {
            self.same("a place of both trees", one, other)?;
        }
        self.must_add_up()
    }

    pub(super) fn claim_agree(&mut self) -> Outcome {
        let [one, other] = [0, 1].map(|which| self.held[which].answer);
        self.same("the last answers on both trees", &one, &other)
    }

    pub(super) fn claim_equal(&mut self) -> Outcome {
        let [one, other] = [0, 1].map(|which| Answer { count: 0, ..self.held[which].answer });
        self.same("the last answers on both trees, without the counts", &one, &other)?;
        self.must_add_up()?;
        let due = self.held[1 - self.at].lent.tree.clone();
        self.same_bytes(&due)
    }

    fn must_add_up(&self) -> Outcome {
        must("the sums of the counts", &self.held[0].made, &self.held[1].made)
    }
}
