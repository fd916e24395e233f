//! Trees that the library did not make: records drawn at random, records of two trees mixed, and the records that a
//! series gives by the reference alone. Those that no series gives are refused by 16 and stay as they are.

use super::damage::{grown, judged};
use super::told_number;
use crate::bench::Bench;
use crate::calls::{Node, Tree, FIELDS, RECORDS};
use crate::records::layout;
use crate::session::{Outcome, Session};
use crate::step::Step;
use reference::random::Random;
use reference::scripts::mostly_open;
use reference::tree::{open, refine_by_hand};
use reference::{by_distance, Table, S};
use std::array;

pub fn drawn(bench: &mut Bench) -> Outcome {
    bench.cases("any records", 60, |session, random| {
        session.make(Step::Table(random.table_within(6, 8)))?;
        session.make(Step::Lend(noise(random)))?;
        both(session, random)
    })?;
    bench.cases("records such as trees have", 1500, |session, random| {
        let table = mostly_open(random, |random| random.table_within(6, 8));
        let tree = likely(random, &table);
        session.make(Step::Table(table))?;
        session.make(Step::Lend(tree))?;
        both(session, random)
    })?;
    bench.cases("a tree with some of its records drawn", 300, |session, random| {
        grown(session, random)?;
        let mut tree = Box::new(session.records().clone());
        for _ in 0..random.between(1, 4) {
            let at = random.below(tree.used + 2).min(RECORDS - 1);
            let inner = random.one_in(2);
            let Node { parent, left, .. } = tree.nodes[at];
            tree.nodes[at] = Node { parent, left, ..likely_record(random, session.table(), inner) };
        }
        session.make(Step::Lend(tree))?;
        both(session, random)
    })?;
    bench.cases("the records of two trees", 500, |session, random| {
        grown(session, random)?;
        mixed(session, random)
    })?;
    bench.cases("a tree of the reference's", 300, given)
}

fn both(session: &mut Session, random: &mut Random) -> Outcome {
    judged(session, random)?;
    judged(session, random)
}

/// A tree of any numbers at all.
pub(super) fn noise(random: &mut Random) -> Box<Tree> {
    let mut tree = Box::<Tree>::default();
    for node in &mut tree.nodes {
        *node = Node::of_fields(array::from_fn::<u64, FIELDS, _>(|_| random.draw()));
    }
    tree.used = random.one_of(&[0, 1, 3, 255, RECORDS, RECORDS + 1, usize::MAX]);
    tree
}

/// A few records in use, linked as those of a tree whose first records are its inner nodes.
fn likely(random: &mut Random, table: &Table) -> Box<Tree> {
    let mut tree = Box::<Tree>::default();
    let inner = random.below(4);
    tree.used = 2 * inner + 1;
    for at in 0..tree.used {
        let left = if at < inner { 2 * at + 1 } else { 0 };
        tree.nodes[at] = Node { parent: at.saturating_sub(1) / 2, left, ..likely_record(random, table, at < inner) };
    }
    tree
}

/// A record without links, its numbers such as an inner node or a leaf may have.
fn likely_record(random: &mut Random, table: &Table, inner: bool) -> Node {
    let [fault, present, absent, out] = [0; 4].map(|_| random.below(table.faults()) as u64);
    let [low, high, ownlow, ownhigh] = [0; 4].map(|_| random.below(S as usize + 1) as u64);
    let (kind, fault) = if inner { random.one_of(&[(2, 0), (3, fault), (4, 0)]) } else { (1, 0) };
    Node {
        kind,
        fault,
        live: if inner { 0 } else { random.below(2) as u64 },
        waysa: random.draw() & ((1 << table.present.len()) - 1),
        present: random.one_of(&[0, 0, 1 << present]),
        absent: random.one_of(&[0, 0, 1 << absent]),
        out: random.one_of(&[0, 0, 1 << out]),
        low: random.one_of(&[low, 0]),
        high: random.one_of(&[high, S]),
        ownlow: random.one_of(&[ownlow, low]),
        ownhigh: random.one_of(&[ownhigh, high]),
        ..Node::default()
    }
}

/// The tree grows on; then each record is that of the tree before or after, and so is how many are in use.
fn mixed(session: &mut Session, random: &mut Random) -> Outcome {
    let first = Box::new(session.records().clone());
    if let Some((place, act)) = random.sound_refinement(session.table(), session.tree()) {
        session.refine(place, act)?;
    }
    session.run(by_distance(0, 1))?;
    let mut tree = Box::new(session.records().clone());
    let some = random.between(2, 6);
    for (node, other) in tree.nodes.iter_mut().zip(&first.nodes) {
        if random.one_in(some) {
            *node = *other;
        }
    }
    if random.one_in(some) {
        tree.used = first.used;
    }
    session.make(Step::Lend(tree))?;
    both(session, random)
}

/// Good, though no call of the library has seen it.
fn given(session: &mut Session, random: &mut Random) -> Outcome {
    let table = mostly_open(random, |random| random.table_within(9, 12));
    let mut tree = open(&table).1;
    let mut series = Vec::new();
    for _ in 0..random.below(9) {
        if let Some((place, act)) = random.sound_refinement(&table, &tree) {
            refine_by_hand(&table, &mut tree, &place, act);
            series.push((place, act));
        }
    }
    let records = layout(&table, &tree.places(&table), &series);
    session.make(Step::Table(table))?;
    session.make(Step::Lend(records))?;
    session.run(by_distance(0, 0))?;
    told_number(session, 0)?;
    both(session, random)
}
