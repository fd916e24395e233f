//! Refusal 16: trees overwritten field by field, records exchanged, and trees handed to other tables; and trees that
//! are still good, since another order of the same refinements gives them.

use super::{make, told_number};
use crate::bench::Bench;
use crate::calls::{Node, Tree, FIELDS, RECORDS};
use crate::records::{history, layout, Refinement};
use crate::session::{Outcome, Session};
use crate::step::{Field, Step};
use reference::paper::{cases, p3, p4, p6};
use reference::random::Random;
use reference::scripts::{any_call, mostly_open};
use reference::{by_distance, Act, Limits, Table, S};

pub fn sixteen(bench: &mut Bench) -> Outcome {
    bench.case("every field of P4's tree, a common part and independence", |session, random| {
        session.opened(p4())?;
        session.run(by_distance(0, 255))?;
        let records = [0, 1, 2, 3, 4, 5, RECORDS - 1];
        records.iter().try_for_each(|&record| every_field(session, random, record))?;
        every_use(session, random)
    })?;
    bench.case("no refinement of the table, every figure right", |session, _| impossible(session))?;
    bench.cases("any field of any tree", 80, |session, random| {
        grown(session, random)?;
        for _ in 0..6 {
            let records = [random.below(session.records().used), session.records().used, RECORDS - 1];
            let record = random.one_of(&records).min(RECORDS - 1);
            every_field(session, random, record)?;
        }
        every_use(session, random)
    })?;
    bench.cases("any field of a large tree", 3, |session, random| {
        let table = mostly_open(random, |random| random.table_within(64, 128));
        session.opened(table)?;
        session.run(by_distance(0, 4))?;
        let record = random.below(session.records().used);
        every_field(session, random, record)
    })?;
    bench.cases("two records exchanged", 400, |session, random| {
        grown(session, random)?;
        exchanged(session, random)
    })?;
    bench.cases("another order of the same refinements", 300, |session, random| {
        grown(session, random)?;
        reordered(session, random)
    })
}

/// A small tree, grown by a few calls.
pub(super) fn grown(session: &mut Session, random: &mut Random) -> Outcome {
    let table = mostly_open(random, |random| match random.below(3) {
        0 => random.common_table(6, 8),
        _ => random.table_within(6, 8),
    });
    session.opened(table)?;
    for _ in 0..random.between(1, 4) {
        let call = any_call(random, session.table(), session.tree());
        make(session, call)?;
    }
    Ok(())
}

/// Any call: 16 comes before all that could be wrong with its place.
pub(super) fn judged(session: &mut Session, random: &mut Random) -> Outcome {
    if random.one_in(2) {
        return session.run(Limits { budget: random.between(0, 3) as u64, ..random.aim() });
    }
    let place = vec![0; random.below(3)];
    let act = if random.one_in(4) { Act::Common } else { Act::Fault(random.below(8) as u64) };
    session.refine(place, act)
}

/// Each field of a record takes other values in turn, and then its own again.
fn every_field(session: &mut Session, random: &mut Random, record: usize) -> Outcome {
    for number in 0..FIELDS {
        let field = Field::Of { record, number };
        let own = session.field(field);
        for value in others(random, own) {
            session.make(Step::Poke(field, value))?;
            judged(session, random)?;
            told_number(session, 16)?;
        }
        session.make(Step::Poke(field, own))?;
    }
    session.run(by_distance(0, 0))?;
    told_number(session, 0)
}

/// The number of records in use takes other values in turn, and then its own again.
fn every_use(session: &mut Session, random: &mut Random) -> Outcome {
    let own = session.field(Field::Used);
    for value in others(random, own).into_iter().chain([own + 2, 509, 511, 512, 1024]) {
        if value != own {
            session.make(Step::Poke(Field::Used, value))?;
            judged(session, random)?;
            told_number(session, 16)?;
        }
    }
    session.make(Step::Poke(Field::Used, own))?;
    session.run(by_distance(0, 0))?;
    told_number(session, 0)
}

fn others(random: &mut Random, own: u64) -> Vec<u64> {
    let mut values = vec![
        own.wrapping_add(1),
        own.wrapping_sub(1),
        own ^ 1 << random.below(64),
        0,
        random.below(8) as u64,
        u64::MAX,
    ];
    values.retain(|&value| value != own);
    values
}

/// The contents of two records change places; now and then the records below them follow.
fn exchanged(session: &mut Session, random: &mut Random) -> Outcome {
    let mut tree = Box::new(session.records().clone());
    let (one, other) = (random.below(tree.used), random.below(tree.used + 1));
    tree.nodes.swap(one, other.min(RECORDS - 1));
    if random.one_in(3) {
        for at in [one, other.min(RECORDS - 1)] {
            let left = tree.nodes[at].left;
            if left != 0 && left + 1 < RECORDS {
                tree.nodes[left].parent = at;
                tree.nodes[left + 1].parent = at;
            }
        }
    }
    session.make(Step::Lend(tree))?;
    judged(session, random)?;
    judged(session, random)
}

/// Takes out any of the refinements left that has no other of them above it; there has to be one.
fn take_ready(random: &mut Random, left: &mut Vec<Refinement>) -> Refinement {
    let above = |below: &Refinement| {
        let mut others = left.iter().filter(|other| *other != below);
        others.any(|(place, _)| below.0.starts_with(place))
    };
    let ready: Vec<usize> = (0..left.len()).filter(|&i| !above(&left[i])).collect();
    left.swap_remove(random.one_of(&ready))
}

/// The records that the same refinements give in another order.
fn reordered(session: &mut Session, random: &mut Random) -> Outcome {
    let mut left = history(session.records()).unwrap_or_default();
    let mut series = Vec::new();
    while !left.is_empty() {
        series.push(take_ready(random, &mut left));
    }
    let entries = session.tree().places(session.table());
    let tree = layout(session.table(), &entries, &series);
    session.make(Step::Lend(tree))?;
    session.run(by_distance(0, 0))?;
    told_number(session, 0)?;
    session.run(by_distance(0, 2))?;
    told_number(session, 0)
}

/// P9's root is closed, and so is P3's with its one way: no series refines them. P6's ways have nothing in common: taken
/// out of both, nothing leaves the right child as the root is, beside a left child that always happens.
fn impossible(session: &mut Session) -> Outcome {
    let leaf = |waysa, present, absent, low, high| Node {
        kind: 1,
        waysa,
        present,
        absent,
        low,
        high,
        ownlow: low,
        ownhigh: high,
        ..Node::default()
    };
    let inner = |kind, root: Node| Node { kind, left: 1, ..root };
    let third = 333_333_333;
    let both = (111_111_110, 111_111_111);
    let half = 500_000_000;
    let open = Node { live: 1, ..leaf(3, 0, 0, half, S) };
    let trees = [
        (p9(), [inner(2, leaf(3, 0, 0, S, S)), leaf(1, 0, 0, 0, 0), leaf(2, 0, 0, S, S)]),
        (p3(), [inner(3, leaf(1, 0, 0, both.0, both.1)), leaf(1, 1, 0, third, third), leaf(0, 0, 1, 0, 0)]),
        (
            p3(),
            [
                inner(4, leaf(1, 0, 0, both.0, both.1)),
                leaf(1, 0, 0, both.0, both.1),
                Node { out: 3, ..leaf(1, 0, 0, S, S) },
            ],
        ),
        (p6(), [inner(4, leaf(3, 0, 0, half, S)), Node { out: 1, ..leaf(1, 0, 0, S, S) }, open]),
    ];
    for (table, nodes) in trees {
        let mut tree = Box::<Tree>::default();
        tree.nodes[..3].copy_from_slice(&nodes);
        tree.used = 3;
        session.opened(table)?;
        session.make(Step::Lend(tree))?;
        session.run(by_distance(0, 0))?;
        told_number(session, 16)?;
        session.refine(vec![0], Act::Fault(0))?;
        told_number(session, 16)?;
    }
    Ok(())
}

fn p9() -> Table {
    cases().pop().map(|case| case.table).unwrap_or_default()
}

/// A tree with a table that didn't grow it: let through exactly if that table gives it too.
pub fn foreign(bench: &mut Bench) -> Outcome {
    bench.cases("another table", 400, |session, random| {
        grown(session, random)?;
        let own = session.table().clone();
        for _ in 0..3 {
            let other = neighbour(random, &own);
            session.make(Step::Table(other))?;
            judged(session, random)?;
        }
        session.make(Step::Table(own))?;
        judged(session, random)
    })
}

/// The table with one thing changed, often such as a tree does not show.
fn neighbour(random: &mut Random, table: &Table) -> Table {
    let mut table = table.clone();
    let fault = random.below(table.weights.len());
    match random.below(7) {
        0 => table.weights.push(random.between(0, S as usize) as u32),
        1 if !table.present.is_empty() => {
            // A fault that is certain, which a way names or not.
            let row = random.below(table.present.len());
            table.present[row] |= 1 << table.weights.len();
            table.weights.push(S as u32);
        }
        2 => table.weights[fault] = table.weights[fault].saturating_sub(1),
        3 => table.weights[fault] = random.between(0, S as usize) as u32,
        4 => drop(table.weights.pop()),
        5 if table.present.len() > 1 => {
            let (one, other) = (random.below(table.present.len()), random.below(table.present.len()));
            table.present.swap(one, other);
            table.absent.swap(one, other);
        }
        _ => {
            table.present.push(random.below(2) as u64);
            table.absent.push(0);
        }
    }
    table
}
