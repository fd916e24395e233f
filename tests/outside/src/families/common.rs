//! The common part taken out: what stands below the root for E1 to E8, whose figures are among those easy to get wrong; the
//! most levels and the largest table; calls on tables with common parts; 16 for records that tell the same ways otherwise,
//! and for tables that only the faults left out tell apart.

use super::{make, record_at, run_told, scripts::play, tables, told_number};
use crate::bench::Bench;
use crate::session::{must, Outcome, Session};
use crate::step::{Field, Step};
use reference::common::{
    cases, deep, nested, only_out_differs, repeater, sheet, ways_of, wrong_out, Below, OUT, PRINTED,
};
use reference::leaf::Way;
use reference::paper::p4;
use reference::random::Random;
use reference::redundant::WAYS_BELOW_64;
use reference::scripts::mostly_open;
use reference::sheet::{encode, of_one_cue};
use reference::{by_distance, Act, DONE, FULL, MOST_FAULTS, MOST_WAYS};

/// The faults fixed present stand two fields behind the first word of ways.
const WAYSA: usize = WAYS_BELOW_64 as usize;
const PRESENT: usize = WAYSA + 2;
const TAKEN: usize = OUT as usize;

pub fn common(bench: &mut Bench) -> Outcome {
    for case in cases() {
        let (name, table, _, calls) = case.figures;
        bench.case(name, |session, _| {
            session.opened(table)?;
            calls.into_iter().try_for_each(|(call, _)| make(session, call))?;
            case.below.iter().try_for_each(|below| stands(session, below))
        })?;
    }
    bench.case("the sheet that has them as cues", |session, _| {
        session.make(Step::Sheet(encode(&sheet())))?;
        session.make(Step::Report(PRINTED.len()))?;
        session.make(Step::Printed(PRINTED.as_bytes().to_vec()))
    })?;
    bench.case("64 levels, half of them common parts", |session, _| {
        play(session, deep())?;
        session.opened(nested())?;
        run_told(session, by_distance(0, 255), 0, DONE)
    })?;
    bench.case("the largest table", |session, _| largest(session))?;
    bench.cases("any tables", 500, |session, random| {
        session.opened(drawn(random))?;
        tables::calls(session, random, 6)
    })?;
    bench.cases("runs alone", 300, |session, random| {
        session.opened(drawn(random))?;
        for _ in 0..3 {
            session.run(random.narrowest(1, 6))?;
        }
        Ok(())
    })?;
    bench.cases("a common part asked for everywhere", 200, |session, random| {
        session.opened(drawn(random))?;
        session.run(by_distance(0, random.below(3) as u64))?;
        everywhere(session)
    })?;
    bench.cases("tables of any size", 40, |session, random| {
        session.opened(random.common_table(MOST_FAULTS, MOST_WAYS))?;
        session.refine(vec![], Act::Common)?;
        session.run(by_distance(0, 3))
    })?;
    bench.cases("any sheets of one cue", 300, |session, random| {
        let limits = random.narrowest(30, 30);
        let sheet = of_one_cue(random.common_table(8, 10), limits);
        session.make(Step::Sheet(encode(&sheet)))?;
        session.make(Step::Report(100))
    })?;
    bench.case("a fault more left out", |session, _| one_more_out(session))?;
    bench.case("the same ways told otherwise", |session, _| told_otherwise(session))?;
    bench.case("tables that only the faults left out tell apart", |session, _| apart_by_out(session))
}

fn drawn(random: &mut Random) -> reference::Table {
    mostly_open(random, |random| random.common_table(10, 14))
}

/// The record at a place has just these ways, its faults fixed and left out dropped from them, and leaves out these.
fn stands(session: &Session, &(place, ways, out): &Below) -> Outcome {
    let node = record_at(session, place);
    let numbers = u128::from(node.waysb) << 64 | u128::from(node.waysa);
    let others = !(node.present | node.absent | node.out);
    let told = (0..MOST_WAYS).filter(|number| numbers >> number & 1 == 1).filter_map(|number| {
        let Way { present, absent, .. } = session.table().way(number)?;
        Some(Way { number, present: present & others, absent: absent & others })
    });
    must("the ways of a record", &ways_of(ways), &told.collect())?;
    let due = out.iter().fold(0u64, |word, fault| word | 1 << fault);
    must("the faults left out", &due, &node.out)
}

/// By hand at the root, and then, as by a run alone, until it is full.
fn largest(session: &mut Session) -> Outcome {
    session.opened(repeater())?;
    session.make(Step::Copy)?;
    session.refine(vec![], Act::Common)?;
    run_told(session, by_distance(0, 255), 0, FULL)?;
    session.make(Step::Tree(1))?;
    run_told(session, by_distance(0, 255), 0, FULL)?;
    session.make(Step::Equal)
}

/// At every place of the tree at hand, each on a copy.
fn everywhere(session: &mut Session) -> Outcome {
    let entries = session.tree().places(session.table());
    for entry in entries {
        session.make(Step::Copy)?;
        session.make(Step::Tree(1))?;
        session.refine(entry.place, Act::Common)?;
        session.make(Step::Tree(0))?;
    }
    Ok(())
}

/// Each refused by 16, though every figure is right.
fn one_more_out(session: &mut Session) -> Outcome {
    for (table, record, own, wrong) in wrong_out() {
        session.opened(table)?;
        session.refine(vec![], Act::Common)?;
        let out = Field::Of { record: record as usize, number: TAKEN };
        must("the faults left out", &own, &session.field(out))?;
        session.make(Step::Poke(out, wrong))?;
        sixteen(session)?;
    }
    Ok(())
}

/// P4's root by the common part {0}. Left: way 1 without fault 2 is {0} too, and so is way 0 with fault 1 fixed. Right: with
/// fault 0 fixed, or fixed and left out, its ways are {1} and {2} too. Every figure is right, and 16 refuses each.
fn told_otherwise(session: &mut Session) -> Outcome {
    let others: [(usize, &[(usize, u64)]); 4] = [
        (1, &[(WAYSA, 0b10), (TAKEN, 0b100)]),
        (1, &[(PRESENT, 0b010), (TAKEN, 0)]),
        (2, &[(PRESENT, 0b001), (TAKEN, 0)]),
        (2, &[(PRESENT, 0b001)]),
    ];
    for (record, fields) in others {
        session.opened(p4())?;
        session.refine(vec![], Act::Common)?;
        for &(number, value) in fields {
            session.make(Step::Poke(Field::Of { record, number }, value))?;
        }
        sixteen(session)?;
    }
    Ok(())
}

/// The tree at hand is refused by both calls.
fn sixteen(session: &mut Session) -> Outcome {
    session.run(by_distance(0, 0))?;
    told_number(session, 16)?;
    session.refine(vec![1], Act::Independence)?;
    told_number(session, 16)
}

/// Grown by one of two tables, a tree is refused with the other, and goes on with its own.
fn apart_by_out(session: &mut Session) -> Outcome {
    for (own, other) in only_out_differs() {
        session.opened(own.clone())?;
        session.refine(vec![], Act::Common)?;
        session.make(Step::Table(other))?;
        sixteen(session)?;
        session.make(Step::Table(own))?;
        session.run(by_distance(0, 1))?;
        told_number(session, 0)?;
    }
    Ok(())
}
