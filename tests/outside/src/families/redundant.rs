//! Ways that say nothing new: the sets that the root's record has for A1 to A10, whose figures are among those easy to get
//! wrong, and for the largest tables; calls on tables with many such ways; 16 for a record that has the number of one.

use super::{tables, told_number};
use crate::bench::Bench;
use crate::session::{must, Outcome, Session};
use crate::step::{Field, Step};
use reference::paper::{every_fault_named, stairs, H};
use reference::redundant::{cases, sheet, stored, PRINTED, WAYS_BELOW_64};
use reference::scripts::mostly_open;
use reference::sheet::{encode, of_one_cue};
use reference::{by_distance, Act, Table, MOST_FAULTS, MOST_WAYS};

/// The two fields of a record that hold the numbers of its ways.
const WAYSA: usize = WAYS_BELOW_64 as usize;
const WAYSB: usize = WAYSA + 1;

pub fn redundant(bench: &mut Bench) -> Outcome {
    for case in cases() {
        let (name, table, ..) = case.figures;
        bench.case(name, |session, _| {
            session.opened(table)?;
            has_set(session, case.staying)
        })?;
    }
    bench.case("the sheet that has them as cues", |session, _| {
        session.make(Step::Sheet(encode(&sheet())))?;
        session.make(Step::Report(PRINTED.len()))?;
        session.make(Step::Printed(PRINTED.as_bytes().to_vec()))
    })?;
    bench.case("of 128 ways one stays, or all", |session, _| largest(session))?;
    bench.cases("any tables", 600, |session, random| {
        let table = mostly_open(random, |random| random.redundant_table(9, 14));
        session.opened(table)?;
        tables::calls(session, random, 6)
    })?;
    bench.cases("tables of any size", 40, |session, random| {
        session.opened(random.redundant_table(MOST_FAULTS, MOST_WAYS))?;
        session.run(by_distance(0, 3))
    })?;
    bench.cases("any sheets of one cue", 300, |session, random| {
        let limits = random.narrowest(30, 30);
        let sheet = of_one_cue(random.redundant_table(8, 10), limits);
        session.make(Step::Sheet(encode(&sheet)))?;
        session.make(Step::Report(100))
    })?;
    bench.case("the number of a way that is left out", |session, _| left_out_stored(session))
}

/// The root's record has just these ways.
fn has_set(session: &Session, numbers: &[usize]) -> Outcome {
    let due = numbers.iter().fold(0u128, |set, number| set | 1 << number);
    let [low, high] = [WAYSA, WAYSB].map(|number| session.field(Field::Of { record: 0, number }));
    must("the root's set of ways", &due, &(u128::from(high) << 64 | u128::from(low)))
}

/// The last of 128 ways is in every other; of twice 64 the lowest numbered of the shortest stays; 128 that differ.
fn largest(session: &mut Session) -> Outcome {
    let longer = (0..MOST_WAYS - 1).map(|i| 1 | 2 << (i % (MOST_FAULTS - 1)));
    let last_stays =
        Table { weights: vec![H; MOST_FAULTS], present: longer.chain([1]).collect(), absent: vec![0; MOST_WAYS] };
    let all: Vec<usize> = (0..MOST_WAYS).collect();
    for (table, set) in [(last_stays, &[127][..]), (stairs(), &[63]), (every_fault_named(H), &all)] {
        session.opened(table)?;
        has_set(session, set)?;
        session.run(by_distance(0, 1))?;
    }
    Ok(())
}

/// Each refused by 16, though every figure is right.
fn left_out_stored(session: &mut Session) -> Outcome {
    for (table, refined, record, own, wrong) in stored() {
        session.opened(table)?;
        if refined {
            session.refine(vec![], Act::Fault(1))?;
        }
        let set = Field::Of { record: record as usize, number: WAYSA };
        must("the record's set of ways", &own, &session.field(set))?;
        session.make(Step::Poke(set, wrong))?;
        session.run(by_distance(0, 0))?;
        told_number(session, 16)?;
        session.refine(vec![], Act::Fault(0))?;
        told_number(session, 16)?;
    }
    Ok(())
}
