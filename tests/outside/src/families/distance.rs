//! The allowance is a distance: the sheets of C1 to C11, whose figures are among those easy to get wrong, and runs with
//! allowances about half the width that the root has after some refinements, where met begins.

use crate::bench::Bench;
use crate::session::{Mismatch, Outcome, Session};
use crate::step::Step;
use reference::distances::{cases, Case};
use reference::paper::ring;
use reference::scripts::mostly_open;
use reference::sheet::{encode, of_one_cue, Sheet};
use reference::{by_distance, Answer, Table, MOST_FAULTS};

pub fn distance(bench: &mut Bench) -> Outcome {
    for (name, sheet, text) in cases().into_iter().map(Case::printed) {
        bench.case(name, |session, _| printed(session, &sheet, text))?;
    }
    bench.cases("tables of up to 10 faults", 300, |session, random| {
        let table = mostly_open(random, |random| random.table_within(10, 14));
        about_half(session, &table, random.below(8) as u64)
    })?;
    bench.cases("ways that say nothing new", 100, |session, random| {
        let table = mostly_open(random, |random| random.redundant_table(9, 14));
        about_half(session, &table, random.below(8) as u64)
    })?;
    bench.cases("64 faults", 8, |session, random| {
        let table = mostly_open(random, |random| random.table_within(MOST_FAULTS, 20));
        about_half(session, &table, random.below(4) as u64)
    })?;
    bench.case("a full tree", |session, _| about_half(session, &ring(), 255))?;
    bench.cases("sheets of one cue", 200, |session, random| {
        let table = mostly_open(random, |random| random.table_within(8, 10));
        let allowance = half_after(session, &table, random.below(6) as u64)?;
        session.make(Step::Sheet(encode(&of_one_cue(table, by_distance(allowance, 30)))))?;
        session.make(Step::Report(100))
    })
}

fn printed(session: &mut Session, sheet: &Sheet, text: String) -> Outcome {
    session.make(Step::Sheet(encode(sheet)))?;
    session.make(Step::Report(text.len()))?;
    session.make(Step::Printed(text.into_bytes()))
}

/// Half the width, rounded down, that the root has after so many refinements of a run.
fn half_after(session: &mut Session, table: &Table, budget: u64) -> Result<u64, Mismatch> {
    session.opened(table.clone())?;
    session.run(by_distance(0, budget))?;
    let Answer { low, high, .. } = session.answer();
    Ok((high - low) / 2)
}

/// Runs from an opening with an allowance at that half, one less and one more, each followed by a run of budget 10.
fn about_half(session: &mut Session, table: &Table, budget: u64) -> Outcome {
    let half = half_after(session, table, budget)?;
    for allowance in [half.saturating_sub(1), half, half + 1] {
        session.opened(table.clone())?;
        session.run(by_distance(allowance, budget))?;
        session.run(by_distance(allowance, 10))?;
    }
    Ok(())
}
