//! Tables of all shapes and sizes, opened and grown by calls of every kind; tables at the edges; refused tables; and
//! tables opened over a tree that stands already.

use super::{drawn, make, told_number};
use crate::bench::Bench;
use crate::session::{Outcome, Session};
use crate::step::Step;
use reference::paper::{largest_ring, limits, p4, ring, stairs};
use reference::random::Random;
use reference::scripts::{any_call, mostly_open};
use reference::{by_distance, by_share, Act, Table, MOST_FAULTS, MOST_WAYS, S};

const TOP: u32 = S as u32;

/// Up to 12 faults, so that every place is set beside the count; and of any size.
pub fn tables(bench: &mut Bench) -> Outcome {
    bench.cases("up to 12 faults", 250, |session, random| {
        let table = mostly_open(random, |random| random.table_within(12, 16));
        session.opened(table)?;
        calls(session, random, 6)
    })?;
    bench.cases("up to 7 faults", 800, |session, random| {
        let table = mostly_open(random, |random| random.table_within(7, 9));
        session.opened(table)?;
        calls(session, random, 8)
    })?;
    bench.cases("common parts, up to 12 faults", 200, |session, random| {
        let table = mostly_open(random, |random| random.common_table(12, 16));
        session.opened(table)?;
        calls(session, random, 6)
    })?;
    bench.cases("of any size", 80, |session, random| {
        let table = mostly_open(random, Random::table);
        session.opened(table)?;
        session.run(random.narrowest(1, 5))?;
        for _ in 0..4 {
            let (place, act) = random.hand_refinement(session.table(), session.tree());
            session.refine(place, act)?;
        }
        Ok(())
    })
}

pub(super) fn calls(session: &mut Session, random: &mut Random, count: usize) -> Outcome {
    for _ in 0..count {
        let call = any_call(random, session.table(), session.tree());
        make(session, call)?;
    }
    Ok(())
}

/// Weights 0, 1, S - 1 and S with few faults and with 64, few ways and 128.
pub fn edges(bench: &mut Bench) -> Outcome {
    for weight in [0, 1, TOP - 1, TOP] {
        for faults in [1, 2, 3, MOST_FAULTS - 1, MOST_FAULTS] {
            for ways in [0, 1, 2, 5, MOST_WAYS - 1, MOST_WAYS] {
                let name = format!("weight {weight}, {faults} faults, {ways} ways");
                bench.case(&name, |session, random| {
                    let (present, absent) = random.words(faults, ways);
                    session.opened(Table { weights: vec![weight; faults], present, absent })?;
                    session.run(by_distance(0, 3))?;
                    calls(session, random, if faults < 8 { 5 } else { 0 })
                })?;
            }
        }
    }
    Ok(())
}

/// 9 to 13: the opening leaves the tree without nodes, which 16 refuses later.
pub fn refused(bench: &mut Bench) -> Outcome {
    bench.cases("a damaged table", 1500, |session, random| {
        let table = random.damaged_table();
        if random.one_in(2) {
            // Over a tree that stands already.
            session.opened(p4())?;
            session.run(by_distance(0, 1))?;
        }
        let number = table.table_number();
        session.opened(table)?;
        told_number(session, number)?;
        if number == 0 {
            return Ok(());
        }
        session.refine(vec![], Act::Fault(0))?;
        session.run(by_distance(S + 1, 256))?;
        session.run(by_share(S + 1, 256))?;
        session.make(Step::Table(p4()))?;
        session.refine(vec![0; 65], Act::Fault(0))?;
        told_number(session, 16)?;
        session.run(by_distance(0, 1))?;
        told_number(session, 16)
    })
}

/// Every record but the new root's is blank, and all of them if the table is refused.
pub fn over(bench: &mut Bench) -> Outcome {
    bench.case("over all 511 records", |session, _| {
        session.opened(ring())?;
        session.run(by_distance(0, 255))?;
        let sound = [p4(), stairs(), largest_ring(), ring()].map(|table| (0, table));
        let mut tables = limits().into_iter().chain(sound);
        tables.try_for_each(|(number, table)| over_a_copy(session, table, number))
    })?;
    bench.cases("over any tree", 150, |session, random| {
        let table = mostly_open(random, |random| random.table_within(10, 14));
        session.opened(table)?;
        calls(session, random, 5)?;
        let table = if random.one_in(2) { random.table_within(8, 10) } else { random.damaged_table() };
        let number = table.table_number();
        over_a_copy(session, table, number)
    })?;
    bench.cases("over any records", 60, |session, random| {
        let table = if random.one_in(2) { p4() } else { random.damaged_table() };
        session.make(Step::Lend(drawn::noise(random)))?;
        let number = table.table_number();
        over_a_copy(session, table, number)
    })
}

/// Opened over a copy of the tree at hand, which stays.
fn over_a_copy(session: &mut Session, table: Table, number: u64) -> Outcome {
    session.make(Step::Copy)?;
    session.make(Step::Tree(1))?;
    session.opened(table)?;
    told_number(session, number)?;
    session.run(by_distance(0, 2))?;
    told_number(session, number)?;
    session.make(Step::Tree(0))
}
