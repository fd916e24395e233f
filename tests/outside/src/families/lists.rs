//! Demand 3: two lists of calls, whose runs may be of both modes, that end with the same places refined leave the same interval at
//! every place, the same count, and the same outcome of every further run on equal allowance, budget and mode.

use super::{make, run_told};
use crate::bench::Bench;
use crate::session::{Outcome, Session};
use crate::step::Step;
use reference::orders::{kinds_of, toward};
use reference::paper::fours;
use reference::random::Random;
use reference::scripts::{any_call, mostly_open};
use reference::{by_distance, Limits, Table, FULL, S};

pub fn pairs(bench: &mut Bench) -> Outcome {
    bench.cases("up to 8 faults", 250, |session, random| {
        let table = mostly_open(random, |random| random.table_within(8, 10));
        let calls = random.between(3, 14);
        pair(session, random, table, calls)
    })?;
    bench.cases("up to 12 faults", 40, |session, random| {
        let table = mostly_open(random, |random| random.table_within(12, 14));
        let calls = random.between(10, 24);
        pair(session, random, table, calls)
    })?;
    bench.cases("long lists", 5, |session, random| {
        let table = mostly_open(random, |random| random.table_within(12, 30));
        let calls = random.between(40, 80);
        pair(session, random, table, calls)
    })?;
    bench.cases("64 faults", 10, |session, random| {
        let table = mostly_open(random, |random| random.table_within(64, 24));
        session.opened(table)?;
        for _ in 0..random.between(4, 10) {
            if let Some((place, act)) = random.sound_refinement(session.table(), session.tree()) {
                session.refine(place, act)?;
            }
        }
        again_and_on(session, random)
    })?;
    bench.cases("ways that say nothing new", 120, |session, random| {
        let table = mostly_open(random, |random| random.redundant_table(8, 12));
        let calls = random.between(3, 14);
        pair(session, random, table, calls)
    })?;
    bench.cases("common parts", 120, |session, random| {
        let table = mostly_open(random, |random| random.common_table(8, 12));
        let calls = random.between(3, 14);
        pair(session, random, table, calls)
    })?;
    bench.cases("all three refinements", 120, |session, random| {
        of_all_kinds(session, random)?;
        again_and_on(session, random)
    })?;
    bench.cases("two tables in turn", 60, in_turn)?;
    bench.case("all 255 refinements", full)
}

/// Two trees of different tables, a call on one and a call on the other: neither knows of the other.
fn in_turn(session: &mut Session, random: &mut Random) -> Outcome {
    let tables = [0, 1].map(|_| mostly_open(random, |random| random.table_within(7, 9)));
    for call in 0..12 {
        let which = call % 2;
        session.make(Step::Tree(which))?;
        session.make(Step::Table(tables[which].clone()))?;
        if call < 2 {
            session.make(Step::Open)?;
        }
        let call = any_call(random, session.table(), session.tree());
        make(session, call)?;
    }
    Ok(())
}

/// A full tree, twice, and calls that its being full refuses.
fn full(session: &mut Session, random: &mut Random) -> Outcome {
    session.opened(fours())?;
    run_told(session, by_distance(0, 255), 0, FULL)?;
    again_and_on(session, random)?;
    for _ in 0..8 {
        let (place, act) = random.hand_refinement(session.table(), session.tree());
        session.refine(place, act)?;
    }
    Ok(())
}

fn pair(session: &mut Session, random: &mut Random, table: Table, calls: usize) -> Outcome {
    session.opened(table)?;
    for _ in 0..calls {
        let call = any_call(random, session.table(), session.tree());
        make(session, call)?;
    }
    again_and_on(session, random)
}

/// A tree that has refinements by independence, by the common part and by a fault.
fn of_all_kinds(session: &mut Session, random: &mut Random) -> Outcome {
    loop {
        session.opened(mostly_open(random, |random| random.common_table(9, 12)))?;
        for _ in 0..random.between(3, 10) {
            let call = any_call(random, session.table(), session.tree());
            make(session, call)?;
        }
        if kinds_of(session.table(), session.tree()) == 3 {
            return Ok(());
        }
    }
}

/// The same places refined on the other tree by another list, refused calls among them; then the same runs on both.
fn again_and_on(session: &mut Session, random: &mut Random) -> Outcome {
    let with_runs = random.one_in(2);
    let calls = toward(random, session.table(), session.tree(), with_runs);
    session.make(Step::Tree(1))?;
    session.make(Step::Open)?;
    for call in calls {
        make(session, call)?;
        if random.one_in(4) {
            idle(session, random)?;
        }
    }
    session.make(Step::Alike)?;
    for _ in 0..random.between(1, 3) {
        let limits = random.limits();
        let budget = if limits.budget > 255 { limits.budget } else { limits.budget.min(20) };
        for which in [0, 1] {
            session.make(Step::Tree(which))?;
            session.run(Limits { budget, ..limits })?;
        }
        session.make(Step::Agree)?;
        session.make(Step::Alike)?;
    }
    Ok(())
}

/// A call that refines nothing: a run that is refused or has no budget, or by hand what is none of the three.
fn idle(session: &mut Session, random: &mut Random) -> Outcome {
    let aim = random.aim();
    match random.below(5) {
        0 => session.run(Limits { allowance: S + 1, budget: 255, ..aim }),
        1 => session.run(Limits { budget: 256, ..aim }),
        2 => session.run(aim),
        3 => session.run(Limits { mode: random.between(2, 300) as u64, budget: 255, ..aim }),
        _ => {
            let (place, _) = random.hand_refinement(session.table(), session.tree());
            session.make(Step::Refine(place, random.between(3, 255) as u64, 0))
        }
    }
}
