//! Runs cut in two or more against one run, all by the same distance or all by the same share: the same tree byte for byte, the
//! same verdict, and reports that add up.

use crate::bench::Bench;
use crate::session::{Outcome, Session};
use crate::step::Step;
use reference::paper::ring;
use reference::random::Random;
use reference::scripts::mostly_open;
use reference::{Limits, Table};

pub fn cuts(bench: &mut Bench) -> Outcome {
    bench.cases("up to 10 faults", 500, |session, random| {
        let table = mostly_open(random, |random| random.table_within(10, 14));
        let parts = parts(random, 40);
        cut(session, random, table, &parts)
    })?;
    bench.cases("ways that say nothing new", 200, |session, random| {
        let table = mostly_open(random, |random| random.redundant_table(9, 14));
        let parts = parts(random, 20);
        cut(session, random, table, &parts)
    })?;
    bench.cases("common parts", 200, |session, random| {
        let table = mostly_open(random, |random| random.common_table(9, 14));
        let parts = parts(random, 20);
        cut(session, random, table, &parts)
    })?;
    bench.cases("64 faults", 3, |session, random| {
        let table = mostly_open(random, |random| random.table_within(64, 20));
        let parts = parts(random, 6);
        cut(session, random, table, &parts)
    })?;
    bench.case("all 255", |session, random| cut(session, random, ring(), &[100, 155]))
}

fn parts(random: &mut Random, most: usize) -> Vec<u64> {
    let parts = if random.one_in(4) { 3 } else { 2 };
    (0..parts).map(|_| random.between(0, most) as u64).collect()
}

/// From an opened tree, or one grown by hand.
fn cut(session: &mut Session, random: &mut Random, table: Table, parts: &[u64]) -> Outcome {
    session.opened(table)?;
    for _ in 0..random.below(4) {
        if let Some((place, act)) = random.sound_refinement(session.table(), session.tree()) {
            session.refine(place, act)?;
        }
    }
    let aim = if random.one_in(2) { random.narrowest(0, 0) } else { random.aim() };
    session.make(Step::Copy)?;
    parts.iter().try_for_each(|&budget| session.run(Limits { budget, ..aim }))?;
    session.make(Step::Tree(1))?;
    session.run(Limits { budget: parts.iter().sum(), ..aim })?;
    session.make(Step::Equal)
}
